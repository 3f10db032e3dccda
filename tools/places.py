#!/usr/bin/env python3
"""Lists the places in src/ that docs/DESIGN-PASS.md counts, point by point: python3 tools/places.py [-v] [REPOSITORY]

Without -v only the numbers are printed. A line that is listed is a candidate; the page says what became of it.
"""
import difflib
import re
import sys
from pathlib import Path

LINES = {
    "1a own enums": r"^\s*(pub )?enum [A-Z]",
    "1b an answer or a flag with values beside it": r"^\s+(pub )?(verdict|answer|planned|listed|priced|settled|in_spare|holds_sum): ",
    "1c refusals matched by hand": r"\b(Verdict|Checked|StepReading|Written|Planned|Listed|Tested|Priced|Swap)::(Fine|Refused|Nothing)\b",
    "1d numbers for kinds": r"\b(kind|edition|parity|which|call): (usize|u8)\b",
    "3 loops by hand": r"^\s*('\w+: )?(while|loop)\b",
    "4a equality and tests of variants": r"fn (is_same|same\w*|is_fine|is_zero|contains|is_away|equals?)\b",
    "4b conversions": r"fn (decoded|verdict_of|answer_of|out_\w+|family_of|float_of|fill_step|state_of_kind|entry_of|disk_byte|patterns_answer|without_patterns)\b",
    "4c printing": r"fn (print\w*|push\w*|end_line)\b",
    "6a arrays with a number beside": r"\b(sets|rows|patterns|images|equations|remaining|pivots|surviving|start|sets|entries|bytes|lost): (BitSets|\[u8; \w+\])",
    "6b numbers beside arrays": r"\b(count|len|symbols|total): usize,?$",
    "7 switches on a number that says what to run": r"^\s*match (call|kind_of\(\w+\)|which|count|kind)\b",
}


def sources(root):
    return sorted(Path(root).glob("crates/*/src/**/*.rt"))


def functions(text):
    """Each function with its name, its clauses and its body."""
    for found in re.finditer(r"^ *(?:pub )?(?:extern \"C\" )?fn (\w+)(.*?)\n *\{\n(.*?)\n *\}\n", text, re.S | re.M):
        yield found.group(1), found.group(2), found.group(3)


def facts(head):
    """The facts that a function's requires joins."""
    for clause in re.findall(r"requires(?: \w+)? \{ (.*?) \}\n", head + "\n", re.S):
        depth, fact = 0, ""
        for part in re.split(r"( × )", clause):
            if part == " × " and depth == 0:
                yield fact.strip()
                fact = ""
            else:
                fact += part
                depth += part.count("(") - part.count(")")
        yield fact.strip()


def shape(body):
    """A body with its names and numbers taken out, for comparing."""
    return re.sub(r"\b\d+\b", "0", re.sub(r"\b[a-z_]\w*\b", "n", body)).split()


def report(title, hits, verbose):
    print(f"{title}: {len(hits)}")
    if verbose:
        for hit in hits:
            print("   ", hit)


def main():
    arguments = [a for a in sys.argv[1:] if a != "-v"]
    verbose = "-v" in sys.argv
    root = Path(arguments[0] if arguments else ".")
    all_functions, repeated, together = [], {}, {}
    hits = {title: [] for title in LINES}
    for path in sources(root):
        text = path.read_text()
        name = f"{path.parts[-3]}/{path.name}"
        for number, line in enumerate(text.split("\n"), 1):
            if line.lstrip().startswith("//") or "ghost use" in line:
                continue
            for title, pattern in LINES.items():
                if re.search(pattern, line):
                    hits[title].append(f"{name}:{number}: {line.strip()}")
        for function, head, body in functions(text):
            all_functions.append((name, function, body))
            for fact in facts(head):
                repeated.setdefault(re.sub(r"^\((.*)\)$", r"\1", fact), set()).add(f"{name} {function}")
            parameters = re.findall(r"(\w+): (?:&(?:'a )?(?:mut )?)?([\w\[\]<>; ]+?)[,)]", head.split("requires")[0].split("ensures")[0])
            for i in range(len(parameters) - 2):
                together.setdefault(parameters[i : i + 3] and tuple(p[0] for p in parameters[i : i + 3]), set()).add(f"{name} {function}")
    for title in LINES:
        report(title, hits[title], verbose)
    twins = []
    for i, (name, function, body) in enumerate(all_functions):
        one = shape(body)
        if len(one) < 8:
            continue
        for other_name, other, other_body in all_functions[i + 1 :]:
            two = shape(other_body)
            if len(two) >= 8 and abs(len(one) - len(two)) <= 2 and difflib.SequenceMatcher(None, one, two).ratio() >= 0.93:
                twins.append(f"{name} {function} ~ {other_name} {other}")
    report("2 functions alike but for names and numbers", twins, verbose)
    report("5a facts required by three functions or more", [f"{len(v)} × {k}" for k, v in sorted(repeated.items(), key=lambda x: -len(x[1])) if len(v) >= 3], verbose)
    report("5b three parameters in a row in three functions or more", [f"{len(v)} × {', '.join(k)}" for k, v in sorted(together.items(), key=lambda x: -len(x[1])) if len(v) >= 3], verbose)


main()
