#!/usr/bin/env python3
"""Brings the repository's own words to snake case: definitions, lemmas, fields and locals of specs/ and proofs/, where the clauses,
comments and must-fail edits cite them too. Types and modules stay in camel case; `getD` is `get_or`, as in today's library.

usage: python3 tools/respell.py            at the top of the repository, right after port.py (a second run changes nothing)

Names of the library and of what Rattle makes keep their spelling: they are read from the library's own files. Functions of src/, exported
names, strings, inputs and outputs are not touched: in a .rt file only words that hold a dash or a capital after a small letter are turned,
and Rust's own words hold neither.
"""

import collections
import os
import re
import sys

LIBRARY = "/opt/rattle/rattle"
TOKEN = re.compile(r"(?<![\w'′₀-₉])[a-zα-ω_][\w'′₀-₉]*(?:-[\w'′₀-₉]+)*", re.UNICODE)
MADE = re.compile(r"(invariant|decreases|loop\d*|if\d*|returns|overflow|then|else|in|shl|shr|sub|add|mul|cast)-")


def needs(word):
    return "-" in word or re.search(r"[a-z0-9₀-₉][A-Z]", word) is not None


def snake(word):
    word = re.sub(r"\bgetD\b", "get_or", word)
    out = []
    for part in word.split("-"):
        if re.match(r"[A-Z]", part):
            out.append(part)  # a type's name stays as it is
            continue
        part = re.sub(r"([a-z0-9₀-₉])([A-Z])", lambda m: m.group(1) + "_" + m.group(2), part)
        out.append(part.lower())
    return "_".join(out)


def library_words():
    words = set()
    for folder, _, files in os.walk(LIBRARY):
        for f in files:
            if f.endswith(".antt"):
                with open(os.path.join(folder, f), encoding="utf-8", errors="replace") as it:
                    words.update(w for w in TOKEN.findall(it.read()) if needs(w))
    return words


def ours():
    for folder, dirs, files in os.walk("crates"):
        dirs[:] = sorted(d for d in dirs if d not in ("out", "data"))
        for f in sorted(files):
            if f.endswith((".rt", ".antt", ".edit")):
                yield os.path.join(folder, f)


DECL = re.compile(r"^\s*(?:(?:unfoldable|abbrev|pub|data|record|opaque|irreducible)\s+)*([^\s:(){}]+)\s*:", re.UNICODE)


def declared():
    names = set()
    for p in ours():
        if p.endswith(".antt"):
            with open(p, encoding="utf-8") as it:
                for line in it:
                    m = DECL.match(line)
                    if m and not line.startswith(("--", "use ")):
                        names.add(m.group(1))
    return names


def turn(text, table, comments):
    """Every word of the table in a text. In comments only what stands in backticks."""

    def words(s):
        return TOKEN.sub(lambda m: table.get(m.group(0), m.group(0)), s)

    lines = []
    for line in text.split("\n"):
        cut = comments.search(line) if comments else None
        if cut:
            head, tail = line[: cut.start()], line[cut.start() :]
            tail = re.sub(r"`[^`]*`", lambda m: words(m.group(0)), tail)
            lines.append(words(head) + tail)
        else:
            lines.append(words(line))
    return "\n".join(lines)


# Two words of ours that would fall together: (files, old, new).
APART = [
    ("crates/bits/proofs/CountLaws.antt", r"(?<![\w-])count-from(?![\w-])", "count-splits-from"),
    ("crates/recovery/proofs/RecoveryLaws.antt", r"(?<![\w-])all-below(?![\w-])", "all-below-holds"),
    ("crates/family_recovery/proofs/FamilyRecovery.antt", r"(?<![\w-])all-below(?![\w-])", "all-below-holds"),
    ("crates/plans/proofs/WrittenLaws.antt", r"\bfirst_count = ", "count-fits = "),
    ("crates/plans/proofs/JudgementLaws.antt", r"\bfirst_count = ", "count-fits = "),
    ("crates/plans/proofs/JudgementLaws.antt", r"fits\.first_count\b", "fits.count-fits"),
    ("crates/plans/specs/Demand2.antt", r"pub first_count :", "pub count-fits :"),
]


def keep_apart():
    for path, old, new in APART:
        if not os.path.exists(path):
            continue
        with open(path, encoding="utf-8") as it:
            text = it.read()
        with open(path, "w", encoding="utf-8") as it:
            it.write(re.sub(old, new, text))


# What port.py left in two spellings, or with an ending, where a name of the library had the same one.
MIXED = {
    "is_Known": "is_known",
    "not_Chosen": "not_chosen",
    "x_Fits": "x_fits",
    "Reads-Known": "reads_known",
    "L-positive": "L_positive",
    "parity_row_of_Q": "parity_row_of_q",
    "parity_row_of_P": "parity_row_of_p",
    "entry_of_of_Q": "entry_of_of_q",
    "entry_of_of_P": "entry_of_of_p",
    "may_write_lem": "may_write",
    "sum_is_lem": "sum_is",
    "get_d_tabulate": "get_or_tabulate",
}


def one_spelling():
    words = re.compile(r"(?<![\w'-])(?:" + "|".join(map(re.escape, MIXED)) + r")(?![\w'-])")
    for path in ours():
        with open(path, encoding="utf-8") as it:
            text = it.read()
        new = words.sub(lambda m: MIXED[m.group(0)], text)
        if new != text:
            with open(path, "w", encoding="utf-8") as it:
                it.write(new)


ANTT = re.compile(r"(?:^|\s)--(?=\s|$)")
RUST = re.compile(r"//")


def main(argv):
    if "--dry" not in argv:
        keep_apart()
    library, own = library_words(), declared() - {"append-nil", "or-false"}  # locals of ours; the library's where they are imported
    table, both = {}, set()
    seen = collections.defaultdict(set)
    plain = collections.defaultdict(set)
    for p in ours():
        if not p.endswith(".antt"):
            continue
        with open(p, encoding="utf-8") as it:
            text = "\n".join(ANTT.split(l)[0] if not ANTT.match(l) else "" for l in it.read().split("\n"))
        for m in TOKEN.finditer(text):
            w = m.group(0)
            if text[max(0, m.start() - 4) : m.start()] == "tie." or MADE.match(w) and w not in own:
                continue
            if needs(w):
                seen[w].add(p)
            else:
                plain[w].add(p)
    for w in seen:
        if w in library and w in own:
            both.add(w)
            table[w] = snake(w)
        elif w not in library:
            table[w] = snake(w)
    back = collections.defaultdict(set)
    for w, s in table.items():
        back[s].add(w)
    clashes = 0
    for s, ws in sorted(back.items()):
        if len(ws) > 1:
            where = set.intersection(*(seen[w] for w in ws))
            print("together:", s, sorted(ws), sorted(where)[:3], "declared" if all(w in own for w in ws) else "")
        if s in plain:
            where = set.union(*(seen[w] for w in ws)) & plain[s]
            if where:
                clashes += 1
                print("there already:", s, sorted(ws), sorted(where)[:4], "declared" if s in own else "", [w in own for w in ws])
    print("in the library too:", sorted(both))
    print(len(table), "words;", clashes, "there already")
    if "--dry" in argv:
        return
    for p in ours():
        with open(p, encoding="utf-8") as it:
            text = it.read()
        new = turn(text, table, ANTT if p.endswith(".antt") else RUST if p.endswith(".rt") else None)
        if new != text:
            with open(p, "w", encoding="utf-8") as it:
                it.write(new)
    one_spelling()


main(sys.argv[1:])
