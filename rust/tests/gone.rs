//! How the tool says how much is gone where no plan can be. Texts are compared word for word; of random codes the numbers are those of
//! the independent model, and what is offered is tried.
mod folder;
mod model;

use folder::{balanced, sheet, square_sheet, Folder};
use model::random::{self, Random};
use std::collections::BTreeMap;

/// Three data disks of two rows and a parity disk whose row 1 leaves disk 1 out.
fn thin_sheet() -> Vec<u8> {
    sheet(4, 2, 6, &[1, 2, 4, 8, 16, 32, 1 + 4 + 16, 2 + 32])
}

/// Two data disks of two rows and a sum, and on disks 0 and 2 a row of zeros.
fn zero_sheet() -> Vec<u8> {
    sheet(3, 2, 3, &[1, 0, 2, 4, 3, 0])
}

/// Three data disks of one row; disk 3 has what disk 1 has.
fn copy_sheet() -> Vec<u8> {
    sheet(4, 1, 3, &[1, 2, 4, 2])
}

fn with_codes() -> Folder {
    let folder = Folder::new();
    folder.put("thin", &thin_sheet());
    folder.put("square", &square_sheet());
    folder.put("zero", &zero_sheet());
    folder.put("copy", &copy_sheet());
    folder
}

/// Runs a line that finds no plan; its answer and its complaint must be these, line by line.
fn finds_no_plan(folder: &Folder, line: &str, answer: &[&str], complaint: &str) {
    let ran = folder.fails(line, 1);
    assert_eq!(ran.out.lines().collect::<Vec<_>>(), answer, "{line}");
    assert_eq!(ran.err, format!("navorzim: {complaint}\n"), "{line}");
}

#[test]
fn one_pattern_is_one_symbol() {
    let folder = with_codes();
    finds_no_plan(
        &folder,
        "plan thin 1 -o out",
        &[
            "Disk 1 is lost, and no plan can bring it back.",
            "1 of 2 symbols is beyond help: disk 1 row 1.",
            "It has 2 possibilities for each bit: as much as 1 symbol is gone.",
            "The pattern is 8, bits 001000 (bit 0 last): d3 (disk 1 row 1).",
            "Stripes that differ by it agree on all surviving disks, not on disk 1 row 1.",
            "A plan can bring its row 0 back: --want 0.",
        ],
        "disk 1 can't be rebuilt by any plan: 1 of 2 symbols is beyond help, 2 possibilities for each bit (thin)",
    );
    // Four symbols are lost and known but for one bit of all four together.
    finds_no_plan(
        &folder,
        "plan square 0,1 -o out",
        &[
            "Disks 0 and 1 are lost, and no plan can bring all of them back.",
            "4 of 4 symbols are beyond help: disks 0 and 1.",
            "Together they have 2 possibilities for each bit: as much as 1 symbol is gone.",
            "The pattern is 15, bits 1111 (bit 0 last): d0 (disk 0 row 0), d1 (disk 0 row 1), d2 (disk 1 row 0), d3 (disk 1 row 1).",
            "Stripes that differ by it agree on all surviving disks, not on disk 0 rows 0 1 and disk 1 rows 0 1.",
        ],
        "disks 0 and 1 can't all be rebuilt by any plan: 4 of 4 symbols are beyond help, together 2 possibilities for each bit (square)",
    );
}

#[test]
fn several_patterns_have_letters() {
    let folder = with_codes();
    finds_no_plan(
        &folder,
        "plan thin 0,1 -o out",
        &[
            "Disks 0 and 1 are lost, and no plan can bring all of them back.",
            "3 of 4 symbols are beyond help: disk 1, disk 0 row 0.",
            "Together they have 4 possibilities for each bit: as much as 2 symbols is gone.",
            "Pattern a is 5, d0 + d2: it shows on disk 0 row 0 and disk 1 row 0.",
            "Pattern b is 8, d3: it shows on disk 1 row 1.",
            "Stripes that differ by one of them agree on all surviving disks, not on the symbols it shows on.",
            "A plan can bring disk 0 row 1 back: --want s1.",
        ],
        "disks 0 and 1 can't all be rebuilt by any plan: 3 of 4 symbols are beyond help, together 4 possibilities for each bit (thin)",
    );
    // All that is wanted is gone.
    finds_no_plan(
        &folder,
        "plan square 0-2 --want 1,s0 -o out",
        &[
            "Disks 0, 1 and 2 are lost, and no plan can bring all of disk 0 rows 0 1, disk 1 row 1 and disk 2 row 1 back.",
            "4 of 4 wanted symbols are beyond help: disk 0, disk 1 row 1 and disk 2 row 1.",
            "Together they have 4 possibilities for each bit: as much as 2 symbols is gone.",
            "Pattern a is 9, d0 + d3: it shows on disk 0 row 0, disk 1 row 1 and disk 2 rows 0 1.",
            "Pattern b is 6, d1 + d2: it shows on disk 0 row 1, disk 1 row 0 and disk 2 rows 0 1.",
            "Stripes that differ by one of them agree on all surviving disks, not on the symbols it shows on.",
        ],
        "disk 0 rows 0 1, disk 1 row 1 and disk 2 row 1 can't all be rebuilt by any plan: 4 of 4 wanted symbols are beyond help, together 4 possibilities for each bit (square)",
    );
    let ran = folder.fails("plan square 0-2 --want s1,s3 -o out", 1);
    assert!(ran
        .out
        .contains("\n2 of 2 wanted symbols are beyond help: disk 0 row 1 and disk 1 row 1.\nTogether they have 4 "));
}

#[test]
fn nothing_survives() {
    let folder = with_codes();
    finds_no_plan(
        &folder,
        "plan zero 0-2 -o out",
        &[
            "Disks 0, 1 and 2 are lost, and no plan can bring all of them back.",
            "4 of 6 symbols are beyond help: disk 1, disk 0 row 0 and disk 2 row 0.",
            "Together they have 8 possibilities for each bit: as much as 3 symbols is gone.",
            "Pattern a is 1, d0: it shows on disk 0 row 0 and disk 2 row 0.",
            "Pattern b is 2, d1: it shows on disk 1 row 0 and disk 2 row 0.",
            "Pattern c is 4, d2: it shows on disk 1 row 1.",
            "Stripes that differ by one of them differ, with no surviving disk to tell by, on the symbols it shows on.",
            "A plan can bring disk 0 row 1 and disk 2 row 1 back: --want s1,s5.",
        ],
        "disks 0, 1 and 2 can't all be rebuilt by any plan: 4 of 6 symbols are beyond help, together 8 possibilities for each bit (zero)",
    );
    let ran = folder.fails("plan square 0-3 -o out", 1);
    assert!(
        ran.out.contains("\n8 of 8 symbols are beyond help: disks 0, 1, 2 and 3.\nTogether they have 16 "),
        "{ran:?}"
    );
}

#[test]
fn many_patterns_are_counted() {
    let folder = Folder::new();
    let identity: Vec<u64> = (0..64).map(|t| 1 << t).collect();
    folder.put("all", &sheet(2, 32, 64, &identity));
    let bits = format!("{}1", "0".repeat(63));
    finds_no_plan(
        &folder,
        "plan all 0,1 -o out",
        &[
            "Disks 0 and 1 are lost, and no plan can bring all of them back.",
            "64 of 64 symbols are beyond help: disks 0 and 1.",
            "Together they have 2^64 possibilities for each bit: as much as 64 symbols is gone.",
            &format!("The first of 64 patterns is 1, bits {bits} (bit 0 last): d0 (disk 0 row 0)."),
            "Stripes that differ by it differ, with no surviving disk to tell by, on disk 0 row 0.",
        ],
        "disks 0 and 1 can't all be rebuilt by any plan: 64 of 64 symbols are beyond help, together 2^64 possibilities for each bit (all)",
    );
    // Each of these numbers as long as it says something.
    for (gone, said, lettered) in
        [(1, "2", false), (2, "4", true), (8, "256", true), (9, "512", false), (10, "1024", false), (11, "2^11", false)]
    {
        let want = format!("s0-s{}", gone - 1);
        let ran = folder.fails(&format!("plan all 0 --want {want} -o out"), 1);
        assert!(ran.err.contains(&format!("{said} possibilities for each bit (all)")), "{gone}: {}", ran.err);
        assert_eq!(ran.out.contains("\nPattern a is 1, d0: "), lettered, "{gone}: {}", ran.out);
        assert_eq!(
            ran.out.contains(&format!("\nThe first of {gone} patterns is 1, ")),
            gone > 8,
            "{gone}: {}",
            ran.out
        );
    }
}

#[test]
fn where_nothing_is_gone_nothing_is_said_of_it() {
    let folder = with_codes();
    for (line, said) in [
        ("plan thin 0,1 --want s1 -o out", "2 steps, reads 2 symbols, brings back disk 0 row 1"),
        ("plan zero 0-2 --want s1,s5 -o out", "2 steps, reads 0 symbols, brings back disk 0 row 1 and disk 2 row 1"),
        ("plan zero 0,2 --want 1 -o out", "2 steps, reads 0 symbols, brings back disk 0 row 1 and disk 2 row 1"),
        ("plan copy 0,1 --want s1 -o out", "1 step, reads 1 symbol, brings back disk 1 row 0"),
    ] {
        let answer = folder.done(line);
        assert!(answer.ends_with(&format!(" bytes, {said}\n")), "{line}: {answer}");
    }
    assert!(!folder.done("show thin --disk 0,1 --want s1").contains("beyond help"));
}

#[test]
fn the_example_of_the_readme_is_what_is_printed() {
    let folder = Folder::new();
    folder.done("family liberation 5 5 -o code.sheet");
    let readme = include_str!("../../README.md").lines().map(str::trim_start);
    let mut quoted = readme.skip_while(|line| !line.starts_with("$ navorzim plan "));
    let line = quoted.next().and_then(|line| line.strip_prefix("$ navorzim ")).expect("an example");
    let answer: Vec<&str> = quoted.take_while(|line| !line.is_empty()).collect();
    assert_eq!(folder.fails(line, 1).out.lines().collect::<Vec<_>>(), answer);
    assert_eq!(answer.len(), 6);
}

/// A random code, lost disks, wanted symbols, and the last two as they are typed.
struct Case {
    code: model::Code,
    disks: Vec<u8>,
    wanted: Vec<usize>,
    lost: String,
    want: String,
}

impl Case {
    fn new(folder: &Folder, random: &mut Random) -> Case {
        let code = random::code(random);
        let disks = random::disks(random, &code);
        let (wanted, want) = match random.one_in(2) {
            true => (code.strips(&disks), String::new()),
            false => {
                let list = random::list(random, &code, &disks);
                (list.iter().map(|&symbol| symbol.into()).collect(), format!("--want {}", typed(&list, "s")))
            }
        };
        folder.put("code", &code.sheet());
        Case { lost: typed(&disks, ""), code, disks, wanted, want }
    }

    /// Whether a symbol can be rebuilt by itself.
    fn is_known(&self, symbol: usize) -> bool {
        model::can_be_rebuilt(&self.code, &self.disks, &[symbol])
    }

    /// What a picture must say of a symbol, before the patterns.
    fn meaning(&self, symbol: usize) -> &'static str {
        let is_lost = self.code.strips(&self.disks).contains(&symbol);
        match (is_lost, self.wanted.contains(&symbol)) {
            (true, true) if self.is_known(symbol) => "lost, still known",
            (true, true) => "lost, beyond help",
            (true, false) => "lost, not wanted",
            (false, _) => "survives, ",
        }
    }

    /// The letters of the patterns that are odd on a symbol.
    fn letters(&self, symbol: usize, patterns: &BTreeMap<char, u128>) -> String {
        let row = &self.code.rows[symbol];
        let odd = |pattern: u128| (0..row.len()).filter(|&t| row[t] && pattern >> t & 1 == 1).count() % 2 == 1;
        patterns.iter().filter(|(_, &pattern)| odd(pattern)).map(|(&letter, _)| letter).collect()
    }
}

/// Numbers with a letter before each, as the tool takes them.
fn typed(numbers: &[u8], before: &str) -> String {
    let typed: Vec<String> = numbers.iter().map(|number| format!("{before}{number}")).collect();
    typed.join(",")
}

/// What follows a word in a text, up to another.
fn between<'a>(text: &'a str, before: &str, after: &str) -> Option<&'a str> {
    text.split_once(before)?.1.split_once(after).map(|(found, _)| found)
}

#[test]
fn what_is_said_is_true_and_what_is_offered_can_be_had() {
    let (folder, mut random) = (Folder::new(), Random::new(933));
    let (mut stuck, mut offered) = (0, 0);
    for _ in 0..400 {
        let case = Case::new(&folder, &mut random);
        let Case { code, disks, wanted, lost, want } = &case;
        let ran = folder.run(&format!("plan code {lost} {want} -o plan"));
        let gone = model::gone(code, disks, wanted);
        assert_eq!(ran.status, if gone == 0 { 0 } else { 1 }, "{code:?} {disks:?} {wanted:?}");
        if gone == 0 {
            continue;
        }
        stuck += 1;
        let (known, beyond): (Vec<usize>, Vec<usize>) = wanted.iter().partition(|&&symbol| case.is_known(symbol));
        let head = format!("{} of {} ", beyond.len(), wanted.len());
        assert!(ran.err.contains(&format!(": {head}")) && ran.out.contains(&format!("\n{head}")), "{ran:?} {beyond:?}");
        let symbols = if gone == 1 { "1 symbol".to_string() } else { format!("{gone} symbols") };
        assert!(ran.out.contains(&format!(": as much as {symbols} is gone.\n")), "{ran:?} {gone}");
        let offer = between(&ran.out, ": --want ", ".\n");
        assert_eq!(offer.is_some(), !known.is_empty(), "{ran:?}");
        if let Some(offer) = offer {
            offered += 1;
            folder.done(&format!("plan code {lost} --want {offer} -o plan"));
            assert!(folder.done(&format!("check code {lost} plan")).starts_with("accepted, "));
            let plan = model::read_plan(code, disks, &folder.get("plan")).expect("a plan");
            assert_eq!(plan.wanted, known, "{ran:?}");
        }
    }
    println!("{stuck} without a plan, {offered} offers");
    assert!(stuck > 100 && offered > 30, "{stuck} {offered}");
}

/// The patterns of an answer, by their letters.
fn patterns(answer: &str) -> BTreeMap<char, u128> {
    let lines = answer.lines().filter_map(|line| line.strip_prefix("Pattern "));
    lines
        .map(|line| {
            let number = between(line, " is ", ",").and_then(|number| number.parse().ok());
            (line.chars().next().expect("a letter"), number.expect("a number"))
        })
        .collect()
}

/// The words of the texts in a group of a picture.
fn texts(group: &str) -> Vec<&str> {
    group.lines().filter_map(|line| between(line, ">", "</text>").filter(|_| line.starts_with("<text"))).collect()
}

/// Of each symbol of a picture: what its title says in parentheses, and the letters at its top right.
fn drawn_symbols(picture: &str) -> Vec<(String, String)> {
    let groups: Vec<&str> =
        picture.split("<g>").skip(1).map(|rest| rest.split("</g>").next().expect("a group")).collect();
    let drawn = groups.iter().map(|group| {
        let title = between(group, "<title>", "</title>").expect("a title");
        let (head, meaning) = title.rsplit_once(" (").expect("a meaning");
        let number: usize = head.split(' ').next().and_then(|number| number.parse().ok()).expect("a number");
        let corner = group.lines().find(|line| line.contains(r#"text-anchor="end""#));
        let letters = corner.map_or("", |line| between(line, "\"end\">", "</text>").expect("letters"));
        assert_eq!(texts(group)[0], number.to_string(), "{group}");
        (number, (meaning.trim_end_matches(')').to_string(), letters.to_string()))
    });
    drawn.collect::<BTreeMap<usize, _>>().into_values().collect()
}

#[test]
fn pictures_mark_what_each_pattern_shows_on() {
    let (folder, mut random) = (Folder::new(), Random::new(934));
    let (mut drawn, mut lettered) = (0, 0);
    for _ in 0..300 {
        let case = Case::new(&folder, &mut random);
        let Case { code, lost, want, .. } = &case;
        let planned = folder.run(&format!("plan code {lost} {want} -o plan"));
        if planned.status == 0 {
            continue;
        }
        drawn += 1;
        let patterns = patterns(&planned.out);
        lettered += usize::from(!patterns.is_empty());
        assert_eq!(folder.run(&format!("show code --disk {lost} {want} --svg picture")).status, 1);
        let picture = String::from_utf8(folder.get("picture")).expect("text");
        balanced(&picture);
        let symbols = drawn_symbols(&picture);
        assert_eq!(symbols.len(), code.symbols());
        for (symbol, (meaning, letters)) in symbols.iter().enumerate() {
            let (expected, shown) = (case.meaning(symbol), case.letters(symbol, &patterns));
            assert_eq!(*letters, shown, "{symbol}: {code:?} {lost} {want}");
            let said = match shown.len() {
                0 => String::new(),
                1 => format!(", pattern {shown}"),
                _ => format!(", patterns {}", shown.chars().map(String::from).collect::<Vec<_>>().join(" ")),
            };
            assert!(meaning.starts_with(expected) && meaning.ends_with(&said), "{symbol}: {meaning} {expected} {said}");
        }
    }
    println!("{drawn} pictures, {lettered} with letters");
    assert!(drawn > 80 && lettered > 30, "{drawn} {lettered}");
}

#[test]
fn grids_have_the_letters_too() {
    let folder = with_codes();
    let ran = folder.fails("show square --disk 0-2 --want s1,s3", 1);
    for piece in [
        "row 0  │-b  0 d0    │-a  2 d2    │-ab 4 d0+d2 │○   6 d0+d3 │\n",
        "row 1  │≠a  1 d1    │≠b  3 d3    │-ab 5 d1+d3 │○   7 d1+d2 │\n",
        "Before the\nnumber: the patterns that show on it.\n",
        "  ≠ lost, beyond help: 2\n  - lost, not wanted: 4\n  ○ survives, every pattern cancels out: 2\nPattern a is 6, d1 + d2: it shows on ",
    ] {
        assert!(ran.out.contains(piece), "{piece}: {}", ran.out);
    }
    // One pattern needs no letter.
    let ran = folder.fails("show thin --disk 1", 1);
    assert!(ran.out.contains("│= 2 d2") && ran.out.contains("│≠ 3 d3"), "{}", ran.out);
    assert!(ran.out.contains("  ≠ lost, beyond help: 1\n  = lost, still known: 1\n"), "{}", ran.out);
    assert!(!ran.out.contains("Before the"), "{}", ran.out);
}

/// An array of a code in which disks are lost.
fn array(folder: &Folder, code: &str, lost: &[u8]) {
    folder.put("data", &Random::new(9).bytes(50));
    folder.done(&format!("split {code} --symbol 2 data -o array"));
    lost.iter().for_each(|disk| folder.remove(&format!("array/disk-{disk}")));
}

#[test]
fn arrays_say_how_much_is_gone() {
    let folder = with_codes();
    array(&folder, "thin", &[0, 1]);
    let account = [
        "Together they have 4 possibilities for each bit: as much as 2 symbols is gone.",
        "Pattern a is 5, d0 + d2: it shows on disk 0 row 0 and disk 1 row 0.",
        "Pattern b is 8, d3: it shows on disk 1 row 1.",
        "Stripes that differ by one of them agree on all surviving disks, not on the symbols it shows on.",
        "Still known: disk 0 row 1, but restore brings back whole disks only.",
        "If disk 1 came back, the other could be rebuilt.",
    ];
    let lost = "Disks 0 and 1 are lost, and no plan can bring all of them back.";
    let whole = [&[lost, "3 of 4 symbols are beyond help: disk 1, disk 0 row 0."][..], &account].concat();
    let complaint = "disks 0 and 1 can't all be rebuilt by any plan: 3 of 4 symbols are beyond help, together 4 possibilities for each bit (array/array)";
    finds_no_plan(&folder, "restore array", &whole, complaint);
    finds_no_plan(&folder, "restore array --dry-run", &whole, complaint);
    let ran = folder.fails("status array", 1);
    assert!(ran.out.ends_with(&format!("  disk 3         disk-3  20 bytes\n{}\n", whole.join("\n"))), "{}", ran.out);
    assert_eq!(ran.err, format!("navorzim: {complaint}\n"));
    let lost = "Disks 0 and 1 are lost, and no plan can bring all of disk 0 rows 0 1 and disk 1 rows 0 1 back.";
    let joined = [&[lost, "3 of 4 wanted symbols are beyond help: disk 1, disk 0 row 0."][..], &account].concat();
    let complaint = "disk 0 rows 0 1 and disk 1 rows 0 1 can't all be rebuilt by any plan: 3 of 4 wanted symbols are beyond help, together 4 possibilities for each bit (array/array)";
    finds_no_plan(&folder, "join array -o out", &joined, complaint);
}

#[test]
fn disks_that_can_be_restored_by_themselves_are_named() {
    let folder = with_codes();
    array(&folder, "copy", &[0, 1]);
    let said = [
        "Disks 0 and 1 are lost, and no plan can bring all of them back.",
        "1 of 2 symbols is beyond help: disk 0.",
        "It has 2 possibilities for each bit: as much as 1 symbol is gone.",
        "The pattern is 1, bits 001 (bit 0 last): d0 (disk 0 row 0).",
        "Stripes that differ by it agree on all surviving disks, not on disk 0 row 0.",
        "Still known: disk 1.",
        "restore can bring disk 1 back: restore ARRAY 1.",
        "If disk 0 came back, the other could be rebuilt.",
    ];
    let complaint = "disks 0 and 1 can't all be rebuilt by any plan: 1 of 2 symbols is beyond help, 2 possibilities for each bit (array/array)";
    finds_no_plan(&folder, "restore array", &said, complaint);
    // What stands in the disk's place isn't replaced, so that nothing is offered.
    folder.put("array/disk-1", b"mine");
    let ran = folder.fails("status array", 1);
    assert!(ran.out.contains("\nStill known: disk 1.\nIf disk 0 came back"), "{}", ran.out);
    folder.remove("array/disk-1");
    folder.done("restore array 1");
    // One disk that is gone: no other could help.
    let ran = folder.fails("restore array", 1);
    assert!(ran.out.ends_with("agree on all surviving disks, not on disk 0 row 0.\n"), "{}", ran.out);
}

#[test]
fn what_is_said_of_arrays_is_true() {
    let mut random = Random::new(935);
    let (mut stuck, mut offered, mut enough) = (0, 0, 0);
    for _ in 0..120 {
        let code = random::code(&mut random);
        let lost = random::disks(&mut random, &code);
        let folder = Folder::new();
        folder.put("code", &code.sheet());
        folder.put("data", b"some");
        // A code in which data stand nowhere alone makes no array.
        if folder.run("split code --symbol 1 data -o array").status != 0 {
            continue;
        }
        lost.iter().for_each(|disk| folder.remove(&format!("array/disk-{disk}")));
        if model::can_be_rebuilt(&code, &lost, &code.strips(&lost)) {
            continue;
        }
        stuck += 1;
        let ran = folder.fails("status array", 1);
        assert!(!ran.out.contains("--want"), "{}", ran.out);
        let whole = |disk: &u8| model::can_be_rebuilt(&code, &lost, &code.strips(&[*disk]));
        let whole: Vec<u8> = lost.iter().copied().filter(whole).collect();
        let offer = between(&ran.out, "restore ARRAY ", ".\n");
        assert_eq!(offer.unwrap_or_default(), typed(&whole, ""), "{}", ran.out);
        let others = |disk: u8| lost.iter().copied().filter(|&other| other != disk).collect::<Vec<u8>>();
        let helps =
            |disk: &u8| lost.len() > 1 && model::can_be_rebuilt(&code, &others(*disk), &code.strips(&others(*disk)));
        let helpful: Vec<String> = lost.iter().filter(|disk| helps(disk)).map(u8::to_string).collect();
        let said = between(&ran.out, "\nIf ", " came back, the other").unwrap_or_default();
        let named: Vec<&str> = said.split(|c: char| !c.is_ascii_digit()).filter(|word| !word.is_empty()).collect();
        assert_eq!(named, helpful, "{}", ran.out);
        enough += usize::from(!named.is_empty());
        if let Some(offer) = offer {
            offered += 1;
            folder.done(&format!("restore array {offer}"));
        }
    }
    println!("{stuck} arrays, {offered} offers, {enough} that one disk would help");
    assert!(stuck > 15 && enough > 3, "{stuck} {offered} {enough}");
}
