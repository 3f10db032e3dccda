//! The tool, run as a program over temporary folders. What it must answer comes from the worked cases of the rules and from the
//! independent model; after every failure the folder is compared with what it was, byte for byte.
mod folder;
mod model;

use folder::{balanced, sheet, square_sheet, Folder, P1, P2, TOOL};
use model::random::{self, Random};
use std::ffi::OsStr;
use std::fs::{self, File, Permissions};
use std::os::unix::fs::{symlink, PermissionsExt};
use std::os::unix::net::UnixListener;
use std::path::Path;
use std::process::{Command, Stdio};

/// P2 with one byte changed.
fn p2_with(at: usize, byte: u8) -> Vec<u8> {
    let mut plan = P2.to_vec();
    plan[at] = byte;
    plan
}

/// Stripes of Liberation, w 5, k 5, of so many stripes with symbols of 64 bytes, and their data.
fn liberation_stripes(folder: &Folder, count: usize) -> (Vec<u8>, Vec<u8>) {
    let sheet = model::family("liberation", 5, 5).expect("listed");
    let data = Random::new(count as u64).bytes(count * 25 * 64);
    let stripes =
        data.chunks(25 * 64).flat_map(|data| model::encode(&sheet, 64, data, 35 * 64).expect("encoded")).collect();
    folder.put("code", &sheet);
    (data, stripes)
}

/// The stripes with a disk's strip ruined in each.
fn ruined(stripes: &[u8], disk: usize) -> Vec<u8> {
    let mut ruined = stripes.to_vec();
    let strip = 5 * 64;
    for stripe in ruined.chunks_mut(35 * 64) {
        stripe[disk * strip..(disk + 1) * strip].fill(0xA5);
    }
    ruined
}

#[test]
fn families_are_written() {
    let folder = Folder::new();
    for (line, name, a, b) in [
        ("liberation 5 5", "liberation", 5, 5),
        ("liberation 7 2", "liberation", 7, 2),
        ("row-diagonal 3", "row-diagonal", 3, 0),
        ("evenodd 7", "evenodd", 7, 0),
        ("single-parity 63 1", "single parity", 63, 1),
        ("single-parity 1 32", "single parity", 1, 32),
    ] {
        let said = folder.done(&format!("family {line} -o code"));
        let expected = model::family(name, a, b).expect("listed");
        assert_eq!(folder.get("code"), expected, "{line}");
        assert!(said.contains(&format!("{} bytes", expected.len())), "{said}");
    }
    let sentence = folder.refused("family liberation 4 4 -o code", 36, 0);
    assert!(sentence.ends_with("liberation w 4, k 4"), "{sentence}");
    folder.refused("family single-parity 18446744073709551615 2 -o new", 36, 0);
    folder.refused("family row-diagonal 4 -o new", 36, 0);
    folder.refused("family evenodd 11 -o new", 36, 0);
}

#[test]
fn old_row_diagonal_sheets_are_known_and_stay_good() {
    let folder = Folder::new();
    for p in [3u8, 5, 7] {
        folder.done(&format!("family row-diagonal {p} -o code"));
        let shown = folder.done("show code");
        assert!(shown.contains(&format!("Row-diagonal, p {p}:")), "{shown}");
        let old = model::old_row_diagonal(p.into());
        folder.put("old", &old);
        let shown = folder.done("show old");
        assert!(shown.contains(&format!("Row-diagonal as before the correction, p {p}:")), "{shown}");
        let data: Vec<u8> = (0..usize::from(p - 1).pow(2) * 2).map(|i| i as u8).collect();
        folder.put("data", &data);
        folder.done("encode old --symbol 2 data -o stripes");
        let whole = folder.get("stripes");
        for disk in 0..=usize::from(p) {
            folder.done(&format!("plan old {disk} -o plan"));
            folder.done(&format!("check old {disk} plan"));
            let mut lost = whole.clone();
            let strip = 2 * usize::from(p - 1);
            lost[disk * strip..(disk + 1) * strip].fill(0xA5);
            folder.put("lost", &lost);
            folder.done(&format!("rebuild old {disk} plan --symbol 2 lost -o back"));
            assert_eq!(folder.get("back"), whole, "p {p}, disk {disk}");
        }
    }
}

#[test]
fn what_is_off_is_shown() {
    let folder = Folder::square();
    folder.put("plan", &p2_with(20, 6));
    let ran = folder.run("show code --disk 0 --plan plan --svg drawing");
    assert_eq!(ran.status, 1);
    assert_eq!(
        ran.err,
        "navorzim: refused 21 at 64: row 1 of the failed disk ends wrong: data symbol 0 is off (plan)\n"
    );
    for piece in [
        "The plan is refused: row 1 ends wrong.",
        "Symbol 1 is d1, and the steps make d0 + d2 + d3 of it: d0 is off, and d1 d2 d3.",
        "! lost, ends wrong: 1",
        "× lost: 1",
        "1: 0 += 4",
    ] {
        assert!(ran.out.contains(piece), "{piece}: {}", ran.out);
    }
    let picture = String::from_utf8(folder.get("drawing")).expect("text");
    assert!(picture.contains("<title>1 = d1 (lost, ends wrong)</title>"), "{picture}");
    texts_fit(&picture, "a plan that ends wrong");
    balanced(&picture);
    // A row that comes out as zero, and one that should be zero.
    folder.put("zero", &sheet(2, 1, 1, &[1, 0]));
    folder.put("plan", &[6, 1, 2, 1, 1, 0, 0, 1, 0, 0, 0, 0]);
    let ran = folder.fails("show zero --disk 0 --plan plan", 1);
    assert!(ran.out.contains("Symbol 0 is d0, and the steps make zero of it: d0 is off."), "{}", ran.out);
}

#[test]
fn data_is_encoded() {
    let folder = Folder::square();
    folder.done("encode code --symbol 1 data -o out");
    assert_eq!(folder.get("out"), P1);
    // An option's value may be joined to it, and `--` ends the options.
    folder.done("encode --symbol=1 --output=again -- code data");
    assert_eq!(folder.get("again"), P1);
}

#[test]
fn many_stripes_are_encoded() {
    let folder = Folder::new();
    let (data, stripes) = liberation_stripes(&folder, 7);
    folder.put("data", &data);
    let said = folder.done("encode code --symbol 64 data -o out");
    assert_eq!(said, "wrote out: 7 stripes of 35 symbols of 64 bytes\n");
    assert_eq!(folder.get("out"), stripes);
}

#[test]
fn data_of_a_wrong_length_is_refused() {
    let folder = Folder::square();
    folder.put("odd", &[7; 13]);
    folder.put("empty", &[]);
    let sentence = folder.refused("encode code --symbol 3 odd -o out", 33, 0);
    assert!(sentence.contains("13 bytes"), "{sentence}");
    assert!(sentence.contains("4 × 3 = 12"), "{sentence}");
    assert!(sentence.ends_with("(odd)"), "{sentence}");
    folder.refused("encode code --symbol 1 empty -o out", 33, 0);
    folder.refused("encode code --symbol 0 data -o out", 31, 0);
    folder.refused("encode code --symbol 65537 data -o out", 31, 0);
    folder.refused("encode code --symbol 18446744073709551615 data -o out", 31, 0);
    // The order of the rules: the code sheet goes before the symbol length, and that before the data.
    folder.refused("encode empty --symbol 0 odd -o out", 1, 0);
    folder.refused("encode code --symbol 0 odd -o out", 31, 0);
}

#[test]
fn outputs_are_no_inputs() {
    let folder = Folder::square();
    symlink("data", folder.0.join("link")).expect("a link");
    for line in [
        "encode code --symbol 1 data -o data",
        "encode code --symbol 1 data -o ./data",
        "encode code --symbol 1 data -o link",
        "encode code --symbol 1 data -o code",
        "strip code 0 --symbol 1 stripes -o stripes",
        "strip code 0 --symbol 1 stripes -o code",
        "plan code 0 -o code",
        "rebuild code 0 plan --symbol 1 stripes -o stripes",
        "rebuild code 0 plan --symbol 1 stripes -o plan",
        "rebuild code 0 plan --symbol 1 stripes -o code",
        "show code --svg code",
        "show code --disk 0 --plan plan --svg plan",
    ] {
        assert!(folder.misused(line).contains("is also read"), "{line}");
    }
}

#[test]
fn disks_are_planned_and_plans_checked() {
    let folder = Folder::new();
    liberation_stripes(&folder, 1);
    for disk in 0..7 {
        let said = folder.done(&format!("plan code {disk} -o plan"));
        let reads = model::check(&folder.get("code"), disk, &folder.get("plan")).expect("accepted");
        let (length, steps) = (folder.get("plan").len(), (folder.get("plan").len() - 9) / 3);
        assert_eq!(said, format!("wrote plan: {length} bytes, {steps} steps, reads {reads} symbols\n"));
        let said = folder.done(&format!("check code {disk} plan"));
        assert_eq!(said, format!("accepted, reads {reads} symbols\n"));
    }
    let sentence = folder.refused("plan code 7 -o none", 7, 0);
    assert!(sentence.contains("asked for 7, it has 0 to 6"), "{sentence}");
}

#[test]
fn a_disk_without_a_plan_has_a_pattern() {
    let folder = Folder::new();
    folder.put("apart", &sheet(2, 1, 2, &[1, 2]));
    let ran = folder.fails("plan apart 0 -o plan", 1);
    assert!(ran.out.contains("The pattern is 1, bits 01 (bit 0 last): d0 (disk 0 row 0)."), "{}", ran.out);
    assert_eq!(ran.err, "navorzim: disk 0 can't be rebuilt by any plan: 1 of 1 symbol is beyond help, 2 possibilities for each bit (apart)\n");
    let ran = folder.fails("show apart --disk 0", 1);
    assert!(ran.out.contains("│≠ 0 d0"), "{}", ran.out);
    assert!(ran.out.contains("│· 1 d1"), "{}", ran.out);
    assert!(ran.out.contains("agree on all surviving disks, not on disk 0 row 0.\n"), "{}", ran.out);

    // A sum in which the pattern cancels out.
    folder.put("sums", &sheet(2, 1, 2, &[1, 3]));
    let ran = folder.fails("show sums --disk 0", 1);
    assert!(ran.out.contains("The pattern is 3, bits 11"), "{}", ran.out);
    assert!(ran.out.contains("│○ 1 d0+d1 │"), "{}", ran.out);

    // A symbol that is zero, and two patterns.
    folder.put("sums", &sheet(2, 2, 3, &[2, 4, 3, 0]));
    let ran = folder.fails("show sums --disk 0", 1);
    assert!(ran.out.contains("zero"), "{}", ran.out);
    let code = model::read_code(&folder.get("sums")).expect("good");
    for letter in ["a", "b"] {
        let pattern = ran.out.split(&format!("Pattern {letter} is ")).nth(1).expect("a pattern");
        let pattern: u64 = pattern.split(',').next().unwrap().parse().expect("number");
        assert!(model::good_pattern(&code, &[0], &[0, 1], pattern, 3), "{pattern}");
    }
}

/// Three data disks of two rows and a parity disk whose row 1 leaves disk 1 out.
fn thin_sheet() -> Vec<u8> {
    sheet(4, 2, 6, &[1, 2, 4, 8, 16, 32, 1 + 4 + 16, 2 + 32])
}

#[test]
fn some_rows_are_planned_checked_and_rebuilt() {
    let folder = Folder::new();
    let (_, stripes) = liberation_stripes(&folder, 4);
    for (want, rows) in [
        ("0", &[0][..]),
        ("4", &[4]),
        ("1,3", &[1, 3]),
        ("3,1", &[1, 3]),
        ("2,2,s17", &[2]),
        ("s16,s19", &[1, 4]),
        ("0-2", &[0, 1, 2]),
        ("s18-s19,0", &[0, 3, 4]),
        ("0-4,s15-s19", &[0, 1, 2, 3, 4]),
    ] {
        let said = folder.done(&format!("plan code 3 --want {want} -o plan"));
        let (sheet, plan) = (folder.get("code"), folder.get("plan"));
        let list: Vec<u8> = rows.iter().map(|row| 15 + row).collect();
        assert_eq!((plan[1], plan[7], &plan[8..8 + list.len()]), (2, list.len() as u8, &list[..]), "{want}");
        let reads = model::check(&sheet, 3, &plan).expect("accepted");
        let named: Vec<String> = rows.iter().map(u8::to_string).collect();
        let named = format!("disk 3 row{} {}", if rows.len() == 1 { "" } else { "s" }, named.join(" "));
        assert!(said.ends_with(&format!(" steps, reads {reads} symbols, brings back {named}\n")), "{said}");
        let said = folder.done("check code 3 plan");
        assert_eq!(said, format!("accepted, reads {reads} symbols, brings back {named}\n"));

        // The wanted symbols are back, and every other byte is as the stripes had it.
        let ruined = ruined(&stripes, 3);
        folder.put("stripes", &ruined);
        let said = folder.done("rebuild code 3 plan --symbol 64 stripes --in-place");
        assert!(said.starts_with(&format!("rebuilt {named} in 4 stripes: stripes\n")), "{said}");
        let mut expected = ruined.clone();
        for (place, byte) in expected.iter_mut().enumerate() {
            if list.contains(&((place / 64 % 35) as u8)) {
                *byte = stripes[place];
            }
        }
        assert!(folder.get("stripes") == expected, "{want}");
    }
}

#[test]
fn lists_that_do_not_fit_the_disk_are_refused() {
    let folder = Folder::new();
    liberation_stripes(&folder, 1);
    for (disk, want, place, detail) in [
        (0, "5", 0, "it is symbol 5, disk 0 has 0 to 4, its rows 0 to 4"),
        (1, "0,9", 1, "it is symbol 14, disk 1 has 5 to 9, its rows 0 to 4"),
        (1, "4,s4", 0, "it is symbol 4, disk 1 has 5 to 9"),
        (6, "s34,s35", 1, "it is symbol 35, disk 6 has 30 to 34"),
        (6, "s300,0", 1, "it is symbol 300, disk 6 has 30 to 34"),
        (6, "4,s255", 1, "it is symbol 255"),
        (2, "18446744073709551615,1", 1, "it is symbol 18446744073709551615"),
        (2, "0-5", 0, "it has 6 symbols, disk 2 has 5 rows"),
        (2, "0-255,s256-s511", 0, "it has 502 symbols, disk 2 has 5 rows"),
    ] {
        let sentence = folder.refused(&format!("plan code {disk} --want {want} -o out"), 23, place);
        assert!(sentence.contains(detail) && sentence.ends_with("(code)"), "{want}: {sentence}");
        folder.refused(&format!("show code --disk {disk} --want {want} --svg out"), 23, place);
    }
    let sentence = folder.refused("plan code 0 --want 3,7 -o out", 23, 1);
    let said = "entry 1 of the list of wanted symbols doesn't rise or isn't on a failed disk: it is symbol 7";
    assert!(sentence.starts_with(said), "{sentence}");
    // The disk goes before the list, and the code sheet before both.
    folder.refused("plan code 7 --want 9 -o out", 7, 0);
    folder.refused("plan code 18446744073709551615 --want 0 -o out", 7, 0);
    folder.put("code", &folder.get("code")[..100]);
    folder.refused("plan code 7 --want 9 -o out", 1, 0);
}

#[test]
fn bad_lists_in_plans_are_explained() {
    let folder = Folder::square();
    for (list, place, detail) in [
        (&[0u8, 0, 4][..], 0, "it has 3 symbols, disk 0 has 2 rows"),
        (&[], 0, "it has 0 symbols, disk 0 has 2 rows"),
        (&[2], 0, "it is symbol 2, disk 0 has 0 to 1, its rows 0 to 1"),
        (&[0, 0], 1, "it is symbol 0, after symbol 0"),
        (&[1, 0], 1, "it is symbol 0, after symbol 1"),
        (&[0, 255], 1, "it is symbol 255, disk 0 has 0 to 1"),
    ] {
        let plan = [&[6, 2, 4, 2, 4, 0, 0, list.len() as u8][..], list, &[0, 0]].concat();
        folder.put("plan", &plan);
        assert_eq!(model::check(&square_sheet(), 0, &plan), Err((23, place)));
        for line in
            ["check code 0 plan", "show code --disk 0 --plan plan", "rebuild code 0 plan --symbol 1 stripes --in-place"]
        {
            let sentence = folder.refused(line, 23, place);
            assert!(sentence.contains(detail) && sentence.ends_with("(plan)"), "{sentence}");
        }
    }
    // A target that isn't wanted, a lost source that isn't, and a wanted row that is never filled.
    for (steps, number, place) in [(&[1, 0, 0, 0, 0][..], 18, 0), (&[1, 0, 1, 1, 0], 19, 0), (&[0, 0], 20, 1)] {
        folder.put("plan", &[&[6, 2, 4, 2, 4, 0, 0, 1, 1][..], steps].concat());
        folder.refused("check code 0 plan", number, place);
    }
    folder.put("plan", &p2_with(1, 3));
    let sentence = folder.refused("check code 0 plan", 14, 0);
    let said = "the plan sheet's edition isn't 1 or 2 with first byte 6, or 3 with first byte 5: it is 3 with first byte 6 (plan)";
    assert_eq!(sentence, said);
}

#[test]
fn a_row_of_a_disk_beyond_help_has_a_plan() {
    let folder = Folder::new();
    folder.put("thin", &thin_sheet());
    let ran = folder.fails("plan thin 1 -o plan", 1);
    assert_eq!(ran.err, "navorzim: disk 1 can't be rebuilt by any plan: 1 of 2 symbols is beyond help, 2 possibilities for each bit (thin)\n");
    assert!(ran.out.ends_with("\nA plan can bring its row 0 back: --want 0.\n"), "{}", ran.out);
    let ran = folder.fails("plan thin 1 --want 1 -o plan", 1);
    assert_eq!(ran.err, "navorzim: disk 1 row 1 can't be rebuilt by any plan: 1 of 1 wanted symbol is beyond help, 2 possibilities for each bit (thin)\n");
    assert!(
        ran.out.starts_with(
            "Disk 1 is lost, and no plan can bring its row 1 back.\n1 of 1 wanted symbol is beyond help: "
        ),
        "{}",
        ran.out
    );
    assert!(!ran.out.contains("--want"), "{}", ran.out);
    let ran = folder.fails("plan thin 1 --want 0,1 -o plan", 1);
    assert_eq!(ran.err, "navorzim: disk 1 rows 0 1 can't all be rebuilt by any plan: 1 of 2 wanted symbols is beyond help, 2 possibilities for each bit (thin)\n");
    assert!(ran.out.contains("no plan can bring all of its rows 0 1 back."), "{}", ran.out);
    assert!(ran.out.contains("not on disk 1 row 1.\nA plan can bring its row 0 back: --want 0."), "{}", ran.out);
    let said = folder.done("plan thin 1 --want 0 -o plan");
    assert_eq!(said, "wrote plan: 20 bytes, 3 steps, reads 3 symbols, brings back disk 1 row 0\n");
    folder.put("stripes", &[1, 2, 0xAA, 0xBB, 5, 6, 1 ^ 3 ^ 5, 2 ^ 6]);
    folder.done("rebuild thin 1 plan --symbol 1 stripes --in-place");
    assert_eq!(folder.get("stripes"), [1, 2, 3, 0xBB, 5, 6, 1 ^ 3 ^ 5, 2 ^ 6]);
}

/// The square code's plan for disks 0 and 2, all of them: d0 and d1 from disks 1 and 3, then symbols 4 and 5 from them and disk 1.
const DISKS_0_AND_2: [u8; 36] = [
    5, 3, 4, 2, 4, 4, 2, 0, 2, 0, 8, 0, // n, r, K, 4 reads, two disks, no list, 8 steps
    1, 0, 6, 2, 0, 3, 1, 1, 7, 2, 1, 2, // 0 = 6 + 3, 1 = 7 + 2
    1, 4, 0, 2, 4, 2, 1, 5, 1, 2, 5, 3, // 4 = 0 + 2, 5 = 1 + 3
];

/// The plan above with one byte changed.
fn disks_0_and_2_with(at: usize, byte: u8) -> Vec<u8> {
    let mut plan = DISKS_0_AND_2.to_vec();
    plan[at] = byte;
    plan
}

#[test]
fn several_disks_are_planned_checked_and_rebuilt() {
    let folder = Folder::new();
    let (_, stripes) = liberation_stripes(&folder, 4);
    for (asked, disks, named) in [
        ("0,3", &[0u8, 3][..], "disks 0 and 3"),
        ("6,5", &[5, 6], "disks 5 and 6"),
        ("2-3", &[2, 3], "disks 2 and 3"),
        ("4,1,4", &[1, 4], "disks 1 and 4"),
    ] {
        let said = folder.done(&format!("plan code {asked} -o plan"));
        let (sheet, plan) = (folder.get("code"), folder.get("plan"));
        assert_eq!((&plan[..2], &plan[6..9], plan[9]), (&[5, 3][..], &[2, disks[0], disks[1]][..], 0), "{asked}");
        let reads = model::check_disks(&sheet, disks, &plan).expect("accepted");
        let steps = (plan.len() - 12) / 3;
        assert_eq!(said, format!("wrote plan: {} bytes, {steps} steps, reads {reads} symbols\n", plan.len()));
        assert_eq!(folder.done(&format!("check code {asked} plan")), format!("accepted, reads {reads} symbols\n"));
        let lost = disks.iter().fold(stripes.clone(), |stripes, &disk| ruined(&stripes, disk.into()));
        folder.put("stripes", &lost);
        let said = folder.done(&format!("rebuild code {asked} plan --symbol 64 stripes --in-place"));
        assert!(said.starts_with(&format!("rebuilt {named} in 4 stripes: stripes\n")), "{said}");
        assert!(folder.get("stripes") == stripes, "{asked}");
    }
    let sentence = folder.refused("plan code 3,0,7 -o none", 7, 0);
    assert!(sentence.contains("asked for 7, it has 0 to 6"), "{sentence}");
    folder.refused("plan code 0,18446744073709551615 -o none", 7, 0);
    folder.refused("check code 0,256 plan", 7, 0);
    folder.refused("rebuild code 1,7 plan --symbol 64 stripes --in-place", 7, 0);
    folder.refused("show code --disk 0-6,255", 7, 0);
}

#[test]
fn one_disk_keeps_its_editions() {
    let folder = Folder::new();
    liberation_stripes(&folder, 1);
    for (line, head) in [
        ("plan code 3 -o plan", &[6u8, 1][..]),
        ("plan code 3,3 -o plan", &[6, 1]),
        ("plan code 3-3 -o plan", &[6, 1]),
        ("plan code 3 --want 0,2 -o plan", &[6, 2]),
        ("plan code 3,3 --want 0,2 -o plan", &[6, 2]),
        ("plan code 0,3 -o plan", &[5, 3]),
        ("plan code 0,3 --want 0,2 -o plan", &[5, 3]),
    ] {
        folder.done(line);
        assert_eq!(&folder.get("plan")[..2], head, "{line}");
    }
}

#[test]
fn some_rows_of_several_disks_are_planned_checked_and_rebuilt() {
    let folder = Folder::new();
    let (_, stripes) = liberation_stripes(&folder, 3);
    let lost = ruined(&ruined(&stripes, 0), 3);
    for (want, list, named) in [
        ("2", &[2u8, 17][..], "disk 0 row 2 and disk 3 row 2"),
        ("s17", &[17], "disk 3 row 2"),
        ("s3,s0", &[0, 3], "disk 0 rows 0 3"),
        ("0,s16,s17", &[0, 15, 16, 17], "disk 0 row 0 and disk 3 rows 0 1 2"),
        ("0-4", &[0, 1, 2, 3, 4, 15, 16, 17, 18, 19], "disk 0 rows 0 1 2 3 4 and disk 3 rows 0 1 2 3 4"),
    ] {
        let said = folder.done(&format!("plan code 0,3 --want {want} -o plan"));
        let (sheet, plan) = (folder.get("code"), folder.get("plan"));
        assert_eq!((plan[9], &plan[10..10 + list.len()]), (list.len() as u8, list), "{want}");
        let reads = model::check_disks(&sheet, &[0, 3], &plan).expect("accepted");
        assert!(said.ends_with(&format!(", reads {reads} symbols, brings back {named}\n")), "{said}");
        let said = folder.done("check code 0,3 plan");
        assert_eq!(said, format!("accepted, reads {reads} symbols, brings back {named}\n"));
        folder.put("stripes", &lost);
        folder.done("rebuild code 3,0 plan --symbol 64 stripes --in-place");
        let mut expected = lost.clone();
        for (place, byte) in expected.iter_mut().enumerate() {
            if list.contains(&((place / 64 % 35) as u8)) {
                *byte = stripes[place];
            }
        }
        assert!(folder.get("stripes") == expected, "{want}");
    }
    for (want, place, detail) in [
        ("s5", 0, "it is symbol 5, disks 0 and 3 have 0 to 4 and 15 to 19"),
        ("4,s20", 2, "it is symbol 20, disks 0 and 3 have"),
        ("0-5", 0, "it has 12 symbols, disks 0 and 3 have 10 symbols"),
    ] {
        let sentence = folder.refused(&format!("plan code 0,3 --want {want} -o out"), 23, place);
        assert!(sentence.contains(detail) && sentence.ends_with("(code)"), "{want}: {sentence}");
    }
}

#[test]
fn a_plan_for_several_disks_is_for_these_disks() {
    let folder = Folder::square();
    folder.put("both", &DISKS_0_AND_2);
    assert_eq!(folder.done("check code 2,0 both"), "accepted, reads 4 symbols\n");
    folder.put("stripes", &[0xFF, 0xFF, 0x44, 0x88, 0xFF, 0xFF, 0x99, 0x66]);
    folder.done("rebuild code 0,2 both --symbol 1 stripes --in-place");
    assert_eq!(folder.get("stripes"), P1);
    for (disks, named) in [("0", "disk 0"), ("0,1", "disks 0 and 1"), ("0-2", "disks 0, 1 and 2")] {
        let sentence = folder.refused(&format!("check code {disks} both"), 16, 0);
        assert!(sentence.ends_with(&format!("the plan is for disks 0 and 2, not for {named} (both)")), "{sentence}");
    }
    // A list of one disk in edition 3: the place is the symbol.
    folder.put("one", &[5, 3, 4, 2, 4, 0, 1, 3, 0, 0, 0]);
    assert!(folder.refused("check code 3 one", 20, 6).starts_with("symbol 6 is never filled"));
}

#[test]
fn plans_for_several_disks_are_explained() {
    let folder = Folder::square();
    for (plan, number, place, detail) in [
        (disks_0_and_2_with(5, 5), 22, 4, "it reads 4 symbols: the plan says 5"),
        (disks_0_and_2_with(6, 0), 24, 0, "it has 0 disks, the array has 4"),
        (
            disks_0_and_2_with(8, 0),
            24,
            1,
            "entry 1 of the list of failed disks doesn't rise: it is disk 0, after disk 0",
        ),
        (disks_0_and_2_with(8, 4), 7, 0, "the plan lists 4, the array has 0 to 3"),
        (disks_0_and_2_with(8, 3), 16, 0, "the plan is for disks 0 and 3, not for disks 0 and 2"),
        (P2.to_vec(), 16, 0, "the plan is for disk 0, not for disks 0 and 2"),
        (disks_0_and_2_with(1, 2), 14, 0, "it is 2 with first byte 5"),
        (disks_0_and_2_with(0, 6), 14, 0, "it is 3 with first byte 6"),
        (disks_0_and_2_with(11, 5), 13, 0, "at most 1,024 steps"),
        (DISKS_0_AND_2[..12].to_vec(), 11, 0, "it has 12 bytes"),
        (
            disks_0_and_2_with(19, 2),
            18,
            2,
            "the target of step 2 isn't a wanted symbol: it has kind 1, target 2, source 7",
        ),
        (disks_0_and_2_with(26, 5), 19, 4, "it has kind 1, target 4, source 5"),
    ] {
        folder.put("both", &plan);
        assert_eq!(model::check_disks(&square_sheet(), &[0, 2], &plan), Err((number, place)), "{plan:?}");
        for line in [
            "check code 0,2 both",
            "rebuild code 0,2 both --symbol 1 stripes --in-place",
            "show code --disk 0,2 --plan both",
        ] {
            let sentence = folder.refused(line, number, place);
            assert!(sentence.contains(detail) && sentence.ends_with("(both)"), "{sentence}");
        }
    }
}

#[test]
fn several_lost_disks_are_drawn() {
    let folder = Folder::square();
    folder.put("both", &DISKS_0_AND_2);
    let plan = folder.done("show code --disk 0,2 --plan both --svg out");
    assert!(
        plan.contains("Disks 0 and 2 are lost. The plan, checked: 8 steps, reads 4 of 4 surviving\nsymbols."),
        "{plan}"
    );
    let heads = plan.lines().find(|line| line.contains("disk 1")).expect("heads");
    assert!(heads.contains("disk 0 ×") && heads.contains("disk 2 ×") && heads.matches('×').count() == 2, "{heads}");
    assert!(plan.contains("│× 0 d0    │● 2 d2    │× 4 d0+d2 │● 6 d0+d3 │"), "{plan}");
    assert!(plan.contains("  × lost: 4\n  ● survives, read: 4\n"), "{plan}");
    let picture = String::from_utf8(folder.get("out")).expect("text");
    for piece in [">0 = 3 + 6<", ">4 = 2 + 3 + 6<", ">5 = 2 + 3 + 7<", "<desc id=\"desc\">Disks 0 and 2 are lost."] {
        assert!(picture.contains(piece), "{piece}: {picture}");
    }
    assert_eq!(picture.matches("fill=\"#a3211d\" font-weight").count(), 2, "{picture}");
    texts_fit(&picture, "two disks");
    balanced(&picture);

    // Some symbols of them, and one that ends wrong.
    let planned = folder.done("show code --disk 0,2 --want s1,s4");
    assert!(planned.contains("The plan for disk 0 row 1 and disk 2 row 0, checked"), "{planned}");
    assert!(planned.contains("  × lost, wanted: 2\n  - lost, not wanted: 2\n"), "{planned}");
    folder.put("both", &disks_0_and_2_with(35, 2));
    let ran = folder.fails("show code --disk 0,2 --plan both", 1);
    assert_eq!(ran.err, "navorzim: refused 21 at 322: symbol 5 ends wrong: data symbol 2 is off (both)\n");
    assert!(ran.out.contains("Disks 0 and 2 are lost. The plan is refused: disk 2 row 1 ends wrong."), "{}", ran.out);
    assert!(
        ran.out.contains("Symbol 5 is d1 + d3, and the steps make d1 + d2 of it: d2 is off, and d3."),
        "{}",
        ran.out
    );
}

#[test]
fn disks_that_cannot_all_be_rebuilt_have_a_pattern() {
    let folder = Folder::square();
    let ran = folder.fails("plan code 0,1 -o out", 1);
    assert_eq!(ran.err, "navorzim: disks 0 and 1 can't all be rebuilt by any plan: 4 of 4 symbols are beyond help, together 2 possibilities for each bit (code)\n");
    assert!(ran.out.starts_with("Disks 0 and 1 are lost, and no plan can bring all of them back.\n"), "{}", ran.out);
    assert!(
        ran.out.contains("agree on all surviving disks, not on disk 0 rows 0 1 and disk 1 rows 0 1.\n"),
        "{}",
        ran.out
    );
    let ran = folder.fails("show code --disk 0,1 --want s1", 1);
    assert_eq!(ran.err, "navorzim: disk 0 row 1 can't be rebuilt by any plan: 1 of 1 wanted symbol is beyond help, 2 possibilities for each bit (code)\n");
    assert!(ran.out.contains("no plan can bring disk 0 row 1 back."), "{}", ran.out);
    // Where some of it can be brought back, the symbols are named so that --want takes them.
    folder.put("thin", &thin_sheet());
    let ran = folder.fails("plan thin 0,1 -o out", 1);
    assert!(ran.out.ends_with("\nA plan can bring disk 0 row 1 back: --want s1.\n"), "{}", ran.out);
    folder.done("plan thin 0,1 --want s1 -o out");
    // Nothing survives.
    let ran = folder.fails("plan code 0-3 -o none", 1);
    assert!(ran.out.contains("Disks 0, 1, 2 and 3 are lost, and no plan can bring all of them back."), "{}", ran.out);
    assert!(
        ran.out
            .contains("Stripes that differ by one of them differ, with no surviving disk to tell by, on the symbols"),
        "{}",
        ran.out
    );
    folder.put("zero", &sheet(2, 1, 1, &[0, 0]));
    assert_eq!(folder.done("plan zero 0,1 -o out"), "wrote out: 18 bytes, 2 steps, reads 0 symbols\n");
    assert!(folder.done("show zero --disk 0,1").contains("2 steps, reads 0 of 0 surviving\nsymbols."));
}

#[test]
fn the_longest_plan_for_several_disks_is_not_cut() {
    let folder = Folder::new();
    folder.put("code", &sheet(64, 1, 1, &[0; 64]));
    let all: Vec<u8> = (0..64).collect();
    let mut plan = [&[5, 3, 64, 1, 1, 0, 64][..], &all, &[64], &all, &[0, 4]].concat();
    plan.extend((0..16).flat_map(|_| all.iter().flat_map(|&s| [0, s, 0])));
    folder.put("plan", &plan);
    folder.put("stripes", &[7; 128]);
    assert!(folder
        .done("check code 0-63 plan")
        .starts_with("accepted, reads 0 symbols, brings back disk 0 row 0, disk 1 row 0,"));
    folder.done("rebuild code 0-63 plan --symbol 1 stripes --in-place");
    assert_eq!(folder.get("stripes"), [0; 128]);
    plan.push(0);
    folder.put("plan", &plan);
    let sentence = folder.refused("check code 0-63 plan", 12, 0);
    assert!(sentence.contains("more than 3210 bytes"), "{sentence}");
}

/// Plans for lost disks in the words of a line with `--fewest`, and holds the answer and the sheet to the model.
fn fewest_is_planned(folder: &Folder, disks: &str, list: &[u8], want: &str, wanted: &[u8]) {
    let sheet = folder.get("code");
    let (code, symbols) = model::fewest_refusal(&sheet, list, wanted, 3210).expect("small");
    let Some(reads) = model::fewest(&code, list, &symbols) else {
        // No plan can be: the answer is that of planning without --fewest, and no file is written.
        let (usual, fewest) =
            (format!("plan code {disks} {want} -o none"), format!("plan code {disks} {want} --fewest -o none"));
        let (usual, fewest) = (folder.fails(&usual, 1), folder.fails(&fewest, 1));
        assert_eq!((usual.out, usual.err), (fewest.out, fewest.err), "{disks} {want}");
        return;
    };
    let said = folder.done(&format!("plan code {disks} {want} --fewest -o plan"));
    let plan = folder.get("plan");
    assert_eq!((&plan[..2], model::check_disks(&sheet, list, &plan)), (&[5, 3][..], Ok(reads)), "{disks} {want}");
    let count = if reads == 1 { "1 symbol".to_string() } else { format!("{reads} symbols") };
    assert!(said.contains(&format!(", reads {count}, the fewest possible")), "{disks} {want}: {said}");
    assert_eq!(said.contains(", brings back disk"), !want.is_empty(), "{disks} {want}: {said}");
    // A plan doesn't say how it was made, so that nothing more is said of it.
    let checked = folder.done(&format!("check code {disks} plan"));
    assert!(checked.starts_with(&format!("accepted, reads {count}")) && !checked.contains("fewest"), "{checked}");
}

#[test]
fn the_fewest_reads_are_planned() {
    let folder = Folder::square();
    for (disks, list) in
        [("0", &[0][..]), ("1", &[1]), ("2", &[2]), ("3", &[3]), ("0,2", &[0, 2]), ("0-3", &[0, 1, 2, 3])]
    {
        fewest_is_planned(&folder, disks, list, "", &[]);
    }
    fewest_is_planned(&folder, "0", &[0], "--want 1", &[1]);
    fewest_is_planned(&folder, "2,0", &[0, 2], "--want s5,0", &[0, 4, 5]);
    fewest_is_planned(&folder, "0,1", &[0, 1], "--want s1", &[1]);
    assert_eq!(
        folder.done("plan code 0 --fewest -o three"),
        "wrote three: 23 bytes, 4 steps, reads 3 symbols, the fewest possible\n"
    );
    // A symbol that is read alone, and one that is zero.
    folder.put("code", &sheet(3, 1, 1, &[1, 1, 0]));
    fewest_is_planned(&folder, "0", &[0], "", &[]);
    fewest_is_planned(&folder, "2", &[2], "", &[]);
    folder.put("code", &model::family("liberation", 3, 3).expect("listed"));
    for disk in 0..5 {
        fewest_is_planned(&folder, &disk.to_string(), &[disk], "", &[]);
    }
}

#[test]
fn the_fewest_reads_of_a_large_array_are_refused() {
    let folder = Folder::new();
    let too_many = |line: &str, survivors: u64| {
        let sentence = folder.refused(line, 41, survivors);
        let said = "symbols survive, and the fewest reads are worked out for 16 at most: without --fewest there is no such limit (code)";
        assert_eq!(sentence, format!("{survivors} {said}"), "{line}");
    };
    folder.put("code", &model::family("liberation", 5, 5).expect("listed"));
    too_many("plan code 0 --fewest -o none", 30);
    too_many("plan code 0 --want 2 --fewest -o none", 30);
    // Also where no plan can be.
    too_many("plan code 0-2 --fewest -o none", 20);
    too_many("show code --disk 0 --fewest --svg none", 30);
    folder.refused("plan code 7 --fewest -o none", 7, 0);
    let sentence = folder.refused("plan code 0 --want 5 --fewest -o none", 23, 0);
    assert!(sentence.contains("it is symbol 5, disk 0 has 0 to 4"), "{sentence}");
    // 16 survive, and 17.
    folder.put("code", &model::family("single parity", 16, 1).expect("listed"));
    fewest_is_planned(&folder, "3", &[3], "", &[]);
    folder.put("code", &model::family("single parity", 17, 1).expect("listed"));
    too_many("plan code 3 --fewest -o none", 17);
}

#[test]
fn an_array_is_restored_with_the_fewest_reads() {
    let folder = Folder::new();
    folder.done("family liberation 3 3 -o code");
    folder.put("data", &Random::new(13).bytes(4 * 9 * 5));
    folder.done("split code --symbol 5 data -o array");
    let disk = folder.get("array/disk-0");
    folder.remove("array/disk-0");
    folder.done("plan code 0 --fewest -o plan");
    let said = folder.done("restore array --plan plan");
    assert!(said.contains("read 7 symbols of each of 4 stripes, 140 bytes, from "), "{said}");
    assert_eq!(folder.get("array/disk-0"), disk);
}

#[test]
fn worked_plans_get_their_answers() {
    let folder = Folder::square();
    assert_eq!(folder.done("check code 0 plan"), "accepted, reads 3 symbols\n");
    for (plan, number, place) in [
        (p2_with(6, 4), 22, 3),
        (p2_with(9, 2), 19, 0),
        (p2_with(10, 2), 18, 0),
        (p2_with(9, 3), 17, 0),
        (vec![6, 1, 4, 2, 4, 0, 3, 0, 0], 20, 0),
        (p2_with(2, 5), 15, 0),
        (p2_with(5, 1), 16, 0),
        (p2_with(1, 3), 14, 0),
        (p2_with(1, 2), 23, 0),
        (p2_with(0, 5), 14, 0),
        (p2_with(0, 4), 13, 0),
        (p2_with(8, 5), 13, 0),
        (p2_with(7, 5), 11, 0),
        (p2_with(7, 3), 12, 0),
        (vec![], 11, 0),
    ] {
        folder.put("plan", &plan);
        folder.refused("check code 0 plan", number, place);
        folder.refused("show code --disk 0 --plan plan --svg drawing", number, place);
        folder.refused("rebuild code 0 plan --symbol 1 stripes --in-place", number, place);
        folder.refused("rebuild code 0 plan --symbol 1 stripes -o out", number, place);
    }
    folder.put("plan", &p2_with(20, 6));
    let sentence = folder.refused("check code 0 plan", 21, 64);
    assert_eq!(sentence, "row 1 of the failed disk ends wrong: data symbol 0 is off (plan)");
    folder.refused("rebuild code 0 plan --symbol 1 stripes --in-place", 21, 64);
    folder.refused("rebuild code 0 plan --symbol 1 stripes -o out", 21, 64);
    folder.put("plan", &P2);
    folder.put("other", &sheet(4, 2, 4, &[1, 2, 4, 8, 5, 10, 9, 7]));
    folder.refused("rebuild other 0 plan --symbol 1 stripes --in-place", 21, 64);
    folder.put("other", &sheet(4, 2, 4, &[1, 2, 4, 8, 5, 10, 9, 22]));
    let sentence = folder.refused("check other 0 plan", 6, 7 * 64 + 4);
    assert!(sentence.ends_with("(other)"), "{sentence}");
}

#[test]
fn many_stripes_are_rebuilt_in_place() {
    let folder = Folder::new();
    // Some megabytes, more than any buffer of the tool holds.
    let (_, stripes) = liberation_stripes(&folder, 1500);
    for disk in [0, 3, 6] {
        folder.put("stripes", &ruined(&stripes, disk));
        folder.done(&format!("plan code {disk} -o plan"));
        let said = folder.done(&format!("rebuild code {disk} plan --symbol 64 stripes --in-place"));
        assert!(said.starts_with(&format!("rebuilt disk {disk} in 1500 stripes: stripes\n")), "{said}");
        assert!(folder.get("stripes") == stripes, "disk {disk}");
    }
    assert_eq!(folder.contents().len(), 3, "no stray file");
}

#[test]
fn rebuilding_elsewhere_leaves_the_stripes() {
    let folder = Folder::square();
    folder.put("stripes", &[0xFF, 0xFF, 0x44, 0x88, 0x55, 0xAA, 0x99, 0x66]);
    folder.done("rebuild code 0 plan --symbol 1 stripes -o out");
    assert_eq!(folder.get("out"), P1);
    assert_eq!(folder.get("stripes")[..2], [0xFF, 0xFF]);
    folder.done("rebuild code 0 plan --symbol 1 stripes --in-place");
    assert_eq!(folder.get("stripes"), P1);
}

#[test]
fn stripes_of_a_wrong_length_are_refused() {
    let folder = Folder::square();
    for length in [0, 1, 7, 9, 15, 17, 100] {
        folder.put("odd", &vec![1; length]);
        for line in [
            "rebuild code 0 plan --symbol 1 odd --in-place",
            "rebuild code 0 plan --symbol 1 odd -o out",
            "strip code 0 --symbol 1 odd -o out",
            "test code 0 --symbol 1 odd",
        ] {
            let sentence = folder.refused(line, 32, 0);
            assert!(sentence.contains(&format!("has {length} bytes")), "{sentence}");
            assert!(sentence.contains("8 × 1 = 8"), "{sentence}");
        }
    }
    folder.refused("rebuild code 0 plan --symbol 0 odd --in-place", 31, 0);
    folder.refused("strip code 4 --symbol 0 odd -o out", 7, 0);
    folder.refused("test code 0,4 --symbol 0 odd", 7, 0);
    folder.refused("test code 0,3 --symbol 65537 odd", 31, 0);
}

#[test]
fn permissions_and_links_stay() {
    let folder = Folder::square();
    let stripes = folder.0.join("stripes");
    fs::set_permissions(&stripes, Permissions::from_mode(0o640)).expect("set");
    symlink("stripes", folder.0.join("link")).expect("a link");
    folder.put("stripes", &[0, 0, 0x44, 0x88, 0x55, 0xAA, 0x99, 0x66]);
    folder.done("rebuild code 0 plan --symbol 1 link --in-place");
    assert_eq!(folder.get("stripes"), P1);
    let link = fs::symlink_metadata(folder.0.join("link")).expect("there");
    assert!(link.file_type().is_symlink());
    let mode = fs::metadata(&stripes).expect("there").permissions().mode();
    assert_eq!(mode & 0o7777, 0o640);

    fs::set_permissions(&stripes, Permissions::from_mode(0o440)).expect("set");
    let said = folder.misused("rebuild code 0 plan --symbol 1 stripes --in-place");
    assert!(said.contains("write-protected"), "{said}");
}

#[test]
fn strips_are_taken_out() {
    let folder = Folder::new();
    let (_, stripes) = liberation_stripes(&folder, 9);
    folder.put("stripes", &stripes);
    for disk in 0..7 {
        let said = folder.done(&format!("strip code {disk} --symbol 64 stripes -o out"));
        let strips: Vec<u8> =
            stripes.chunks(35 * 64).flat_map(|stripe| stripe[disk * 320..(disk + 1) * 320].to_vec()).collect();
        assert!(folder.get("out") == strips, "disk {disk}");
        let expected = format!("wrote out: 9 strips of disk {disk}, 5 symbols of 64 bytes each\n");
        assert_eq!(said, expected);
    }
}

#[test]
fn survivors_are_tested() {
    let folder = Folder::new();
    let (_, stripes) = liberation_stripes(&folder, 30);
    folder.put("stripes", &ruined(&stripes, 2));
    let by = "  by symbols of 64 bytes (L), code code (Liberation, w 5, k 5: 7 disks of 5 rows, 25 data symbols)\n";
    let sees = |disks: &str| format!("  with {disks} lost, by 5 equations, seeing 30 of 30 surviving symbols\n{by}");
    let said = folder.done("test code 2 --symbol 64 stripes");
    assert_eq!(said, format!("sound: 30 stripes in stripes\n{}", sees("disk 2")));
    // The ruined disk is taken for one that survives.
    let ran = folder.fails("test code 3 --symbol 64 stripes", 1);
    assert!(
        ran.out.starts_with("not sound: 30 of 30 stripes in stripes\n  stripe 0, from byte 0 on: column 0\n"),
        "{ran:?}"
    );
    assert!(ran.out.contains("  stripe 9, from byte 20160 on: column 0\n  and 20 more\n  with disk 3 lost"), "{ran:?}");
    assert_eq!(ran.err, "navorzim: 30 of 30 stripes can't be sound (stripes)\n");

    // Two damaged bytes in stripe 4, of which the lower column is named, and one in the last stripe.
    let mut damaged = ruined(&stripes, 2);
    for (stripe, symbol, column) in [(4, 0, 63), (4, 34, 5), (29, 20, 17)] {
        damaged[(stripe * 35 + symbol) * 64 + column] ^= 0x80;
    }
    folder.put("damaged", &damaged);
    let ran = folder.fails("test code 2 --symbol 64 damaged", 1);
    let named = "  stripe 4, from byte 8960 on: column 5\n  stripe 29, from byte 64960 on: column 17\n";
    assert_eq!(ran.out, format!("not sound: 2 of 30 stripes in damaged\n{named}{}", sees("disk 2")));
    assert_eq!(ran.err, "navorzim: 2 of 30 stripes can't be sound (damaged)\n");
    let (ran, out) = folder.run_with_input("test code 2 --symbol 64 -", &damaged);
    assert_eq!((ran.status, &*ran.err), (1, "navorzim: 2 of 30 stripes can't be sound (-)\n"));
    assert_eq!(String::from_utf8_lossy(&out), format!("not sound: 2 of 30 stripes in -\n{named}{}", sees("disk 2")));
    // Where no equation is left, nothing can be said against any bytes.
    let said = folder.done("test code 6,2 --symbol 64 damaged");
    let none = "with disks 2 and 6 lost, by no equation: what survives could be anything\n";
    assert_eq!(said, format!("sound: 30 stripes in damaged\n  {none}{by}"));
}

#[test]
fn the_square_code_is_drawn() {
    let folder = Folder::square();
    assert_eq!(
        folder.done("show code"),
        "\
4 disks of 2 rows, 4 data symbols

          disk 0     disk 1     disk 2     disk 3
       ┌──────────┬──────────┬──────────┬──────────┐
row 0  │  0 d0    │  2 d2    │  4 d0+d2 │  6 d0+d3 │
row 1  │  1 d1    │  3 d3    │  5 d1+d3 │  7 d1+d2 │
       └──────────┴──────────┴──────────┴──────────┘

A cell: the symbol's number and what it is; d3 is data symbol 3.
"
    );
    let plan = folder.done("show code --disk 0 --plan plan");
    assert!(plan.contains("4 steps, reads 3 of 6 surviving symbols"), "{plan}");
    assert!(plan.contains("│× 0 d0    │● 2 d2    │● 4 d0+d2 │· 6 d0+d3 │"), "{plan}");
    assert!(plan.contains("│× 1 d1    │· 3 d3    │· 5 d1+d3 │● 7 d1+d2 │"), "{plan}");
    assert!(plan.contains("0: 0 ← 2    1: 0 += 4   2: 1 ← 2    3: 1 += 7"), "{plan}");
    let planned = folder.done("show code --disk 3");
    assert!(planned.contains("Disk 3 is lost. The plan, checked"), "{planned}");
    folder.put("mirror", &sheet(2, 1, 1, &[1, 1]));
    assert!(folder.done("plan mirror 0 -o one").ends_with(" 1 step, reads 1 symbol\n"));
    assert_eq!(folder.done("check mirror 0 one"), "accepted, reads 1 symbol\n");
    assert!(folder.done("show mirror --disk 0").contains("reads 1 of 1 surviving symbol.\n"));
    // A clear reads nothing, though its source byte is 0.
    folder.put("zero", &sheet(2, 1, 1, &[1, 0]));
    let cleared = folder.done("show zero --disk 1");
    assert!(cleared.contains("1 step, reads 0 of 1"), "{cleared}");
    assert!(cleared.contains("│· 0 d0"), "{cleared}");
    assert!(cleared.contains("0: 1 ← zero"), "{cleared}");
}

#[test]
fn wanted_and_unwanted_symbols_are_drawn_apart() {
    let folder = Folder::square();
    folder.put("one", &row_1_of_the_square(2));
    let plan = folder.done("show code --disk 0 --plan one");
    assert!(
        plan.contains("Disk 0 is lost. The plan for its row 1, checked: 2 steps, reads 2 of 6 surviving"),
        "{plan}"
    );
    assert!(plan.contains("│- 0 d0    │● 2 d2    │· 4 d0+d2 │· 6 d0+d3 │"), "{plan}");
    assert!(plan.contains("│× 1 d1    │· 3 d3    │· 5 d1+d3 │● 7 d1+d2 │"), "{plan}");
    assert!(plan.contains("  × lost, wanted: 1\n  - lost, not wanted: 1\n  ● survives, read: 2\n"), "{plan}");
    assert!(plan.contains("0: 1 ← 2    1: 1 += 7"), "{plan}");
    let planned = folder.done("show code --disk 3 --want s7,0");
    assert!(planned.contains("The plan for its rows 0 1, checked"), "{planned}");
    assert!(planned.contains("× lost, wanted: 2") && !planned.contains("not wanted"), "{planned}");

    // Where there is no plan, the unwanted symbols are left out of the account.
    folder.put("thin", &thin_sheet());
    let ran = folder.fails("show thin --disk 1 --want 1", 1);
    assert!(ran.out.contains("│- 2 d2"), "{}", ran.out);
    assert!(ran.out.contains("│≠ 3 d3"), "{}", ran.out);
    assert!(ran.out.contains("  ≠ lost, beyond help: 1\n  - lost, not wanted: 1\n"), "{}", ran.out);

    for (line, status) in [
        ("show code --disk 0 --plan one --svg out", 0),
        ("show code --disk 0 --want 1 --svg out", 0),
        ("show thin --disk 1 --want 1 --svg out", 1),
    ] {
        assert_eq!(folder.run(line).status, status, "{line}");
        let picture = String::from_utf8(folder.get("out")).expect("text");
        assert!(picture.contains("lost, not wanted (1)"), "{line}: {picture}");
        balanced(&picture);
    }
}

#[test]
fn a_plan_with_the_fewest_reads_is_drawn_as_one() {
    let folder = Folder::square();
    let said = |line: &str| {
        let text = folder.done(&format!("{line} --svg out"));
        let picture = String::from_utf8(folder.get("out")).expect("text");
        texts_fit(&picture, line);
        balanced(&picture);
        let words = |text: &str| text.split_whitespace().collect::<Vec<_>>().join(" ");
        (words(&text), words(&picture))
    };
    let count = "4 steps, reads 3 of 6 surviving symbols";
    let (text, picture) = said("show code --disk 0 --fewest");
    let whole = format!("Disk 0 is lost. The plan, checked: {count}, the fewest possible.");
    assert!(text.contains(&whole) && picture.contains(&format!("<desc id=\"desc\">{whole}")), "{text} {picture}");
    assert!(text.contains("● survives, read: 3") && picture.contains("survives, read (3)"), "{text}");
    // The same count by a plan that is given, of which that isn't known; and the planner's own.
    let (text, picture) = said("show code --disk 0 --plan plan");
    assert!(text.contains(&format!("{count}.")) && picture.contains(&format!("{count}.")), "{text}");
    for line in ["show code --disk 0 --plan plan", "show code --disk 0", "show code --disk 0 --want 1"] {
        let (text, picture) = said(line);
        assert!(!text.contains("fewest") && !picture.contains("fewest"), "{line}: {text}");
    }
    let (text, _) = said("show code --disk 0,2 --want s1,s4 --fewest");
    assert!(text.contains("The plan for disk 0 row 1 and disk 2 row 0, checked: "), "{text}");
    assert!(text.contains(", reads 4 of 4 surviving symbols, the fewest possible."), "{text}");
    // Where there is none, the picture is that of planning without it.
    assert_eq!(folder.fails("show code --disk 0,1 --fewest", 1).out, folder.fails("show code --disk 0,1", 1).out);
}

#[test]
fn drawings_keep_the_width() {
    let folder = Folder::new();
    for family in ["single-parity 63 1", "single-parity 1 32", "liberation 7 7"] {
        folder.done(&format!("family {family} -o code"));
        for columns in ["40", "80", "133"] {
            let mut show = Command::new(TOOL);
            show.args(["show", "code", "--disk", "0"]);
            let show = show.current_dir(&folder.0).env("COLUMNS", columns);
            let out = show.output().expect("it runs").stdout;
            let out = String::from_utf8(out).expect("text");
            let widest = out.lines().map(|line| line.chars().count()).max();
            let limit: usize = columns.parse().expect("a number");
            assert!(widest.is_some_and(|width| width <= limit), "{out}");
            assert!(!out.contains('\x1b'), "no colours but on a terminal");
        }
    }
}

#[test]
fn drawings_take_the_terminals_width() {
    let folder = Folder::new();
    folder.done("family single-parity 63 1 -o code");
    for (columns, set) in [(60, ""), (133, ""), (133, "60")] {
        let lines = format!(
            "import fcntl, os, pty, struct, subprocess, termios\n\
             reader, terminal = pty.openpty()\n\
             fcntl.ioctl(terminal, termios.TIOCSWINSZ, struct.pack('HHHH', 40, {columns}, 0, 0))\n\
             env = dict(os.environ, NO_COLOR='1', COLUMNS='{set}')\n\
             subprocess.Popen(['{TOOL}', 'show', 'code'], stdout=terminal, env=env)\n\
             os.close(terminal)\n\
             out = b''\n\
             try:\n while piece := os.read(reader, 65536): out += piece\n\
             except OSError: pass\n\
             print(max(len(line.rstrip()) for line in out.decode().splitlines()))"
        );
        let Some(widest) = folder.python(&lines) else { return };
        let (widest, limit) =
            (widest.trim().parse::<usize>().expect("a number"), if set.is_empty() { columns } else { 60 });
        assert!(widest <= limit && widest + 15 > limit, "{widest} of {limit} columns");
    }
}

#[test]
fn pictures_are_well_formed() {
    let folder = Folder::square();
    folder.put("apart", &sheet(2, 1, 2, &[1, 2]));
    folder.done("family single-parity 63 1 -o wide");
    for (line, status, piece) in [
        ("show code --svg out", 0, "data symbol as it is (4)"),
        ("show code --disk 0 --plan plan --svg out", 0, "survives, read (3)"),
        ("show apart --disk 1 --svg out", 1, "lost, beyond help (1)"),
        ("show wide --disk 63 --svg out", 0, "63 steps"),
    ] {
        assert_eq!(folder.run(line).status, status, "{line}");
        let picture = String::from_utf8(folder.get("out")).expect("text");
        assert!(picture.contains(piece), "{line}: {picture}");
        balanced(&picture);
        fs::remove_file(folder.0.join("out")).expect("it was written");
    }
}

#[test]
fn the_stored_picture_is_the_tools_own() {
    let folder = Folder::new();
    folder.done("family liberation 3 3 -o code.sheet");
    folder.done("show code.sheet --disk 0 --svg plan.svg");
    let stored = include_bytes!("../../docs/plan.svg");
    assert!(folder.get("plan.svg") == stored, "docs/plan.svg isn't what `navorzim show` draws of Liberation, w 3, k 3");
}

/// What the model says about a plan, as the tool's status and the head of its message.
fn expected(answer: Result<u64, model::No>) -> (i32, String) {
    match answer {
        Ok(1) => (0, "accepted, reads 1 symbol\n".to_string()),
        Ok(reads) => (0, format!("accepted, reads {reads} symbols")),
        Err((number, place)) => (1, format!("navorzim: refused {number} at {place}: ")),
    }
}

fn judged_like_the_model(folder: &Folder, code: &[u8], plan: &[u8]) {
    judged_for(folder, code, "0", &[0], plan);
}

/// Judges a plan for disks, in words of the command line and as a list.
fn judged_for(folder: &Folder, code: &[u8], disks: &str, list: &[u8], plan: &[u8]) {
    folder.put("code", code);
    folder.put("plan", plan);
    let (status, head) = expected(model::check_disks(code, list, plan));
    let ran = folder.run(&format!("check code {disks} plan"));
    let said = if status == 0 { &ran.out } else { &ran.err };
    assert_eq!(ran.status, status, "{code:?} {disks} {plan:?} {ran:?}");
    assert!(said.starts_with(&head), "{head}: {said}, {code:?} {disks} {plan:?}");
    let before = folder.contents();
    if folder.run(&format!("rebuild code {disks} plan --symbol 1 stripes --in-place")).status != 0 {
        assert_eq!(folder.contents(), before, "{code:?} {disks} {plan:?}");
    }
}

#[test]
fn damaged_sheets_are_judged_as_the_rules_say() {
    let folder = Folder::square();
    let code = square_sheet();
    for cut in (0..code.len()).step_by(3) {
        judged_like_the_model(&folder, &code[..cut], &P2);
    }
    let listed = row_1_of_the_square(2);
    for plan in [&P2[..], &listed, &DISKS_0_AND_2] {
        (0..=plan.len()).for_each(|cut| judged_like_the_model(&folder, &code, &plan[..cut]));
        (0..=plan.len()).for_each(|cut| judged_for(&folder, &code, "0,2", &[0, 2], &plan[..cut]));
    }
    let mut random = Random::new(11);
    for round in 0..250 {
        let damaged_code = match random.one_in(2) {
            true => random::damaged(&mut random, &code),
            false => code.clone(),
        };
        let damaged_plan = random::damaged(&mut random, if round % 2 == 0 { &P2 } else { &listed });
        judged_like_the_model(&folder, &damaged_code, &damaged_plan);
        let damaged_plan = random::damaged(&mut random, &DISKS_0_AND_2);
        judged_for(&folder, &damaged_code, "2,0", &[0, 2], &damaged_plan);
        folder.put("stripes", &P1);
    }
    for length in [1, 100, 518, 519, 3081, 3082, 3114, 3115, 3210, 3211, 3_000_000] {
        let mut noise = random.bytes(length);
        judged_like_the_model(&folder, &noise, &P2);
        judged_like_the_model(&folder, &code, &noise);
        // With a good head, and at times a good list.
        let disks = [8, 9, 10].map(|length| DISKS_0_AND_2[..length].to_vec());
        for listed in [P2[..7].to_vec(), listed[..8].to_vec(), listed[..9].to_vec()].into_iter().chain(disks) {
            let good = listed.len().min(noise.len());
            noise[..good].copy_from_slice(&listed[..good]);
            judged_like_the_model(&folder, &code, &noise);
            if noise.len() > 12 {
                noise[9..11].copy_from_slice(&[2, 0]);
                judged_like_the_model(&folder, &code, &noise);
            }
        }
    }
}

#[test]
fn damaged_sheets_fail_every_command() {
    let folder = Folder::square();
    let mut random = Random::new(12);
    for round in 0..40 {
        let noise = random.below(700);
        let mut noise = random.bytes(noise);
        if round % 2 == 0 && !noise.is_empty() {
            noise[0] = 4;
        }
        folder.put("noise", &noise);
        let (number, place) = model::read_code(&noise).expect_err("noise is no code");
        for line in [
            "encode noise --symbol 1 data -o out",
            "plan noise 0 -o out",
            "plan noise 0 --fewest -o out",
            "test noise 0 --symbol 1 stripes",
            "strip noise 0 --symbol 1 stripes -o out",
            "show noise --svg out",
        ] {
            folder.refused(line, number, place);
        }
    }
}

#[test]
fn huge_files_are_no_burden() {
    let folder = Folder::square();
    // Holes: nothing of it is on the disk, but reading it would take minutes.
    let huge = File::create(folder.0.join("huge")).expect("created");
    huge.set_len((1 << 36) + 1).expect("a hole");
    let run = |line: &str| {
        let ran = folder.run(line);
        assert_eq!(ran.status, 1, "{ran:?}");
        ran.err
    };
    assert!(run("check huge 0 plan").contains("refused 3 at 0"));
    assert!(run("check code 0 huge").contains("refused 13 at 0"));
    let said = run("rebuild code 0 plan --symbol 1 huge --in-place");
    assert!(said.contains("refused 32 at 0"), "{said}");
    assert!(said.contains("68719476737 bytes"), "{said}");
    assert!(run("encode code --symbol 1 huge -o out").contains("refused 33 at 0"));
    assert!(run("strip code 0 --symbol 1 huge -o out").contains("refused 32 at 0"));
    assert!(run("test code 0 --symbol 1 huge").contains("refused 32 at 0"));
    assert!(!folder.has("out"));

    // A good sheet with a tail is too long, however long the tail is.
    folder.put("tail", &square_sheet());
    let tail = File::options().write(true).open(folder.0.join("tail")).expect("opened");
    tail.set_len(1 << 36).expect("a hole");
    assert!(run("check tail 0 plan").contains("refused 2 at 0"));
}

#[test]
fn one_byte_above_the_longest_sheet_is_too_long() {
    let folder = Folder::square();
    folder.done("family single-parity 63 1 -o longest");
    let mut longest = folder.get("longest");
    assert_eq!(longest.len(), 518);
    folder.done("show longest");
    longest.push(0);
    folder.put("longer", &longest);
    let sentence = folder.refused("show longer", 2, 0);
    assert!(sentence.contains("more than 518 bytes"), "{sentence}");

    // 1,020 clears, and then the steps of P2.
    let mut plan = P2[..9].to_vec();
    plan[7..9].copy_from_slice(&1024u16.to_le_bytes());
    plan.extend([0; 3 * 1020]);
    plan.extend(&P2[9..]);
    assert_eq!(plan.len(), 3081);
    folder.put("plan", &plan);
    assert_eq!(folder.done("check code 0 plan"), "accepted, reads 3 symbols\n");
    assert!(folder.done("show code --disk 0 --plan plan").contains("1023: 1 += 7"));
    plan.push(0);
    folder.put("plan", &plan);
    let sentence = folder.refused("check code 0 plan", 12, 0);
    assert!(sentence.contains("it has 3082 bytes"), "{sentence}");
}

/// The square code's plan for row 1 of disk 0, with as many clears before it as make so many steps.
fn row_1_of_the_square(steps: usize) -> Vec<u8> {
    let mut plan = vec![6, 2, 4, 2, 4, 0, 2, 1, 1];
    plan.extend((steps as u16).to_le_bytes());
    plan.extend([0, 1, 0].repeat(steps - 2));
    plan.extend([1, 1, 2, 2, 1, 7]);
    plan
}

#[test]
fn plans_with_a_list_are_not_cut() {
    let folder = Folder::square();
    // Longer than any sheet of edition 1.
    let mut plan = row_1_of_the_square(1024);
    assert_eq!(plan.len(), 3083);
    folder.put("plan", &plan);
    assert_eq!(folder.done("check code 0 plan"), "accepted, reads 2 symbols, brings back disk 0 row 1\n");
    assert!(folder.done("show code --disk 0 --plan plan").contains("1023: 1 += 7"));
    let said = folder.done("rebuild code 0 plan --symbol 1 stripes --in-place");
    assert!(said.starts_with("rebuilt disk 0 row 1 in 1 stripe: stripes\n"), "{said}");
    for (more, said) in
        [(1, "it has 3084 bytes"), (126, "it has 3210 bytes"), (1, "it has more than 3210 bytes"), (9000, "more than")]
    {
        plan.extend(vec![0; more]);
        folder.put("plan", &plan);
        let sentence = folder.refused("check code 0 plan", 12, 0);
        assert!(sentence.contains(said), "{sentence}");
    }
    // However long the file is, what goes before its length is said.
    plan[7] = 255;
    judged_like_the_model(&folder, &square_sheet(), &plan);
    plan[8..10].copy_from_slice(&[1, 1]);
    plan[7] = 2;
    judged_like_the_model(&folder, &square_sheet(), &plan);

    // The longest sheet: 32 wanted symbols, each the sum of 32 survivors.
    let rows: Vec<u64> = (0..64).map(|s| if s < 32 { u64::from(u32::MAX) } else { 1 << (s - 32) }).collect();
    folder.put("code", &sheet(2, 32, 32, &rows));
    let said = folder.done("plan code 0 --want 0-31 -o plan");
    assert!(said.starts_with("wrote plan: 3114 bytes, 1024 steps, reads 32 symbols"), "{said}");
    assert!(folder.done("check code 0 plan").starts_with("accepted, reads 32 symbols"));
    folder.put("plan", &[&folder.get("plan")[..], &[0]].concat());
    folder.refused("check code 0 plan", 12, 0);
}

#[test]
fn an_error_on_the_way_leaves_nothing_behind() {
    // The kernel says 4,096 bytes of this file and gives fewer: it ends while it is read.
    let short = Path::new("/sys/devices/system/cpu/online");
    if !fs::metadata(short).is_ok_and(|metadata| metadata.len() == 4096) {
        println!("not tried: there is no such file here");
        return;
    }
    let folder = Folder::square();
    folder.put("out", b"as it was");
    for line in [
        "encode code --symbol 1024 /sys/devices/system/cpu/online -o out",
        "encode code --symbol 1 /sys/devices/system/cpu/online -o new",
        "strip code 0 --symbol 512 /sys/devices/system/cpu/online -o out",
        "rebuild code 0 plan --symbol 512 /sys/devices/system/cpu/online -o out",
    ] {
        let said = folder.misused(line);
        assert!(said.contains("it changed while it was read"), "{said}");
    }
}

#[test]
fn misuse_is_explained() {
    let folder = Folder::square();
    for (line, piece) in [
        ("", "no command"),
        ("rebuilt", "no command 'rebuilt'"),
        ("help rebuilt", "no command 'rebuilt'"),
        ("help check plan", "'plan' is one word too many"),
        ("check", "CODE is missing"),
        ("check code 0", "PLAN is missing"),
        ("check code 0 plan plan", "'plan' is one word too many"),
        ("check code -1 plan", "no option -1"),
        ("check code 0 plan --fast", "no option --fast"),
        ("check - 0 -", "CODE and PLAN can't both be -: standard input is read once"),
        ("show - --disk 0 --plan -", "CODE and --plan can't both be -"),
        ("encode - --symbol 1 - -o out", "CODE and DATA can't both be -"),
        ("encode code --symbol 1 - -o -", "- can't be both read and written"),
        ("decode code --symbol 1 - -o -", "- can't be both read and written"),
        ("split code --symbol 1 data -o -", "-o can't be -: name a file"),
        ("split code --symbol 1 data", "-o ARRAY is missing"),
        ("restore array 0 --dry-run=yes", "--dry-run takes no value"),
        ("demo --keep -", "--keep can't be -"),
        ("plan code 0", "-o FILE is missing"),
        ("plan code 0 -o", "-o needs a value"),
        ("plan code 0 -o a -o b", "-o is given twice"),
        ("encode code data -o out", "--symbol L is missing"),
        ("encode code --symbol one data -o out", "--symbol must be a decimal number"),
        ("family hamming 7 4 -o out", "no family 'hamming'"),
        ("show code --plan plan", "--plan needs --disk"),
        ("show code --want 0", "--want needs --disk"),
        ("show code --disk 0 --plan plan --want 0", "--want and --plan exclude each other"),
        ("show code --fewest", "--fewest needs --disk"),
        ("show code --plan plan --fewest", "--plan needs --disk"),
        ("show code --disk 0 --fewest --plan plan", "--fewest and --plan exclude each other"),
        ("plan code 0 --fewest=3 -o out", "--fewest takes no value"),
        ("plan code 0 --fewest --fewest -o out", "--fewest is given twice"),
        ("check code 0 plan --fewest", "check has no option --fewest"),
        ("check code 0 plan --want 0", "check has no option --want"),
        ("rebuild code 0 plan --symbol 1 stripes --want 0", "rebuild has no option --want"),
        ("demo now", "'now' is one word too many"),
    ] {
        let said = folder.misused(line);
        assert!(said.contains(piece), "{line}: {said}");
        assert!(said.contains("says how it is used"), "{line}: {said}");
    }
}

#[test]
fn disks_that_cannot_be_understood_are_misuse() {
    let folder = Folder::square();
    for (line, piece) in [
        ("check code zero plan", "not 'zero'"),
        ("check code +0 plan", "not '+0'"),
        ("check code 0x1 plan", "not '0x1'"),
        (
            "check code 18446744073709551616 plan",
            "DISKS must be a disk, like 3, or several, like 0,3 or 0-2, not '1844",
        ),
        ("check code 0, plan", "not '0,'"),
        ("check code ,0 plan", "not ',0'"),
        ("check code 0;1 plan", "not '0;1'"),
        ("check code 1-0 plan", "not '1-0'"),
        ("check code 0-300 plan", "not '0-300'"),
        ("check code s0 plan", "not 's0'"),
        ("plan code 0,x -o out", "not '0,x'"),
        ("show code --disk 0,,1", "not '0,,1'"),
        ("strip code 0,1 --symbol 1 stripes -o out", "DISK must be a decimal number"),
        ("show code --disk=x", "not 'x'"),
    ] {
        let said = folder.misused(line);
        assert!(said.contains(piece), "{line}: {said}");
        assert!(said.contains("says how it is used"), "{line}: {said}");
    }
}

#[test]
fn lists_that_cannot_be_understood_are_misuse() {
    let folder = Folder::square();
    for (line, piece) in [
        ("plan code 0 --want -o out", "-o' is neither a row"),
        ("plan code 0 --want 0 --want 1 -o out", "--want is given twice"),
        ("plan code 0 -o out --want", "--want needs a value"),
        ("plan code 0 --want= -o out", "--want: '' is neither a row, like 2 or 0-2, nor a symbol, like s5 or s5-s7"),
        ("plan code 0 --want , -o out", "'' is neither"),
        ("plan code 0 --want 0,,1 -o out", "'' is neither"),
        ("plan code 0 --want 0;1 -o out", "'0;1' is neither"),
        ("plan code 0 --want=-1 -o out", "'-1' is neither"),
        ("plan code 0 --want 1- -o out", "'1-' is neither"),
        ("plan code 0 --want +1 -o out", "'+1' is neither"),
        ("plan code 0 --want 0-1-2 -o out", "'0-1-2' is neither"),
        ("plan code 0 --want s -o out", "'s' is neither"),
        ("plan code 0 --want s0-1 -o out", "'s0-1' is neither"),
        ("plan code 0 --want 99999999999999999999 -o out", "'99999999999999999999' is neither"),
        ("plan code 0 --want 1-0 -o out", "'1-0' falls"),
        ("plan code 0 --want 0-18446744073709551615 -o out", "is more than any array has"),
    ] {
        let said = folder.misused(line);
        assert!(said.contains(piece), "{line}: {said}");
        assert!(said.contains("`navorzim plan --help` says how it is used"), "{line}: {said}");
    }
}

#[test]
fn files_that_cannot_be_used_are_named() {
    let folder = Folder::square();
    fs::create_dir(folder.0.join("folder")).expect("created");
    symlink("nowhere", folder.0.join("dangling")).expect("a link");
    // Special files are tried inside the folder: a tool that fails here would replace what it is given.
    let _socket = UnixListener::bind(folder.0.join("socket")).expect("a socket");
    for (line, piece) in [
        ("check nowhere 0 plan", "can't read nowhere"),
        ("check code 0 nowhere", "can't read nowhere"),
        ("check folder 0 plan", "can't read folder: it is a folder"),
        ("encode code --symbol 1 folder -o out", "it is a folder"),
        ("encode code --symbol 1 nowhere -o out", "can't read nowhere"),
        ("encode code --symbol 1 socket -o out", "it is a socket, not a regular file"),
        ("encode code --symbol 1 data -o folder", "it is a folder"),
        ("encode code --symbol 1 data -o folder/", "it is a folder"),
        ("encode code --symbol 1 data -o new/", "no name for a file"),
        ("encode code --symbol 1 data -o nowhere/out", "can't write nowhere/out"),
        ("encode code --symbol 1 data -o dangling", "a link to nothing"),
        ("plan code 0 -o socket", "it is a socket, not a regular file"),
        ("demo --keep .", "it isn't empty"),
    ] {
        let said = folder.misused(line);
        assert!(said.contains(piece), "{line}: {said}");
    }
}

#[test]
fn names_of_any_bytes_are_taken() {
    use std::os::unix::ffi::OsStrExt;
    let folder = Folder::square();
    let odd = OsStr::from_bytes(b"out\xff\n");
    let ran = folder.run_words([OsStr::new("plan"), "code".as_ref(), "0".as_ref(), "-o".as_ref(), odd]);
    assert_eq!(ran.status, 0, "{ran:?}");
    assert!(folder.0.join(Path::new(odd)).is_file());
    let ran = folder.run_words([OsStr::new("check"), "code".as_ref(), odd, "plan".as_ref()]);
    assert_eq!(ran.status, 2, "{ran:?}");
    let option = OsStr::from_bytes(b"--\xff");
    assert_eq!(folder.run_words([OsStr::new("check"), option]).status, 2);
    assert_eq!(folder.run_words([odd]).status, 2);
    let ran = folder.run_words([OsStr::new("plan"), "code".as_ref(), "0".as_ref(), "--want".as_ref(), odd]);
    assert_eq!(ran.status, 2, "{ran:?}");
    assert!(ran.err.contains("is neither a row"), "{}", ran.err);
}

#[test]
fn help_is_there_and_its_examples_run() {
    let folder = Folder::new();
    folder.put("register.txt", &[b'x'; 25 * 64 * 3]);
    let all = folder.done("help");
    assert_eq!(folder.done("--help"), all);
    let arrays = ["family", "split", "status", "restore", "join"];
    let stripes = ["encode", "decode", "plan", "check", "test", "rebuild", "strip", "show", "demo"];
    for command in arrays.into_iter().chain(stripes) {
        assert!(all.contains(&format!("\n  {command} ")), "{command}");
        let help = folder.done(&format!("{command} --help"));
        assert_eq!(folder.done(&format!("help {command}")), help);
        assert!(help.starts_with(&format!("usage: navorzim {command} ")));
        assert!(help.contains("example: navorzim "), "{command}");
        // Every usage line of a command that locks files has --wait, and the text says what it does.
        let usage = help.split("\n\n").next().unwrap_or_default();
        let waits = !folder.misused(&format!("{command} --wait")).contains("has no option --wait");
        let expected = if waits { usage.matches("navorzim ").count() } else { 0 };
        assert_eq!(usage.matches("[--wait SECONDS]").count(), expected, "{usage}");
        assert_eq!(help.contains("\n  --wait SECONDS  waits so long"), waits, "{help}");
        for example in help.split("example: navorzim ").skip(1) {
            folder.done(example.trim_end());
        }
    }
    let help = folder.done("check --help");
    for line in ["check --bogus --help", "check -h --bogus", "check one two three four -h", "check --symbol --help"] {
        assert_eq!(folder.done(line), help, "{line}");
    }
    assert!(folder.misused("check --bogus -- --help").contains("no option --bogus"));
    assert!(folder.done("--version").starts_with("navorzim "));
    assert!(folder.has("plan.svg") && folder.has("disk0.bin") && folder.has("demo-files"));
    assert_eq!(folder.get("decoded.txt"), folder.get("register.txt"));
    assert_eq!(folder.get("joined.txt"), folder.get("register.txt"));
}

#[test]
fn the_demonstration_comes_out_right() {
    let folder = Folder::new();
    let said = folder.done("demo");
    for piece in [
        "disk 0   data  disk-0  missing",
        "disk 0 can be rebuilt: reads 25 symbols of each of 2 stripes, 3200 bytes, from disks 1, 2, 3, 4 and 5",
        "compared: all 1705 bytes of array/disk-0 are as they were, its label too",
        "restored disks 0 and 3: array/disk-0, array/disk-3",
        "compared: all 3200 bytes of register.txt are in joined.txt",
        "wrote row2.sheet: 26 bytes, 5 steps, reads 5 symbols, brings back disk 0 row 2",
        "compared: row 2 is as it was, and no other byte has changed",
        "refused 21 at 5: row 0 of the failed disk ends wrong: data symbol 5 is off (plan.sheet)",
        "refused 15 at 0: ",
        "compared: anew/disk-0 is still missing, nothing wrong has taken its place",
        "The pattern is 8, bits 001000",
        "A plan can bring its row 0 back: --want 0.",
        "brings back disk 1 row 0",
        "Everything came out right.",
    ] {
        assert!(said.contains(piece), "{piece}: {said}");
    }
    assert_eq!(folder.contents().len(), 0, "the temporary folder is removed");
    folder.done("demo --keep kept");
    let code = fs::read(folder.0.join("kept/code.sheet")).expect("kept");
    assert_eq!(code, model::family("liberation", 5, 5).expect("listed"));
    assert!(folder.misused("demo --keep kept").contains("it isn't empty"));
}

#[test]
fn a_reader_who_leaves_is_no_failure() {
    let folder = Folder::new();
    folder.done("family single-parity 63 1 -o code");
    let mut show = Command::new(TOOL);
    show.args(["show", "code", "--disk", "0"]).current_dir(&folder.0);
    let show = show.stdout(Stdio::piped()).stderr(Stdio::piped());
    let mut child = show.spawn().expect("it runs");
    drop(child.stdout.take());
    let output = child.wait_with_output().expect("it ends");
    assert_eq!((output.status.code(), &output.stderr[..]), (Some(0), &b""[..]));

    let full = File::options().write(true).open("/dev/full").expect("there");
    let mut version = Command::new(TOOL);
    let version = version.arg("--version").stdout(full).stderr(Stdio::piped());
    let output = version.output().expect("it runs");
    assert_eq!(output.status.code(), Some(2));
    assert!(String::from_utf8_lossy(&output.stderr).contains("can't write the answer"));
}

/// The value of an attribute of a tag.
fn attribute<'a>(tag: &'a str, name: &str) -> Option<&'a str> {
    let start = tag.find(&format!(" {name}=\""))? + name.len() + 3;
    tag[start..].split('"').next()
}

fn number(tag: &str, name: &str) -> f64 {
    attribute(tag, name).and_then(|value| value.parse().ok()).unwrap_or_else(|| panic!("{name} in {tag}"))
}

/// Where a line of text begins and ends, by its characters: in DejaVu Sans, the widest of the fonts, a character is so much of the
/// font's size wide on average.
fn extent(tag: &str, words: &str) -> (f64, f64) {
    let share = match tag {
        _ if tag.contains("monospace") => 0.602,
        _ if tag.contains("font-weight") => 0.71,
        _ => 0.636,
    };
    let plain =
        ["&amp;", "&lt;", "&gt;", "&quot;"].iter().fold(words.to_string(), |text, name| text.replace(name, "x"));
    let (x, width) = (number(tag, "x"), plain.chars().count() as f64 * number(tag, "font-size") * share);
    match attribute(tag, "text-anchor") {
        Some("middle") => (x - width / 2.0, x + width / 2.0),
        Some("end") => (x - width, x),
        _ => (x, x + width),
    }
}

/// No text stands outside the page, nor that of a cell outside the cell.
fn texts_fit(picture: &str, what: &str) {
    let page = picture.lines().next().expect("a page");
    let (right, bottom) = (number(page, "width"), number(page, "height"));
    let mut cell = None;
    for line in picture.lines() {
        match line.split([' ', '>']).next() {
            Some("<g") => cell = Some((0.0, 0.0)),
            Some("</g") => cell = None,
            Some("<rect") if cell.is_some() => {
                cell = Some((number(line, "x"), number(line, "x") + number(line, "width")))
            }
            Some("<text") => {
                let (tag, words) = line.split_once('>').expect("a tag ends");
                let words = words.trim_end_matches("</text>");
                let (from, to) = extent(tag, words);
                let (left, right) = cell.unwrap_or((4.0, right - 4.0));
                assert!(
                    from >= left + 2.0 && to <= right - 2.0,
                    "{what}: '{words}' goes from {from} to {to} in {left} to {right}"
                );
                let y = number(tag, "y");
                assert!(y > 10.0 && y < bottom - 4.0, "{what}: '{words}' stands at {y} of {bottom}");
            }
            _ => {}
        }
    }
}

#[test]
fn pictures_of_every_family_fit() {
    let folder = Folder::new();
    let single = (1..64).flat_map(|k| (1..=32).map(move |r| ("single parity", k, r)));
    let liberation = [3, 5, 7].into_iter().flat_map(|w| (2..=w).map(move |k| ("liberation", w, k)));
    let diagonal = ["row-diagonal", "evenodd"].into_iter().flat_map(|name| [3, 5, 7].map(|p| (name, p, 0)));
    let mut drawn = 0;
    for (name, a, b) in single.chain(liberation).chain(diagonal) {
        let Ok(sheet) = model::family(name, a, b) else { continue };
        folder.put("code", &sheet);
        let last = sheet[2] - 1;
        let lost = ["".to_string(), format!("--disk {last}"), format!("--disk 0,{last}"), format!("--disk 0-{last}")];
        for lost in lost {
            let line = format!("show code {lost} --svg out");
            let status = folder.run(&line).status;
            assert!(status == 0 || status == 1 && lost.contains("0"), "{line}: {status}");
            let picture = String::from_utf8(folder.get("out")).expect("text");
            texts_fit(&picture, &format!("{name} {a} {b}, {line}"));
            balanced(&picture);
            drawn += 1;
        }
    }
    println!("{drawn} pictures");
    assert!(drawn > 800, "{drawn} pictures");
    // Codes of no family, sums of many members, and a plan that isn't short.
    let rows: Vec<u64> = (0..64).map(|s| if s < 32 { u64::from(u32::MAX) } else { 1 << (s - 32) }).collect();
    folder.put("code", &sheet(2, 32, 32, &rows));
    folder.done("show code --disk 0 --svg out");
    texts_fit(&String::from_utf8(folder.get("out")).expect("text"), "a sum of 32");
    folder.put("code", &sheet(2, 1, 64, &[u64::MAX, 1 << 63]));
    assert_eq!(folder.run("show code --disk 0 --svg out").status, 1);
    texts_fit(&String::from_utf8(folder.get("out")).expect("text"), "a pattern");
}

#[test]
fn the_readme_is_true() {
    let folder = Folder::new();
    fs::create_dir(folder.0.join("examples")).expect("created");
    folder.put("examples/register.txt", include_bytes!("../../examples/register.txt"));
    let readme = include_str!("../../README.md");
    let mut lines = 0;
    for line in readme.lines().filter_map(|line| line.strip_prefix("    ")) {
        match line.split_once(' ') {
            // A disk is lost by then.
            Some(("navorzim", line)) if line.starts_with("status ") => drop(folder.fails(line, 3)),
            Some(("navorzim", line)) => drop(folder.done(line)),
            Some(("rm", disk)) => folder.remove(disk),
            _ => continue,
        }
        lines += 1;
    }
    assert_eq!(lines, 19);
    for name in ["joined.txt", "decoded.txt"] {
        assert_eq!(folder.get(name), folder.get("examples/register.txt"), "{name}");
    }
    assert_eq!(folder.get("rebuilt.bin"), folder.get("stripes.bin"));
    assert!(folder.get("array/disk-0").starts_with(&folder.get("disk0.bin")));
    // Each line of the demonstration that is quoted stands in it.
    let said = folder.done("demo");
    let quoted = readme.lines().skip_while(|line| *line != "## Two commands").take_while(|line| *line != "## The tool");
    for line in quoted.filter_map(|line| line.strip_prefix("    ")).filter(|line| line.starts_with(['$', ' ', 'c'])) {
        assert!(said.contains(line), "'{line}' isn't in {said}");
    }
    for (name, picture) in [
        ("docs/stripe.svg", include_str!("../../docs/stripe.svg")),
        ("docs/array.svg", include_str!("../../docs/array.svg")),
    ] {
        texts_fit(picture, name);
        balanced(picture);
    }
}

#[test]
fn pictures_say_what_comes_back_and_what_disks_are_for() {
    let folder = Folder::new();
    folder.done("family liberation 3 3 -o code");
    let text = folder.done("show code --disk 0 --svg out");
    assert!(text.lines().any(|line| line.split_whitespace().eq(["data", "data", "data", "P", "Q"])), "{text}");
    let picture = String::from_utf8(folder.get("out")).expect("text");
    let pieces = [
        ">0 = 3 + 6 + 9<",
        ">2 = 5 + 8 + 11<",
        ">parity P<",
        ">parity Q<",
        ">data<",
        ">0: 0 ← 3<",
        "role=\"img\"",
        "<title id=\"title\">Liberation, w 3, k 3",
        "<desc id=\"desc\">Disk 0 is lost.",
    ];
    for piece in pieces {
        assert!(picture.contains(piece), "{piece}: {picture}");
    }
    // A symbol that is added twice cancels out, and a code of no family has no roles.
    let folder = Folder::square();
    folder.put("plan", &[6, 1, 4, 2, 4, 0, 4, 6, 0, 1, 0, 2, 2, 0, 4, 1, 1, 2, 2, 1, 7, 2, 1, 3, 2, 1, 3]);
    folder.done("show code --disk 0 --plan plan --svg out");
    let picture = String::from_utf8(folder.get("out")).expect("text");
    assert!(picture.contains(">1 = 2 + 7<") && !picture.contains("parity"), "{picture}");
}
