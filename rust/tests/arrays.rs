//! Arrays as folders: `split`, `status`, `restore` and `join`, run as a program. What disks must hold comes from the independent model,
//! and so does whether they can be rebuilt; files that must not change are compared by their bytes, times and numbers.
mod folder;
mod model;

use folder::{sheet, shim, square_sheet, Folder, TOOL};
use model::random::{self, Random};
use std::collections::BTreeMap;
use std::fs::{self, File, Permissions};
use std::os::unix::fs::{symlink, MetadataExt, PermissionsExt};
use std::path::PathBuf;
use std::process::Command;

/// A folder with a code sheet, `code`, a file of data, `data`, and the array made of both, `array`, by symbols of a length.
struct Case {
    folder: Folder,
    code: model::Code,
    data: Vec<u8>,
    disks: Vec<Vec<u8>>,
}

impl Case {
    fn new(sheet: &[u8], size: usize, data: &[u8]) -> Case {
        let folder = Folder::new();
        folder.put("code", sheet);
        folder.put("data", data);
        let said = folder.done(&format!("split code --symbol {size} data -o array"));
        let code = model::read_code(sheet).expect("a good sheet");
        let strips = strips(&code, size, data);
        let wrote = format!("wrote array: {} disks of {} byte", code.disks, strips[0].len());
        assert!(said.starts_with(&wrote), "{said}");
        let text = folder.get("array/array");
        let labelled = |(disk, mut bytes): (usize, Vec<u8>)| {
            let line = format!("navorzim label 1 disk {disk:02} text {:05} check ", text.len());
            let label = [&text, line.as_bytes()].concat();
            bytes.extend(label.iter().chain(format!("{:08x}\n", model::crc32(&label)).as_bytes()));
            bytes
        };
        let disks = strips.into_iter().enumerate().map(labelled).collect();
        let case = Case { folder, code, data: data.to_vec(), disks };
        case.is_whole("split");
        case
    }

    /// Liberation, w 5, k 5, by symbols of 64 bytes, with so many bytes of data.
    fn liberation(length: usize) -> Case {
        let sheet = model::family("liberation", 5, 5).expect("listed");
        Case::new(&sheet, 64, &Random::new(length as u64).bytes(length))
    }

    /// The same as an array of version 1, whose disks have no labels.
    fn without_labels(mut self) -> Case {
        let text = String::from_utf8(self.folder.get("array/array")).expect("text");
        let later = ["identity ", "made ", "family ", "check "];
        let lines = text.lines().filter(|line| !later.iter().any(|word| line.starts_with(word)));
        let lines: String = lines.map(|line| format!("{line}\n")).collect();
        self.folder.put("array/array", lines.replace("navorzim array 2", "navorzim array 1").as_bytes());
        for (disk, bytes) in self.disks.iter_mut().enumerate() {
            bytes.truncate(bytes.len() - text.len() - 51);
            self.folder.put(&Case::name(disk), bytes);
        }
        self
    }

    fn name(disk: usize) -> String {
        format!("array/disk-{disk}")
    }

    fn lose(&self, disks: &[usize]) {
        disks.iter().for_each(|&disk| self.folder.remove(&Case::name(disk)));
    }

    /// Every disk has the bytes that the model gives it, and there is nothing else in the folder.
    fn is_whole(&self, context: &str) {
        for (disk, bytes) in self.disks.iter().enumerate() {
            assert!(self.folder.get(&Case::name(disk)) == *bytes, "{context}: disk {disk}");
        }
        let files = fs::read_dir(self.folder.0.join("array")).expect("a folder").count();
        assert_eq!(files, self.disks.len() + 1, "{context}: stray files");
    }

    /// The data come back.
    fn joins(&self, context: &str) {
        self.folder.done("join array -o joined");
        assert!(self.folder.get("joined") == self.data, "{context}: joined");
    }

    /// What must not change: of every file in the folder its bytes, number, and times.
    fn stamps(&self) -> BTreeMap<PathBuf, (Vec<u8>, u64, i64, i64)> {
        let all = self.folder.contents().into_iter().map(|(path, bytes)| {
            let found = fs::symlink_metadata(&path).expect("there");
            let times = (found.mtime_nsec() ^ found.mtime(), found.ctime_nsec() ^ found.ctime());
            (path, (bytes, found.ino(), times.0, times.1))
        });
        all.filter(|(path, _)| !path.is_dir()).collect()
    }

    /// Runs a line that must write these disks and touch no other file.
    fn writes(&self, line: &str, disks: &[usize]) -> String {
        let before = self.stamps();
        let said = self.folder.done(line);
        let mut after = self.stamps();
        for &disk in disks {
            let written = after.remove(&self.folder.0.join(Case::name(disk)));
            assert!(written.is_some_and(|(bytes, ..)| bytes == self.disks[disk]), "{line}: disk {disk}");
        }
        assert_eq!(after, before, "{line}");
        said
    }
}

/// What each disk holds: its strip of each stripe, the last one filled up with zeros.
fn strips(code: &model::Code, size: usize, data: &[u8]) -> Vec<Vec<u8>> {
    let mut disks = vec![Vec::new(); code.disks];
    for piece in data.chunks(code.data * size) {
        let mut piece = piece.to_vec();
        piece.resize(code.data * size, 0);
        let stripe = model::scatter(code, size, &piece);
        for (disk, bytes) in disks.iter_mut().enumerate() {
            bytes.extend(&stripe[code.strip(disk).start * size..code.strip(disk).end * size]);
        }
    }
    disks
}

/// All single disks of a code, and all pairs.
fn losses(code: &model::Code) -> Vec<Vec<usize>> {
    let pairs = (0..code.disks).flat_map(|two| (0..two).map(move |one| vec![one, two]));
    (0..code.disks).map(|disk| vec![disk]).chain(pairs).collect()
}

/// Files of no byte, one byte and many, with every disk lost and every pair that the code can bear: joined without the disks, and restored.
fn gives_every_file_back(name: &str, a: u64, b: u64, size: usize) {
    let sheet = model::family(name, a, b).expect("listed");
    let piece = model::read_code(&sheet).expect("good").data * size;
    for length in [0, 1, 2 * piece + piece / 2 + 1] {
        let case = Case::new(&sheet, size, &Random::new(length as u64).bytes(length));
        case.joins("whole");
        for lost in losses(&case.code) {
            let context = format!("{name} {a} {b}, {length} bytes, disks {lost:?} lost");
            let list: Vec<u8> = lost.iter().map(|&disk| disk as u8).collect();
            if !model::can_be_rebuilt(&case.code, &list, &case.code.strips(&list)) {
                continue;
            }
            case.lose(&lost);
            case.joins(&context);
            case.writes("restore array", &lost);
            case.is_whole(&context);
        }
    }
}

#[test]
fn single_parity_gives_every_file_back() {
    for (k, r) in [(1, 1), (1, 32), (2, 1), (3, 4), (7, 8), (20, 3), (63, 1)] {
        gives_every_file_back("single parity", k, r, 5);
    }
}

#[test]
fn small_liberation_gives_every_file_back() {
    [(3, 2), (3, 3), (5, 2), (5, 3), (5, 4), (5, 5)]
        .iter()
        .for_each(|&(w, k)| gives_every_file_back("liberation", w, k, 3));
}

#[test]
fn large_liberation_gives_every_file_back() {
    (2..=7).for_each(|k| gives_every_file_back("liberation", 7, k, 64));
}

#[test]
fn row_diagonal_gives_every_file_back() {
    [3, 5, 7].iter().for_each(|&p| gives_every_file_back("row-diagonal", p, 0, 7));
}

#[test]
fn evenodd_gives_every_file_back() {
    [3, 5, 7].iter().for_each(|&p| gives_every_file_back("evenodd", p, 0, 1));
}

/// A random code in which each data symbol stands somewhere as it is.
fn random_code(random: &mut Random) -> model::Code {
    let (disks, height) = (2 + random.below(6), 1 + random.below(4));
    let data = 1 + random.below(disks * height - 1);
    let row =
        |s: usize, random: &mut Random| (0..data).map(|t| if s < data { s == t } else { random.one_in(2) }).collect();
    let mut rows: Vec<model::Row> = (0..disks * height).map(|s| row(s, random)).collect();
    for s in 0..rows.len() {
        let other = random.below(rows.len());
        rows.swap(s, other);
    }
    model::Code { disks, height, data, rows }
}

#[test]
fn any_code_and_any_disks_are_restored_exactly_if_they_can_be() {
    let mut random = Random::new(31);
    let (mut restored, mut refused) = (0, 0);
    for _ in 0..60 {
        let (code, size) = (random_code(&mut random), 1 + random.below(9));
        let length = random.below(4 * code.data * size);
        let case = Case::new(&code.sheet(), size, &random.bytes(length));
        let lost = random::disks(&mut random, &code);
        let numbers: Vec<usize> = lost.iter().map(|&disk| disk.into()).collect();
        case.lose(&numbers);
        let data_left = model::can_be_rebuilt(&code, &lost, &data_homes(&code, &lost));
        let joined = case.folder.run("join array -o joined");
        assert_eq!(joined.status, if data_left { 0 } else { 1 }, "{code:?} {lost:?} {joined:?}");
        assert_eq!(case.folder.has("joined"), data_left);
        assert!(!data_left || case.folder.get("joined") == case.data, "{code:?} {lost:?}");
        if model::can_be_rebuilt(&code, &lost, &code.strips(&lost)) {
            restored += 1;
            assert!(case.folder.fails("status array", 3).out.contains("can be rebuilt: reads"));
            case.writes("restore array", &numbers);
        } else {
            refused += 1;
            for line in ["status array", "restore array", "restore array --dry-run"] {
                let ran = case.folder.fails(line, 1);
                assert!(ran.err.contains("be rebuilt by any plan: "), "{ran:?}");
                assert!(ran.err.ends_with(" for each bit (array/array)\n"), "{ran:?}");
                assert!(ran.out.contains(" is gone.\n"), "{ran:?}");
            }
        }
    }
    println!("{restored} restored, {refused} beyond help");
    assert!(restored > 10 && refused > 10, "{restored} restored, {refused} beyond help");
}

/// The lost symbols that data are read from: those of data symbols that stand alone on no disk that is there.
fn data_homes(code: &model::Code, lost: &[u8]) -> Vec<usize> {
    let strips = code.strips(lost);
    let alone = |t: usize, s: &usize| (0..code.data).all(|other| code.rows[*s][other] == (other == t));
    let homes = (0..code.data).map(|t| {
        let all: Vec<usize> = (0..code.symbols()).filter(|s| alone(t, s)).collect();
        all.iter().copied().find(|s| !strips.contains(s)).unwrap_or(all[0])
    });
    homes.filter(|home| strips.contains(home)).collect()
}

#[test]
fn many_stripes_are_restored_by_several_threads() {
    let sheet = model::family("evenodd", 5, 0).expect("listed");
    let mut random = Random::new(5);
    // Symbols longer and shorter than a block's, and such that the last block isn't full.
    for (size, stripes) in [(1, 60_000), (7, 9_001), (64, 1_500), (1000, 97), (4096, 23), (16_384, 7), (65_536, 3)] {
        let length = 20 * size * stripes - size / 2;
        let case = Case::new(&sheet, size, &random.bytes(length));
        for lost in [vec![0], vec![6], vec![1, 4], vec![5, 6]] {
            case.lose(&lost);
            case.joins(&format!("L {size}"));
            case.writes("restore array", &lost);
        }
    }
}

#[test]
fn the_description_can_be_read_by_a_person() {
    let folder = Folder::square();
    folder.put("data", &[7; 9]);
    folder.done("split code --symbol 2 data -o array");
    let expected = "\
navorzim array 2
identity ..
made ..
symbol 2
stripes 2
length 9
code 040104020408
row 0100000000000000
row 0200000000000000
row 0400000000000000
row 0800000000000000
row 0500000000000000
row 0a00000000000000
row 0900000000000000
row 0600000000000000
disk 0 disk-0
disk 1 disk-1
disk 2 disk-2
disk 3 disk-3
";
    let text = String::from_utf8(folder.get("array/array")).expect("text");
    let lines: Vec<&str> = text.lines().collect();
    let identity = lines[1].strip_prefix("identity ").expect("the array's own");
    assert!(identity.len() == 32 && identity.bytes().all(|digit| digit.is_ascii_hexdigit()), "{identity}");
    let made = lines[2].strip_prefix("made ").expect("a moment");
    assert!(made.len() == 23 && made.starts_with("20") && made.ends_with(" UTC"), "{made}");
    let check = text.rfind("check ").expect("a check value");
    assert_eq!(&text[check..], format!("check {:08x}\n", model::crc32(&text.as_bytes()[..check])));
    if let Some(zlib) =
        folder.python("import zlib\nt=open('array/array','rb').read()\nprint('%08x'%zlib.crc32(t[:-15]))")
    {
        assert_eq!(text[check..], format!("check {zlib}"), "zlib gives another value");
    }
    assert_eq!(text[..check].replace(identity, "..").replace(made, ".."), expected);
    // The family's name and parameters, where the code is a family's; and no other array has the same identity.
    folder.put("code", &model::family("liberation", 5, 4).expect("listed"));
    folder.done("split code --symbol 2 data -o other");
    let other = String::from_utf8(folder.get("other/array")).expect("text");
    assert!(other.contains(" UTC\nfamily Liberation, w 5, k 4\nsymbol 2\n"), "{other}");
    assert!(!other.contains(identity));
}

/// The description of 9 bytes in the square code, with something changed.
fn described_with(changes: &[(&str, &str)]) -> Case {
    let case = Case::new(&square_sheet(), 2, &[7; 9]).without_labels();
    let text = String::from_utf8(case.folder.get("array/array")).expect("text");
    let changed = changes.iter().fold(text, |text, (old, new)| {
        assert!(text.contains(old), "{old}: {text}");
        text.replacen(old, new, 1)
    });
    case.folder.put("array/array", changed.as_bytes());
    case
}

/// Descriptions with something changed, and the line and the words of the fault.
fn faulty(faults: &[(&str, &str, usize, &str)]) {
    for (old, new, line, said) in faults {
        let case = described_with(&[(old, new)]);
        for command in ["status array", "restore array", "join array -o out"] {
            let said_now = case.folder.misused(command);
            let expected = format!("navorzim: can't use array/array: line {line}: ");
            assert!(said_now.starts_with(&expected) && said_now.contains(said), "{new}: {said_now}");
        }
    }
}

#[test]
fn faults_of_numbers_name_their_line() {
    faulty(&[
        ("array 1", "array 3", 1, "'navorzim array 2', or the same with 1, must stand here"),
        ("array 1", "array 2", 2, "'identity' and 32 hexadecimal digits (a to f small) must stand here"),
        ("navorzim", "Navorzim", 1, "must stand here"),
        ("navorzim array 1\n", "", 1, "must stand here"),
        ("navorzim array 1\n", "\n\n", 1, "must stand here"),
        ("symbol 2", "symbol 0", 2, "a symbol is 1 to 65536 bytes long, not 0"),
        ("symbol 2", "symbol 65537", 2, "a symbol is 1 to 65536 bytes long"),
        ("symbol 2", "symbol two", 2, "'symbol' and a decimal number must stand here"),
        ("symbol 2", "symbol 02", 2, "decimal number"),
        ("symbol 2", "symbol +2", 2, "decimal number"),
        ("symbol 2", "symbol  2", 2, "decimal number"),
        ("symbol 2", "symbol 2 ", 2, "decimal number"),
        ("symbol 2", "symbol 2\r", 2, "decimal number"),
        ("symbol 2", "symbol", 2, "'symbol' and a number must stand here"),
        ("symbol 2\n", "", 2, "'symbol' and a number must stand here"),
        ("stripes 2", "stripes 3", 3, "9 bytes of data, 8 a stripe, fill 2 stripes, not 3"),
        ("stripes 2", "stripes 1", 3, "fill 2 stripes, not 1"),
        ("stripes 2", "stripes 18446744073709551616", 3, "decimal number"),
        ("length 9", "length 8", 3, "8 bytes of data, 8 a stripe, fill 1 stripe, not 2"),
        ("length 9", "length 17", 3, "fill 3 stripes, not 2"),
        ("length 9", "length -9", 4, "decimal number"),
        (
            "stripes 2\nlength 9",
            "stripes 2305843009213693952\nlength 18446744073709551615",
            4,
            "18446744073709551615 bytes of data are more than files can hold",
        ),
    ]);
}

#[test]
fn faults_of_rows_and_names_name_their_line() {
    faulty(&[
        ("code 04", "code 4", 5, "'code' and 12 hexadecimal digits (a to f small) must stand here"),
        ("code 04", "code 0g", 5, "12 hexadecimal digits"),
        ("code 04", "code 0404", 5, "12 hexadecimal digits"),
        ("row 0a", "row 0A", 11, "'row' and 16 hexadecimal digits (a to f small) must stand here"),
        ("row 0a00000000000000\n", "", 13, "'row' and 16 hexadecimal"),
        ("row 06", "disk 0 disk-0\nrow 06", 13, "'row' and 16 hexadecimal"),
        ("disk 0 disk-0\n", "", 14, "'disk 0' and the name of its file must stand here"),
        ("disk 3 disk-3\n", "", 17, "it is missing"),
        ("disk 3 disk-3\n", "disk 3 disk-3", 17, "it has no end"),
        ("disk 3 disk-3\n", "disk 3 disk-3\n\n", 18, "it is one too many: the code has 4 disks"),
        ("disk 3 disk-3\n", "disk 3 disk-3\ndisk 4 disk-4\n", 18, "it is one too many"),
        ("disk 2 disk-2", "disk 3 disk-2", 16, "'disk 2' and the name"),
        ("disk 2 disk-2", "disk 2 disk-1", 16, "'disk-1' is another disk's file already"),
        ("disk 2 disk-2", "disk 2 ", 16, "it is no name for a file"),
        ("disk 2 disk-2", "disk 2 ..", 16, "it is no name for a file"),
        ("disk 2 disk-2", "disk 2 ../data", 16, "a disk's file lies in the folder itself"),
        ("disk 2 disk-2", "disk 2 array", 16, "the description itself can't be a disk"),
        ("disk 2 disk-2", "disk 2 a\tb", 16, "it has signs that can't be shown"),
        ("disk 2 disk-2", "disk 2 .navorzim-1-2-3.part", 16, "temporary files have such names"),
    ]);
}

#[test]
fn codes_that_the_library_refuses_name_their_line() {
    for (old, new, number, place, line) in [
        ("code 0401", "code 0501", 3, 0, 5),
        ("code 0401", "code 0402", 4, 0, 5),
        ("code 04010402", "code 04014102", 5, 0, 5),
        ("code 040104020408", "code 04010402040a", 3, 0, 5),
        ("row 0a", "row 1a", 6, 5 * 64 + 4, 11),
    ] {
        let more = "row 0000000000000000\nrow 0000000000000000\ndisk 0";
        let longer = if new.ends_with("0a") { ("disk 0", more) } else { ("disk 0", "disk 0") };
        let case = described_with(&[(old, new), longer]);
        let sentence = case.folder.refused("status array", number, place);
        assert!(sentence.ends_with(&format!("line {line} (array/array)")), "{sentence}");
    }
}

#[test]
fn descriptions_of_any_bytes_are_no_danger() {
    let case = Case::new(&square_sheet(), 2, &[7; 9]).without_labels();
    let text = case.folder.get("array/array");
    let mut random = Random::new(77);
    let judge = |bytes: &[u8], context: &str| {
        case.folder.put("array/array", bytes);
        let ran = case.folder.run("status array");
        // Whatever is said, it is one of the tool's own sentences, and a fault names its line.
        let fault = ran.err.contains("can't use array/array: line ") || ran.err.contains(": line ");
        assert!(
            [0, 3].contains(&ran.status) || ran.err.contains("array/disk-") || ran.err.contains("by any plan") || fault,
            "{context}: {ran:?}"
        );
    };
    for cut in 0..text.len() {
        judge(&text[..cut], &format!("cut at {cut}"));
    }
    for round in 0..300 {
        let damaged = random::damaged(&mut random, &text);
        judge(&damaged, &format!("round {round}"));
    }
    let longer = [&text[..], &b"disk\n".repeat(7000)].concat();
    judge(&longer, "long");
    assert!(case.folder.misused("status array").contains("it goes on after 32768 bytes"));
    case.folder.put("array/array", &[text.as_slice(), b"\xff\n"].concat());
    assert!(case.folder.misused("status array").contains("line 18: it isn't text"));
}

#[test]
fn names_are_the_descriptions_own() {
    let case = described_with(&[("disk 2 disk-2", "disk 2 a disk of été"), ("disk 0 disk-0", "disk 0 -")]);
    fs::rename(case.folder.0.join("array/disk-2"), case.folder.0.join("array/a disk of été")).expect("renamed");
    fs::rename(case.folder.0.join("array/disk-0"), case.folder.0.join("array/-")).expect("renamed");
    assert!(case.folder.done("status array").contains("disk 2         a disk of été  8 bytes\n"));
    case.folder.remove("array/-");
    case.folder.remove("array/a disk of été");
    let said = case.folder.done("restore array");
    assert!(said.starts_with("restored disks 0 and 2: array/-, array/a disk of été\n"), "{said}");
    assert_eq!(case.folder.get("array/a disk of été"), case.disks[2]);
    case.joins("other names");
}

#[test]
fn what_is_there_is_reported_exactly() {
    let case = Case::liberation(3200);
    let status = |status: i32| {
        let ran = case.folder.fails("status array", status);
        (ran.out, ran.err)
    };
    let (out, err) = status(0);
    let head = "array: Liberation, w 5, k 5: 7 disks of 5 rows, 25 data symbols\n  3200 bytes of data in 2 stripes, symbols of 64 bytes (L)\n";
    let disk = |disk: usize, role: &str, found: &str| format!("  disk {disk}   {role:<4}  disk-{disk}  {found}\n");
    let roles = ["data", "data", "data", "data", "data", "P", "Q"];
    let all: String = (0..7).map(|number| disk(number, roles[number], "640 bytes")).collect();
    assert_eq!((out, err), (format!("{head}{all}all 7 disks are there\n"), String::new()));

    case.lose(&[0, 3]);
    case.folder.put("array/notes.txt", b"mine");
    case.folder.put("array/.navorzim-12-ab12-0.part", b"dead");
    let (out, err) = status(3);
    assert_eq!(err, "");
    let all = all.replace("disk-0  640 bytes", "disk-0  missing").replace("disk-3  640 bytes", "disk-3  missing");
    let extra = "  .navorzim-12-ab12-0.part: a temporary file: of a run at work, or of one that was killed\n  notes.txt: not a part of the array\n";
    let last = "disks 0 and 3 can be rebuilt: reads 25 symbols of each of 2 stripes, 3200 bytes, from disks 1, 2, 4, 5 and 6\n";
    assert_eq!(out, format!("{head}{all}{extra}{last}"));
    case.writes_but_part("restore array", &[0, 3]);

    case.lose(&[0, 3, 6]);
    let ran = case.folder.fails("status array", 1);
    assert_eq!(ran.err, "navorzim: disks 0, 3 and 6 can't all be rebuilt by any plan: 15 of 15 symbols are beyond help, together 32 possibilities for each bit (array/array)\n");
    assert!(
        ran.out.contains("Disks 0, 3 and 6 are lost, and no plan can bring all of them back.\n15 of 15 symbols are beyond help: disks 0, 3 and 6.\n"),
        "{ran:?}"
    );
    assert!(ran.out.ends_with("\nIf one of disks 0, 3 and 6 came back, the others could be rebuilt.\n"), "{ran:?}");
}

impl Case {
    /// As `writes`, where a killed run has left a temporary file, which goes.
    fn writes_but_part(&self, line: &str, disks: &[usize]) {
        self.folder.remove("array/.navorzim-12-ab12-0.part");
        self.writes(line, disks);
    }
}

#[test]
fn what_stands_in_a_disks_place_is_reported_and_left() {
    let case = Case::liberation(3200);
    let path = case.folder.0.join("array/disk-2");
    let fault = |said: &str, context: &str| {
        let ran = case.folder.fails("status array", 1);
        assert!(ran.out.contains(&format!("disk 2   data  disk-2  {said}\n")), "{context}: {ran:?}");
        assert!(ran.out.contains("\ndisk 2 can be rebuilt: reads 25 symbols"), "{context}: {ran:?}");
        assert_eq!(ran.err, format!("navorzim: array/disk-2: {said}; move it away to have it restored\n"));
        for line in ["restore array", "restore array 2", "restore array --dry-run"] {
            let ran = case.folder.misused(line);
            let expected = format!("navorzim: can't write array/disk-2: {said}; move it away to have it restored\n");
            assert_eq!(ran, expected, "{context}");
        }
    };
    let right = case.disks[2].len();
    for length in [0, 639, 641, right - 1, right + 1] {
        case.folder.put("array/disk-2", &vec![1; length]);
        fault(&format!("it has {length} bytes, not {right}"), "another length");
        // The data can be read all the same.
        case.joins("another length");
    }
    case.lose(&[2]);
    for (to, said) in [("nowhere", "it is a link to nothing"), ("disk-1", "it is the same file as disk-1")] {
        symlink(to, &path).expect("a link");
        fault("it is a link; --links takes links, for arrays whose disks lie on several media", "a link");
        let ran = case.folder.fails("status array --links", 1);
        assert!(ran.out.contains(&format!("disk 2   data  disk-2  {said}\n")), "{ran:?}");
        let ran = case.folder.misused("restore array --links");
        assert!(ran.contains(&format!("can't write array/disk-2: {said}; move it away")), "{ran}");
        case.lose(&[2]);
    }
    fs::hard_link(case.folder.0.join("array/disk-0"), &path).expect("a link");
    fault("it is the same file as disk-0", "another disk under its name");
    case.lose(&[2]);
    fs::create_dir(&path).expect("a folder");
    fault("it is a folder", "a folder");
    fs::remove_dir(&path).expect("empty");
    let made = Command::new("mkfifo").arg(&path).status().expect("mkfifo runs");
    assert!(made.success());
    let ran = case.folder.run("status array");
    assert!(ran.status == 1 && ran.out.contains("disk-2  it is a pipe, not a regular file\n"), "{ran:?}");
    case.lose(&[2]);
    case.writes("restore array", &[2]);
}

#[test]
fn disks_that_are_there_are_not_written() {
    let case = Case::liberation(3200);
    assert_eq!(case.folder.done("restore array"), "nothing to restore: all 7 disks are there\n");
    case.lose(&[0]);
    for (line, said) in [
        ("restore array 1", "can't write array/disk-1: it is there; move it away"),
        ("restore array 0,1", "can't write array/disk-1: it is there; move it away"),
        ("restore array 0-6", "can't write array/disk-1: it is there; move it away"),
        ("restore array 0 --plan nowhere", "can't read nowhere"),
        ("restore array 0 1", "'1' is one word too many"),
        ("restore array zero", "not 'zero'"),
        ("restore nowhere", "can't read nowhere/array"),
        ("restore code", "can't read code/array"),
    ] {
        let ran = case.folder.misused(line);
        assert!(ran.contains(said), "{line}: {ran}");
    }
    let sentence = case.folder.refused("restore array 0,7", 7, 0);
    assert!(sentence.contains("asked for 7, it has 0 to 6"), "{sentence}");
    case.folder.refused("restore array 18446744073709551615", 7, 0);
}

#[test]
fn some_of_the_missing_disks_are_restored() {
    let case = Case::liberation(3200);
    case.lose(&[0, 3]);
    let said = case.writes("restore array 3", &[3]);
    assert!(said.starts_with("restored disk 3: array/disk-3\n  read "), "{said}");
    let out = case.folder.fails("status array", 3).out;
    assert!(out.contains("disk-0  missing") && out.contains("disk-3  640 bytes"), "{out}");
    case.writes("restore array 0", &[0]);
    // A disk of another length is no help for the others, and no hindrance if they are named.
    case.lose(&[1]);
    case.folder.put("array/disk-5", b"short");
    let said = case.writes("restore array 1", &[1]);
    assert!(said.contains("from disks 0, 2, 3, 4 and 6\n"), "{said}");
}

#[test]
fn a_dry_run_says_what_would_be_read() {
    let case = Case::liberation(3200);
    case.lose(&[0, 3]);
    let before = case.stamps();
    let said = case.folder.done("restore array --dry-run");
    let read = "  would read 25 symbols of each of 2 stripes, 3200 bytes, from disks 1, 2, 4, 5 and 6\n";
    assert_eq!(
        said,
        format!("would restore disks 0 and 3: array/disk-0, array/disk-3\n{read}  would write 1280 bytes\n")
    );
    assert_eq!(case.stamps(), before);
    let done = case.writes("restore array", &[0, 3]);
    assert!(done.contains(&read.replace("would ", "")), "{done}");
    assert!(done.contains("  wrote 1280 bytes, in "), "{done}");
}

#[test]
fn a_disk_of_zeros_is_restored_from_nothing() {
    let case = Case::new(&sheet(2, 1, 1, &[1, 0]), 3, &[7; 10]);
    case.lose(&[1]);
    let said = case.writes("restore array", &[1]);
    assert!(said.contains("\n  read 0 symbols of each of 4 stripes, 0 bytes\n  wrote 12 bytes, in "), "{said}");
    case.lose(&[0, 1]);
    case.folder.fails("restore array", 1);
    case.folder.fails("restore array 0", 1);
    case.folder.fails("join array -o out", 1);
    // The zeros are still to be had.
    case.writes("restore array 1", &[1]);
}

/// Liberation, w 5, k 5, disk 0: rows 0 and 1 from P, rows 2 to 4 from Q, which reads 20 symbols.
fn twenty_reads() -> Vec<u8> {
    let code = model::read_code(&model::family("liberation", 5, 5).expect("listed")).expect("good");
    let mut steps: Vec<[u8; 3]> = Vec::new();
    for row in 0..5usize {
        let parity = if row < 2 { 25 + row } else { (30..35).find(|&s| code.rows[s][row]).expect("a diagonal") };
        let members = (0..25).filter(|&t| code.rows[parity][t] && t != row);
        let sources = members.chain([parity]).enumerate();
        steps.extend(sources.map(|(nth, source)| [if nth == 0 { 1 } else { 2 }, row as u8, source as u8]));
    }
    let mut plan = vec![6, 1, 7, 5, 25, 0, 20];
    plan.extend((steps.len() as u16).to_le_bytes());
    plan.extend(steps.concat());
    plan
}

#[test]
fn a_given_plan_is_checked_like_any_other() {
    let case = Case::liberation(3200);
    let sheet = case.folder.get("code");
    assert_eq!(model::check(&sheet, 0, &twenty_reads()), Ok(20));
    case.folder.put("plan", &twenty_reads());
    case.lose(&[0]);
    let said = case.writes("restore array --plan plan", &[0]);
    assert!(said.contains("read 20 symbols of each of 2 stripes, 2560 bytes, from "), "{said}");
    case.lose(&[0]);
    case.writes("restore array 0 --plan plan", &[0]);
    case.lose(&[0]);
    let (ran, _) = case.folder.run_with_input("restore array --plan -", &twenty_reads());
    assert_eq!(ran.status, 0, "{ran:?}");
    case.is_whole("a plan from standard input");

    // For other disks, for another layout, with a fault, for less than the disk.
    case.lose(&[0, 1]);
    let sentence = case.folder.refused("restore array --plan plan", 16, 0);
    assert!(sentence.ends_with("the plan is for disk 0, not for disks 0 and 1 (plan)"), "{sentence}");
    case.folder.refused("restore array 0 --plan plan", 16, 0);
    case.writes("restore array 1", &[1]);
    let mut wrong = twenty_reads();
    wrong[6] = 21;
    case.folder.put("wrong", &wrong);
    case.folder.refused("restore array --plan wrong", 22, 20);
    case.folder.done("plan code 0 --want 1-4 -o part");
    let said = case.folder.misused("restore array --plan part");
    assert_eq!(said, "navorzim: can't use part: it doesn't bring disk 0 row 0 back\n");
    case.folder.put("smaller", &model::family("liberation", 5, 4).expect("listed"));
    case.folder.done("plan smaller 0 -o other");
    case.folder.refused("restore array --plan other", 15, 0);
    assert!(!case.folder.has("array/disk-0"));
}

/// The plan of the incident: made for the same shape, with the parity disks the other way round.
#[test]
fn a_plan_that_was_kept_from_another_layout_writes_nothing() {
    let case = Case::liberation(3200);
    let sheet = case.folder.get("code");
    let (head, parities) = sheet.split_at(sheet.len() - 80);
    case.folder.put("anew", &[head, &parities[40..], &parities[..40]].concat());
    case.folder.done("plan anew 0 -o kept");
    case.lose(&[0]);
    case.folder.refused("restore array --plan kept", 21, 5);
    case.folder.refused("restore array 0 --plan kept --dry-run", 21, 5);
    assert!(!case.folder.has("array/disk-0"));
    case.writes("restore array", &[0]);
}

/// Other programs hold the disks that aren't read: whoever opens one of them for reading is told so.
#[test]
fn disks_that_are_not_read_are_not_opened() {
    let case = Case::liberation(3200);
    case.lose(&[0]);
    let held = |disk: usize| {
        let file = File::open(case.folder.0.join(Case::name(disk))).expect("opened");
        file.lock().expect("locked");
        file
    };
    let q = held(6);
    case.writes("restore array", &[0]);
    drop(q);
    let _p = held(5);
    case.joins("parity isn't read");
    case.lose(&[0]);
    let said = case.folder.misused("restore array");
    assert!(said.contains("can't read array/disk-5: another program has locked it"), "{said}");
    case.folder.put("row", &[]);
}

/// How many bytes a line of the tool reads by its own calls, as the system counts them; none where it doesn't.
fn bytes_read(folder: &Folder, line: &str) -> Option<u64> {
    let lines = format!("'{TOOL}' {line} >/dev/null && cat /proc/$$/io");
    let output = Command::new("sh").args(["-c", &lines]).current_dir(&folder.0).output().ok()?;
    let text = String::from_utf8(output.stdout).ok()?;
    text.lines().find_map(|line| line.strip_prefix("rchar: ")?.parse().ok())
}

#[test]
fn symbols_that_are_not_read_are_not_read() {
    for size in [512, 65_536] {
        let sheet = model::family("liberation", 5, 5).expect("listed");
        let stripes = (20 << 20) / (25 * size);
        let case = Case::new(&sheet, size, &Random::new(6).bytes(25 * size * stripes));
        let Some(little) = bytes_read(&case.folder, "status array") else {
            println!("not tried: the system doesn't count");
            return;
        };
        assert!(little < 100_000, "status read {little} bytes");
        case.folder.put("plan", &twenty_reads());
        let once = (size * stripes) as u64;
        for (line, symbols) in [("restore array --plan plan", 20), ("restore array", 25), ("join array -o joined", 25)]
        {
            if line.contains("restore") {
                case.lose(&[0]);
            }
            let read = bytes_read(&case.folder, line).expect("counted");
            let expected = symbols * once;
            assert!(read >= expected && read < expected + 100_000, "{line}, L {size}: {read} bytes, not {expected}");
        }
        case.is_whole("counted");
    }
}

#[test]
fn a_code_that_cannot_be_joined_is_refused_before_anything_is_written() {
    let folder = Folder::square();
    // d1 and d3 stand nowhere alone.
    folder.put("code", &sheet(4, 2, 4, &[1, 3, 4, 12, 5, 10, 9, 6]));
    for line in ["split code --symbol 1 data -o array", "decode code --symbol 1 stripes -o out"] {
        let said = folder.misused(line);
        assert_eq!(said, "navorzim: can't use code: no symbol is d1 or d3 alone, so that data can't be read again\n");
    }
    // So does join, of a description that says such a code.
    let case = described_with(&[("row 02", "row 03")]);
    let said = case.folder.misused("join array -o out");
    assert!(said.contains("can't use array/array: no symbol is d1 alone"), "{said}");
}

#[test]
fn arrays_are_new() {
    let folder = Folder::square();
    fs::create_dir(folder.0.join("empty")).expect("made");
    folder.put("file", b"mine");
    folder.done("split code --symbol 1 data -o empty");
    folder.done("split code --symbol 1 data -o new/");
    for (line, said) in [
        ("split code --symbol 1 data -o new", "can't use new: it isn't empty"),
        ("split code --symbol 1 data -o .", "can't use .: it isn't empty"),
        ("split code --symbol 1 data -o file", "can't use file: Not a directory"),
        ("split code --symbol 1 data -o nowhere/array", "can't make nowhere/array: No such file or directory"),
        ("split code --symbol 1 nowhere -o other", "can't read nowhere"),
        ("split nowhere --symbol 1 data -o other", "can't read nowhere"),
    ] {
        let ran = folder.misused(line);
        assert!(ran.contains(said), "{line}: {ran}");
    }
    folder.refused("split code --symbol 0 data -o other", 31, 0);
    folder.refused("split code --symbol 65537 data -o other", 31, 0);
    folder.refused("split data --symbol 1 data -o other", 1, 0);
    // What killed runs have left in a folder is no part of it.
    fs::create_dir(folder.0.join("left")).expect("made");
    folder.put("left/.navorzim-12-ab12-0.part", b"dead");
    folder.done("split code --symbol 1 data -o left");
    assert!(!folder.has("left/.navorzim-12-ab12-0.part"));
}

#[test]
fn the_array_is_not_written_over_by_its_own_data() {
    let case = Case::liberation(3200);
    case.lose(&[0]);
    for output in ["array/disk-0", "array/disk-1", "array/array", "./array/../array/disk-0"] {
        let said = case.folder.misused(&format!("join array -o {output}"));
        assert!(said.contains("it is a part of the array"), "{output}: {said}");
    }
    fs::hard_link(case.folder.0.join("array/disk-1"), case.folder.0.join("link")).expect("a link");
    let said = case.folder.misused("join array -o link");
    assert!(said.contains("it is also read, as array/disk-1"), "{said}");
    case.folder.done("join array -o array/joined");
    assert_eq!(case.folder.get("array/joined"), case.data);
}

#[test]
fn what_others_do_meanwhile_is_noticed() {
    let case = Case::liberation(3200);
    for (command, said) in [
        (
            "printf x | dd of=array/disk-1 conv=notrunc status=none",
            "can't use array/disk-1: it changed while it was read",
        ),
        ("cp array/disk-1 other && mv other array/disk-1", "can't use array/disk-1: it changed while it was read"),
        ("rm array/disk-5", "can't use array/disk-5: it changed while it was read"),
        ("touch array/array", "can't use array/array: it changed while it was read"),
        ("printf mine >array/disk-0", "can't write array/disk-0: somebody else made it meanwhile"),
        ("ln -s nowhere array/disk-0", "can't write array/disk-0: somebody else made it meanwhile"),
    ] {
        let _ = fs::remove_file(case.folder.0.join("array/disk-0"));
        let ran = case.folder.run_with("restore array", "AT_FLUSH", command);
        assert_eq!(ran.status, 2, "{command}: {ran:?}");
        assert!(ran.err.contains(said), "{command}: {ran:?}");
        let mine = command.contains("disk-0");
        assert_eq!(case.folder.has("array/disk-0"), mine, "{command}");
        assert!(!command.contains("mine") || case.folder.get("array/disk-0") == b"mine");
        assert!(!case.stamps().keys().any(|path| path.extension().is_some()), "{command}: a temporary file is left");
        (0..7).for_each(|disk| case.folder.put(&Case::name(disk), &case.disks[disk]));
    }
    // What nobody needs may change.
    case.lose(&[0]);
    let ran =
        case.folder.run_with("restore array", "AT_FLUSH", "printf x | dd of=array/disk-6 conv=notrunc status=none");
    assert_eq!(ran.status, 0, "{ran:?}");
}

#[test]
fn a_split_that_fails_leaves_nothing() {
    let folder = Folder::square();
    let before = folder.contents();
    for (command, said) in [
        ("printf x >>data", "can't use data: it changed while it was read"),
        ("mkdir -p array && printf x >array/disk-2", "can't make array: somebody else made it meanwhile"),
        ("printf x >array", "can't make array: somebody else made it meanwhile"),
    ] {
        let ran = folder.run_with("split code --symbol 1 data -o array", "AT_FLUSH", command);
        assert_eq!(ran.status, 2, "{command}: {ran:?}");
        assert!(ran.err.contains(said), "{command}: {ran:?}");
        let theirs = command.split(">array").nth(1).map(|name| format!("array{name}"));
        let left: Vec<PathBuf> = folder.contents().into_keys().filter(|path| !before.contains_key(path)).collect();
        let expected: Vec<PathBuf> = match &theirs {
            Some(name) if name == "array" => vec![folder.0.join("array")],
            Some(name) => vec![folder.0.join("array"), folder.0.join(name)],
            None => Vec::new(),
        };
        assert_eq!(left, expected, "{command}");
        let _ = fs::remove_dir_all(folder.0.join("array"));
        let _ = fs::remove_file(folder.0.join("array"));
        folder.put("data", &before[&folder.0.join("data")]);
    }
}

#[test]
fn a_restored_disk_has_the_rights_of_those_that_were_read() {
    let case = Case::liberation(3200);
    for mode in [0o600, 0o640, 0o666] {
        for name in (0..7).map(Case::name).chain(["array/array".to_string()]) {
            fs::set_permissions(case.folder.0.join(name), Permissions::from_mode(mode)).expect("set");
        }
        case.lose(&[2, 4]);
        case.writes("restore array", &[2, 4]);
        for disk in [2, 4] {
            let found = fs::metadata(case.folder.0.join(Case::name(disk))).expect("there");
            assert_eq!(found.mode() & 0o7777, mode, "disk {disk}");
        }
    }
}

/// A terminal that the tool writes its standard error to: its status, and what it showed there.
fn at_a_terminal(folder: &Folder, line: &str, variable: &str, value: &str) -> Option<String> {
    let lines = format!(
        "import os, pty, subprocess\n\
         reader, terminal = pty.openpty()\n\
         env = dict(os.environ, LD_PRELOAD='{}', {variable}='{value}')\n\
         child = subprocess.Popen(['{TOOL}'] + '{line}'.split(), stdout=subprocess.DEVNULL, stderr=terminal, env=env)\n\
         os.close(terminal)\n\
         out = b''\n\
         try:\n while piece := os.read(reader, 65536): out += piece\n\
         except OSError: pass\n\
         print(child.wait(), out.decode())",
        shim().display()
    );
    folder.python(&lines)
}

#[test]
fn somebody_at_a_terminal_sees_that_a_disk_is_brought_to_the_disk() {
    let case = Case::liberation(3200);
    case.lose(&[3]);
    let Some(shown) = at_a_terminal(&case.folder, "restore array", "AT_FLUSH", "sleep 2.3") else { return };
    assert!(shown.starts_with("0 ") && shown.contains("bringing disk-3 to the disk, 1 s"), "{shown:?}");
    assert!(shown.trim_end().ends_with("\r\x1b[K"), "the line is removed: {shown:?}");
    case.is_whole("at a terminal");
}

#[test]
fn somebody_at_a_terminal_sees_how_much_was_read() {
    let case = Case::liberation(500_000);
    let length = case.disks[0].len();
    assert!(length > 100_000);
    let shown = at_a_terminal(&case.folder, "status array --read", "READ_WAITS", "array/disk-2");
    let Some(shown) = shown else { return };
    let line = format!("\r{} of {} bytes, 28 %\x1b[K", 2 * length, 7 * length);
    assert!(shown.starts_with("0 ") && shown.contains(&line), "{shown:?}");
    assert!(shown.trim_end().ends_with("\r\x1b[K"), "the line is removed: {shown:?}");
}
