//! Standard input and output, named by a dash, and data that don't fill their last stripe.
mod folder;
mod model;

use folder::{balanced, sheet, square_sheet, Folder, P1, P2, TOOL};
use model::random::Random;
use std::io::Read;
use std::process::{Command, Stdio};

#[test]
fn sheets_go_through_pipes() {
    let folder = Folder::square();
    let liberation = model::family("liberation", 5, 5).expect("listed");
    let (ran, out) = folder.run_with_input("family liberation 5 5 -o -", b"");
    assert_eq!((ran.status, out), (0, liberation.clone()));
    assert_eq!(ran.err, "wrote -: 7 disks of 5 rows, 25 data symbols, 286 bytes\n");
    let (ran, plan) = folder.run_with_input("plan - 0 -o -", &liberation);
    assert_eq!((ran.status, &*ran.err), (0, "wrote -: 84 bytes, 25 steps, reads 25 symbols\n"));
    assert_eq!(model::check(&liberation, 0, &plan), Ok(25));
    for (line, input, said) in [
        ("check code 0 -", &P2[..], "accepted, reads 3 symbols\n"),
        ("check - 0 plan", &square_sheet(), "accepted, reads 3 symbols\n"),
        ("show -", &square_sheet(), "row 0  │  0 d0    │  2 d2    │  4 d0+d2 │  6 d0+d3 │\n"),
        ("show code --disk 0 --plan -", &P2, "4 steps, reads 3 of 6 surviving symbols"),
    ] {
        let (ran, out) = folder.run_with_input(line, input);
        let out = String::from_utf8(out).expect("text");
        assert!(ran.status == 0 && ran.err.is_empty() && out.contains(said), "{line}: {ran:?} {out}");
    }
    let (ran, out) = folder.run_with_input("check code 0 -", &P2[..20]);
    assert_eq!((ran.status, out.len()), (1, 0));
    assert_eq!(ran.err, "navorzim: refused 11 at 0: the plan sheet is too short: it has 20 bytes (-)\n");
    let (ran, _) = folder.run_with_input("check - 0 plan", &[4; 1 << 20]);
    assert!(ran.err.starts_with("navorzim: refused 4 at 0: "), "{ran:?}");
}

#[test]
fn pictures_go_through_pipes() {
    let folder = Folder::square();
    let (ran, out) = folder.run_with_input("show code --disk 0 --plan plan --svg -", b"");
    assert_eq!((ran.status, &*ran.err), (0, ""));
    balanced(std::str::from_utf8(&out).expect("text"));
    folder.done("show code --disk 0 --plan plan --svg out");
    assert_eq!(folder.get("out"), out);
    // Where there is no plan, the picture is of the pattern, and nothing else is in the pipe.
    folder.put("apart", &sheet(2, 1, 2, &[1, 2]));
    let (ran, out) = folder.run_with_input("show apart --disk 0 --svg -", b"");
    assert_eq!((ran.status, &*ran.err), (1, "navorzim: disk 0 can't be rebuilt by any plan: 1 of 1 symbol is beyond help, 2 possibilities for each bit (apart)\n"));
    balanced(std::str::from_utf8(&out).expect("text"));
    let (ran, out) = folder.run_with_input("plan apart 0 -o -", b"");
    assert_eq!((ran.status, out.len()), (1, 0));
    assert!(ran.err.contains("The pattern is 1") && ran.err.contains("can't be rebuilt by any plan"), "{ran:?}");
}

#[test]
fn data_come_from_standard_input() {
    let folder = Folder::new();
    folder.put("code", &model::family("evenodd", 5, 0).expect("listed"));
    // More than a pipe or a buffer holds.
    let data = Random::new(3).bytes(20 * 64 * 700);
    folder.put("data", &data);
    folder.done("encode code --symbol 64 data -o stripes");
    folder.done("split code --symbol 64 data -o array");
    let (ran, _) = folder.run_with_input("encode code --symbol 64 - -o out", &data);
    assert_eq!(ran.status, 0, "{ran:?}");
    assert!(folder.get("out") == folder.get("stripes"));
    let (ran, _) = folder.run_with_input("split code --symbol 64 - -o again", &data);
    assert_eq!(ran.status, 0, "{ran:?}");
    // The labels differ: each split makes an array of its own.
    let strips = |name: &str| folder.get(name)[..4 * 64 * 700].to_vec();
    for name in ["disk-0", "disk-3", "disk-6"] {
        assert!(strips(&format!("again/{name}")) == strips(&format!("array/{name}")), "{name}");
    }
    folder.done("join again -o joined");
    assert!(folder.get("joined") == data);
    let (ran, _) = folder.run_with_input("decode code --symbol 64 - -o back", &folder.get("stripes"));
    assert_eq!(ran.status, 0, "{ran:?}");
    assert!(folder.get("back") == data);
    let (ran, _) = folder.run_with_input("strip code 6 --symbol 64 - -o strip", &folder.get("stripes"));
    assert_eq!(ran.status, 0, "{ran:?}");
    assert!(folder.get("strip") == strips("array/disk-6"));
    folder.done("plan code 0 -o plan");
    let (ran, _) = folder.run_with_input("rebuild code 0 plan --symbol 64 - -o same", &folder.get("stripes"));
    assert_eq!(ran.status, 0, "{ran:?}");
    assert!(folder.get("same") == folder.get("stripes"));
}

#[test]
fn standard_input_of_a_wrong_length_is_refused_at_its_end() {
    let folder = Folder::square();
    let before = folder.contents();
    for (line, input, number) in [
        ("encode code --symbol 3 - -o out", 13, 33),
        ("encode code --symbol 3 - -o out", 0, 33),
        ("decode code --symbol 3 - -o out", 25, 32),
        ("decode code --symbol 3 - -o out", 0, 32),
        ("strip code 0 --symbol 3 - -o out", 23, 32),
        ("rebuild code 0 plan --symbol 3 - -o out", 47, 32),
        ("test code 0 --symbol 3 -", 25, 32),
        ("test code 0 --symbol 3 -", 0, 32),
    ] {
        let (ran, _) = folder.run_with_input(line, &vec![1; input]);
        let said = format!("navorzim: refused {number} at 0: ");
        assert!(ran.status == 1 && ran.err.starts_with(&said), "{line}: {ran:?}");
        assert!(
            ran.err.contains(&format!(": it has {input} bytes, which is ")) && ran.err.ends_with("(-)\n"),
            "{ran:?}"
        );
        assert_eq!(folder.contents(), before, "{line}");
    }
    let (ran, _) = folder.run_with_input("rebuild code 0 plan --symbol 1 - --in-place", &P1);
    assert!(ran.status == 2 && ran.err.contains("standard input can't be replaced"), "{ran:?}");
    let (ran, _) = folder.run_with_input("encode code --symbol 3 - --length 13 -o out", &[1; 14]);
    assert_eq!(
        (ran.status, &*ran.err),
        (2, "navorzim: can't use -: it has 14 bytes, not the 13 that --length asks for\n")
    );
    assert_eq!(folder.contents(), before);
}

#[test]
fn bytes_go_to_standard_output() {
    let folder = Folder::new();
    folder.put("code", &model::family("evenodd", 5, 0).expect("listed"));
    folder.put("data", &Random::new(4).bytes(20 * 64 * 300));
    folder.done("plan code 0 -o plan");
    folder.done("split code --symbol 64 data -o array");
    folder.done("encode code --symbol 64 data -o stripes");
    for (line, answer) in [
        ("encode code --symbol 64 data", "wrote -: 300 stripes of 28 symbols of 64 bytes\n"),
        ("decode code --symbol 64 stripes", "wrote -: 384000 bytes of 300 stripes\n"),
        ("strip code 5 --symbol 64 stripes", "wrote -: 300 strips of disk 5, 4 symbols of 64 bytes each\n"),
        ("rebuild code 0 plan --symbol 64 stripes", "rebuilt disk 0 in 300 stripes: -\n"),
        ("join array", "wrote -: 384000 bytes\n"),
    ] {
        let (ran, out) = folder.run_with_input(&format!("{line} -o -"), b"");
        assert!(ran.status == 0 && ran.err.starts_with(answer), "{line}: {ran:?}");
        folder.done(&format!("{line} -o out"));
        assert!(folder.get("out") == out, "{line}");
    }
    // Refusals leave it empty.
    let (ran, out) = folder.run_with_input("encode code --symbol 0 data -o -", b"");
    assert_eq!((ran.status, out.len()), (1, 0));
}

#[test]
fn a_reader_who_leaves_before_the_end_is_told_of() {
    let folder = Folder::new();
    folder.put("code", &model::family("evenodd", 5, 0).expect("listed"));
    folder.put("data", &vec![7; 20 * 4096 * 20]);
    folder.done("split code --symbol 4096 data -o array");
    let mut tool = Command::new(TOOL);
    let tool = tool.args(["join", "array", "-o", "-"]).current_dir(&folder.0);
    let mut child = tool.stdout(Stdio::piped()).stderr(Stdio::piped()).spawn().expect("it runs");
    let mut first = [0; 10];
    let mut pipe = child.stdout.take().expect("a pipe");
    pipe.read_exact(&mut first).expect("bytes");
    drop(pipe);
    let output = child.wait_with_output().expect("it ends");
    let said = String::from_utf8(output.stderr).expect("text");
    assert_eq!((output.status.code(), first), (Some(2), [7; 10]));
    assert!(said.starts_with("navorzim: can't write -: Broken pipe"), "{said}");
}

#[test]
fn terminals_get_no_bytes_that_are_not_text() {
    let folder = Folder::square();
    for (line, status, shown) in [
        ("plan code 0 -o -", 2, "can't write -: standard output is a terminal"),
        ("encode code --symbol 1 data -o -", 2, "can't write -: standard output is a terminal"),
        ("show code --svg -", 0, "</svg>"),
    ] {
        let lines = format!(
            "import os, pty, subprocess\n\
             reader, terminal = pty.openpty()\n\
             child = subprocess.Popen(['{TOOL}'] + '{line}'.split(), stdout=terminal, stderr=terminal)\n\
             os.close(terminal)\n\
             out = b''\n\
             try:\n while piece := os.read(reader, 65536): out += piece\n\
             except OSError: pass\n\
             print(child.wait(), out.decode())"
        );
        let Some(out) = folder.python(&lines) else { return };
        assert!(out.starts_with(&format!("{status} ")) && out.contains(shown), "{line}: {out:?}");
    }
}

#[test]
fn a_file_named_by_a_dash_is_a_file() {
    let folder = Folder::square();
    folder.done("plan code 0 -o ./-");
    assert_eq!(model::check(&square_sheet(), 0, &folder.get("-")), Ok(4));
    folder.done("check code 0 ./-");
    // Standard input isn't taken for it.
    let (ran, _) = folder.run_with_input("encode code --symbol 1 - -o ./-", &P1[..4]);
    assert_eq!(ran.status, 0, "{ran:?}");
    assert_eq!(folder.get("-"), P1);
}

#[test]
fn decoding_is_the_inverse_of_encoding() {
    let folder = Folder::new();
    let codes = [("single parity", 3, 4), ("liberation", 7, 5), ("row-diagonal", 5, 0), ("evenodd", 3, 0)];
    for (name, a, b) in codes {
        let sheet = model::family(name, a, b).expect("listed");
        let piece = model::read_code(&sheet).expect("good").data * 9;
        folder.put("code", &sheet);
        for length in [0, 1, piece - 1, piece, piece + 1, 3 * piece, 3 * piece + 5] {
            let data = Random::new(length as u64).bytes(length);
            folder.put("data", &data);
            folder.done(&format!("encode code --symbol 9 data --length {length} -o stripes"));
            let said = folder.done(&format!("decode code --symbol 9 stripes --length {length} -o back"));
            assert!(folder.get("back") == data, "{name}, {length} bytes");
            assert!(said.starts_with(&format!("wrote back: {length} byte")), "{said}");
            if length > 0 {
                // Without the length the zeros come too.
                folder.done("decode code --symbol 9 stripes -o back");
                let padded = length.div_ceil(piece) * piece;
                assert_eq!(folder.get("back"), [&data[..], &vec![0; padded - length]].concat());
            }
        }
    }
}

#[test]
fn lengths_that_do_not_fit_are_refused() {
    let folder = Folder::square();
    folder.put("data", &[1; 9]);
    folder.done("encode code --symbol 2 data --length 9 -o stripes");
    for (line, said) in [
        (
            "encode code --symbol 2 data --length 8 -o out",
            "can't use data: it has 9 bytes, not the 8 that --length asks for",
        ),
        ("encode code --symbol 2 data --length 10 -o out", "it has 9 bytes, not the 10"),
        ("decode code --symbol 2 stripes --length 8 -o out", "can't use stripes: it has 32 bytes, not the 16 that"),
        ("decode code --symbol 2 stripes --length 17 -o out", "it has 32 bytes, not the 48 that"),
        ("decode code --symbol 2 stripes --length 0 -o out", "it has 32 bytes, not the 0 that"),
        (
            "decode code --symbol 2 stripes --length 18446744073709551615 -o out",
            "it has 32 bytes, not the 18446744073709551615",
        ),
        ("decode code --symbol 2 stripes --length x -o out", "--length must be a decimal number"),
    ] {
        let ran = folder.misused(line);
        assert!(ran.contains(said), "{line}: {ran}");
    }
    folder.refused("encode code --symbol 2 data -o out", 33, 0);
    folder.refused("decode code --symbol 3 stripes -o out", 32, 0);
    folder.refused("decode code --symbol 0 stripes -o out", 31, 0);
}
