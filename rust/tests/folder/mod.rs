//! A folder in which the tool is run as a program, and the worked cases as files.
#![allow(dead_code)]

use std::collections::BTreeMap;
use std::ffi::OsStr;
use std::fs;
use std::io::Write;
use std::path::{Path, PathBuf};
use std::process::{Command, Stdio};
use std::sync::atomic::{AtomicUsize, Ordering};
use std::sync::OnceLock;
use std::thread;

pub const TOOL: &str = env!("CARGO_BIN_EXE_navorzim");

/// A folder of its own for each test, removed at its end.
pub struct Folder(pub PathBuf);

impl Folder {
    /// In memory where the system offers that: the tool brings every file to the disk, and hundreds of runs would wait for it.
    pub fn new() -> Folder {
        let memory = PathBuf::from("/dev/shm");
        let writable = fs::metadata(&memory).is_ok_and(|found| found.is_dir() && !found.permissions().readonly());
        Folder::within(if writable { memory } else { std::env::temp_dir() })
    }

    fn within(parent: PathBuf) -> Folder {
        static MADE: AtomicUsize = AtomicUsize::new(0);
        let number = MADE.fetch_add(1, Ordering::Relaxed);
        let path = parent.join(format!("navorzim-test-{}-{number}", std::process::id()));
        fs::create_dir(&path).expect("a new folder");
        Folder(path)
    }

    /// With the square code, its plan P2 for disk 0 and the stripe P1.
    pub fn square() -> Folder {
        Folder::new().with_square()
    }

    /// The same on a disk, where files have all of their attributes.
    pub fn square_on_disk() -> Folder {
        Folder::within(std::env::temp_dir()).with_square()
    }

    fn with_square(self) -> Folder {
        let folder = self;
        folder.put("code", &square_sheet());
        folder.put("plan", &P2);
        folder.put("data", &P1[..4]);
        folder.put("stripes", &P1);
        folder
    }

    pub fn put(&self, name: &str, bytes: &[u8]) {
        fs::write(self.0.join(name), bytes).expect("written");
    }

    pub fn get(&self, name: &str) -> Vec<u8> {
        fs::read(self.0.join(name)).expect("there is such a file")
    }

    pub fn has(&self, name: &str) -> bool {
        fs::symlink_metadata(self.0.join(name)).is_ok()
    }

    /// Every file with its bytes, hidden ones too, and those of folders in it.
    pub fn contents(&self) -> BTreeMap<PathBuf, Vec<u8>> {
        contents(&self.0)
    }

    pub fn remove(&self, name: &str) {
        fs::remove_file(self.0.join(name)).expect("it was there");
    }

    /// Runs a line of the tool in the folder.
    pub fn run(&self, line: &str) -> Ran {
        self.run_words(line.split_whitespace())
    }

    pub fn run_words<W: AsRef<OsStr>>(&self, words: impl IntoIterator<Item = W>) -> Ran {
        let mut command = Command::new(TOOL);
        let command = command.args(words).current_dir(&self.0);
        let command = command.env("TMPDIR", &self.0).env_remove("COLUMNS");
        Ran::of(command)
    }

    /// Runs a line of the tool with bytes for its standard input; answers what it wrote to standard output besides.
    pub fn run_with_input(&self, line: &str, input: &[u8]) -> (Ran, Vec<u8>) {
        let mut command = Command::new(TOOL);
        let command = command.args(line.split_whitespace()).current_dir(&self.0);
        let command = command.stdin(Stdio::piped()).stdout(Stdio::piped()).stderr(Stdio::piped());
        let mut child = command.spawn().expect("the tool runs");
        let mut stdin = child.stdin.take().expect("a pipe");
        thread::scope(|scope| {
            // A tool that doesn't read to the end is no failure of this thread.
            scope.spawn(move || stdin.write_all(input));
            let output = child.wait_with_output().expect("it ends");
            let status = output.status.code().expect("it ends by itself");
            let err = String::from_utf8(output.stderr).expect("text");
            assert!(!err.contains("panicked"), "{err}");
            (Ran { status, out: String::new(), err }, output.stdout)
        })
    }

    /// Runs lines of Python in the folder, for what is out of the standard library's reach; says so if that can't be tried.
    pub fn python(&self, lines: &str) -> Option<String> {
        let output = Command::new("python3").args(["-c", lines]).current_dir(&self.0).output().ok()?;
        match output.status.success() {
            true => String::from_utf8(output.stdout).ok(),
            false => {
                println!("not tried: {}", String::from_utf8_lossy(&output.stderr));
                None
            }
        }
    }

    /// Runs a line of the tool with `shim/moments.c` before the C library.
    pub fn run_with(&self, line: &str, variable: &str, value: &str) -> Ran {
        let mut tool = Command::new(TOOL);
        let tool = tool.args(line.split_whitespace()).current_dir(&self.0);
        Ran::of(tool.env("LD_PRELOAD", shim()).env(variable, value))
    }

    /// How many temporary files of the tool there are.
    pub fn temporaries(&self) -> usize {
        let names = self.contents().into_keys();
        names.filter(|path| path.extension().is_some_and(|end| end == "part")).count()
    }

    /// Runs a line that must succeed.
    pub fn done(&self, line: &str) -> String {
        let ran = self.run(line);
        assert_eq!((ran.status, &*ran.err), (0, ""), "{line}: {ran:?}");
        ran.out
    }

    /// Runs a line that must fail with a status and leave every file as it was.
    pub fn fails(&self, line: &str, status: i32) -> Ran {
        let before = self.contents();
        let ran = self.run(line);
        assert_eq!(ran.status, status, "{line}: {ran:?}");
        assert_eq!(self.contents(), before, "{line} changed the folder");
        ran
    }

    /// Runs a line that must be refused with a number and place; answers the sentence.
    pub fn refused(&self, line: &str, number: u64, place: u64) -> String {
        let ran = self.fails(line, 1);
        let head = format!("navorzim: refused {number} at {place}: ");
        let sentence = ran.err.strip_prefix(&head);
        assert_eq!(ran.out, "", "{line}");
        sentence.unwrap_or_else(|| panic!("{line}: {} instead of {head}", ran.err)).trim_end().to_string()
    }

    /// Runs a line that is misused; answers what is said.
    pub fn misused(&self, line: &str) -> String {
        let ran = self.fails(line, 2);
        assert_eq!(ran.out, "", "{line}");
        assert!(ran.err.starts_with("navorzim: "), "{line}: {}", ran.err);
        ran.err
    }
}

fn contents(folder: &Path) -> BTreeMap<PathBuf, Vec<u8>> {
    let entries = fs::read_dir(folder).expect("a folder").map(|entry| entry.expect("an entry"));
    let all = entries.flat_map(|entry| match entry.file_type().expect("a kind").is_dir() {
        true => contents(&entry.path()).into_iter().chain([(entry.path(), Vec::new())]).collect::<Vec<_>>(),
        false => vec![(entry.path(), fs::read(entry.path()).unwrap_or_default())],
    });
    all.collect()
}

/// The library of `shim/moments.c`, made once by the compiler that links the tests too.
pub fn shim() -> PathBuf {
    static MADE: OnceLock<PathBuf> = OnceLock::new();
    MADE.get_or_init(|| {
        let name = concat!("moments-", env!("CARGO_CRATE_NAME"), ".so");
        let shim = PathBuf::from(env!("CARGO_TARGET_TMPDIR")).join(name);
        let mut compiler = Command::new("cc");
        compiler.args(["-shared", "-fPIC", "-O1", "-Wall", "-Werror", "-o"]).arg(&shim);
        let made = compiler.arg(concat!(env!("CARGO_MANIFEST_DIR"), "/tests/shim/moments.c")).status();
        assert!(made.expect("cc is there").success());
        shim
    })
    .clone()
}

impl Drop for Folder {
    fn drop(&mut self) {
        let _ = fs::remove_dir_all(&self.0);
    }
}

#[derive(Debug)]
pub struct Ran {
    pub status: i32,
    pub out: String,
    pub err: String,
}

impl Ran {
    /// Runs the tool to its own end.
    pub fn of(command: &mut Command) -> Ran {
        let output = command.output().expect("the tool runs");
        let ran = Ran {
            status: output.status.code().expect("it ends by itself"),
            out: String::from_utf8(output.stdout).expect("text"),
            err: String::from_utf8(output.stderr).expect("text"),
        };
        assert!(!ran.err.contains("panicked"), "{}", ran.err);
        ran
    }
}

pub const P1: [u8; 8] = [0x11, 0x22, 0x44, 0x88, 0x55, 0xAA, 0x99, 0x66];
pub const P2: [u8; 21] = [6, 1, 4, 2, 4, 0, 3, 4, 0, 1, 0, 2, 2, 0, 4, 1, 1, 2, 2, 1, 7];

pub fn sheet(n: u8, r: u8, k: u8, rows: &[u64]) -> Vec<u8> {
    let mut sheet = vec![4, 1, n, r, k, n * r];
    sheet.extend(rows.iter().flat_map(|row| row.to_le_bytes()));
    sheet
}

pub fn square_sheet() -> Vec<u8> {
    sheet(4, 2, 4, &[1, 2, 4, 8, 5, 10, 9, 6])
}

/// Every tag is closed by its like, and nothing stands outside.
pub fn balanced(picture: &str) {
    let mut open = Vec::new();
    let mut rest = picture;
    while let Some(start) = rest.find('<') {
        let end = rest[start..].find('>').expect("a tag ends") + start;
        let tag = &rest[start + 1..end];
        assert!(!rest[..start].contains('&') || rest[..start].contains(';'));
        assert_eq!(tag.matches('"').count() % 2, 0, "{tag}");
        let name = tag.trim_start_matches('/').split(' ').next();
        let name = name.expect("a name").to_string();
        if tag.starts_with('/') {
            assert_eq!(open.pop(), Some(name), "{tag}");
        } else if !tag.ends_with('/') {
            open.push(name);
        }
        rest = &rest[end + 1..];
    }
    assert!(open.is_empty(), "{open:?} stay open");
    assert!(picture.starts_with("<svg ") && picture.ends_with("</svg>\n"));
}
