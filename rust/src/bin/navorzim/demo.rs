//! The demonstration: disks lost and brought back, the day of the incident, one row for somebody who waits, and a disk that can't be
//! brought back. It runs the tool's own commands over files, tests what comes of each, and fails if anything is other than it must be.
use crate::arguments::Arguments;
use crate::commands;
use crate::failure::{printable, Failure};
use crate::files::trouble;
use crate::folders::make_or_take;
use crate::output::put;
use crate::replacement::unique_name;
use std::ffi::OsString;
use std::fs;
use std::path::{Path, PathBuf};

const SYMBOL: usize = 64;
const STRIPES: usize = 2;
/// Liberation, w 5, k 5.
const ROWS: usize = 5;
const SYMBOLS: usize = 35;
const DATA: usize = 25;

pub fn run(arguments: &mut Arguments) -> Result<String, Failure> {
    let keep = arguments.file_option("--keep")?;
    arguments.finish()?;
    let mut demo = Demo { folder: Folder::make(keep)?, text: String::new() };
    match demo.tell() {
        Ok(()) => Ok(demo.text),
        Err(failure) => {
            Err(Failure::Unexpected { text: demo.text, what: format!("the demonstration failed: {failure}") })
        }
    }
}

/// The files' folder: kept if it was named, else removed at the end, however that comes about.
struct Folder {
    path: PathBuf,
    kept: bool,
}

impl Folder {
    fn make(keep: Option<PathBuf>) -> Result<Folder, Failure> {
        let kept = keep.is_some();
        let path = keep.unwrap_or_else(|| std::env::temp_dir().join(unique_name()));
        make_or_take(&path)?;
        Ok(Folder { path, kept })
    }
}

impl Drop for Folder {
    fn drop(&mut self) {
        if !self.kept {
            let _ = fs::remove_dir_all(&self.path);
        }
    }
}

struct Demo {
    folder: Folder,
    text: String,
}

impl Demo {
    fn tell(&mut self) -> Result<(), Failure> {
        self.lose_disks()?;
        self.run_an_old_plan()?;
        self.rebuild_one_row()?;
        self.meet_a_pattern()?;
        self.say("");
        self.say("Everything came out right.");
        if self.folder.kept {
            self.say(&format!("The files are in {}.", printable(&self.folder.path)));
        }
        Ok(())
    }

    fn lose_disks(&mut self) -> Result<(), Failure> {
        self.say("A register on seven disks: one is lost and brought back, then two");
        self.command("family liberation 5 5 -o code.sheet")?;
        self.write("register.txt", register().as_bytes())?;
        self.note("register.txt: 50 lines of 64 bytes, a line a symbol, 25 a stripe");
        self.command("split code.sheet --symbol 64 register.txt -o array/")?;
        let (disk_0, disk_3) = (self.read("array/disk-0")?, self.read("array/disk-3")?);
        self.note(&format!("disk 0 begins  {}", first_line(&disk_0)));

        self.lose("array/disk-0")?;
        self.command("status array/")?;
        self.command("restore array/")?;
        let restored = self.read("array/disk-0")?;
        self.note(&format!("disk 0 begins  {}", first_line(&restored)));
        self.must(restored == disk_0, "disk 0 isn't as it was")?;
        self.note(&format!("compared: all {} bytes of array/disk-0 are as they were, its label too", restored.len()));

        self.lose("array/disk-0")?;
        self.lose("array/disk-3")?;
        self.command("restore array/")?;
        let restored = [self.read("array/disk-0")?, self.read("array/disk-3")?];
        self.must(restored == [disk_0, disk_3], "disks 0 and 3 aren't as they were")?;
        self.command("join array/ -o joined.txt")?;
        let joined = self.read("joined.txt")?;
        self.must(joined == register().as_bytes(), "the register isn't as it was")?;
        self.note(&format!("compared: all {} bytes of register.txt are in joined.txt", joined.len()));
        self.say("");
        self.draw("show code.sheet --disk 0 --svg plan.svg")
    }

    fn run_an_old_plan(&mut self) -> Result<(), Failure> {
        self.say("");
        self.say("The day of the incident: the plan is cached, the array is laid out anew");
        self.command("plan code.sheet 0 -o plan.sheet")?;
        self.command("check code.sheet 0 plan.sheet")?;
        let sheet = self.read("code.sheet")?;
        self.write("anew.sheet", &parities_swapped(&sheet))?;
        self.note("anew.sheet: the same shape, the two parity disks have changed places");
        self.command("split anew.sheet --symbol 64 register.txt -o anew/")?;
        let disk_0 = self.read("anew/disk-0")?;
        self.lose("anew/disk-0")?;

        self.refused("check anew.sheet 0 plan.sheet", 21)?;
        self.refused("restore anew/ --plan plan.sheet", 21)?;
        let none = !self.folder.path.join("anew/disk-0").exists();
        self.must(none, "a refused restore wrote a disk")?;
        self.note("compared: anew/disk-0 is still missing, nothing wrong has taken its place");

        self.command("family liberation 5 4 -o smaller.sheet")?;
        self.refused("check smaller.sheet 0 plan.sheet", 15)?;

        self.note("planned anew, for the layout in use:");
        self.command("restore anew/")?;
        let restored = self.read("anew/disk-0")?;
        self.must(restored == disk_0, "disk 0 isn't as it was")?;
        self.note(&format!("disk 0 begins  {}", first_line(&restored)));
        Ok(())
    }

    fn rebuild_one_row(&mut self) -> Result<(), Failure> {
        self.say("");
        self.say("Somebody waits for one entry, in a file of stripes: row 2 of disk 0 is enough");
        self.command("encode code.sheet --symbol 64 register.txt -o stripes.bin")?;
        let whole = self.read("stripes.bin")?;
        let ruined = ruin(&whole);
        self.write("stripes.bin", &ruined)?;
        self.note(&format!("disk 0 dies:   {}", first_line(&ruined)));
        self.command("plan code.sheet 0 --want 2 -o row2.sheet")?;
        self.command("rebuild code.sheet 0 row2.sheet --symbol 64 stripes.bin --in-place")?;
        let rebuilt = self.read("stripes.bin")?;
        self.note(&format!("row 2 holds    {}", first_line(&each(&rebuilt, 2))));
        for symbol in 0..SYMBOLS {
            let expected = if symbol == 2 { each(&whole, symbol) } else { each(&ruined, symbol) };
            self.must(each(&rebuilt, symbol) == expected, "row 2 isn't back, or another symbol has changed")?;
        }
        self.note("compared: row 2 is as it was, and no other byte has changed");
        Ok(())
    }

    fn meet_a_pattern(&mut self) -> Result<(), Failure> {
        self.say("");
        self.say("A disk that can't be rebuilt");
        self.write("thin.sheet", &thin_sheet())?;
        self.note("thin.sheet: single parity, but the parity's row 1 leaves disk 1 out");
        self.say("");
        let show = "show thin.sheet --disk 1 --svg pattern.svg";
        self.say(&format!("$ navorzim {show}"));
        match self.run(show) {
            Err(Failure::NoPlan { text, .. }) => self.text.push_str(&text),
            Err(failure) => return Err(failure),
            Ok(_) => self.must(false, "a plan was found where none can be")?,
        }
        let missing = self.run("plan thin.sheet 1 -o none.sheet");
        let no_plan = matches!(missing, Err(Failure::NoPlan { .. }));
        let no_file = !self.folder.path.join("none.sheet").exists();
        self.must(no_plan && no_file, "a plan was written where none can be")?;
        self.say("");
        self.note("its row 0 has a plan all the same:");
        self.command("plan thin.sheet 1 --want 0 -o row0.sheet")
    }

    fn say(&mut self, line: &str) {
        self.text.push_str(line);
        self.text.push('\n');
    }

    fn note(&mut self, line: &str) {
        self.say(&format!("  {line}"));
    }

    /// Runs a command that must succeed, and says so in its own words.
    fn command(&mut self, line: &str) -> Result<(), Failure> {
        self.note(&format!("$ navorzim {line}"));
        let answer = match self.run(line) {
            // What `status` answers of lost disks.
            Err(Failure::Missing { text }) => text,
            answer => answer?,
        };
        for line in self.shortened(&answer).lines() {
            self.note(&format!("    {line}"));
        }
        Ok(())
    }

    /// Runs a command that draws.
    fn draw(&mut self, line: &str) -> Result<(), Failure> {
        self.say(&format!("$ navorzim {line}"));
        let drawing = self.run(line)?;
        self.text.push_str(&drawing);
        Ok(())
    }

    /// Runs a command that must be refused with a number.
    fn refused(&mut self, line: &str, number: u64) -> Result<(), Failure> {
        self.note(&format!("$ navorzim {line}"));
        match self.run(line) {
            Err(Failure::Refused(refused)) => {
                let sentence = self.shortened(&refused.to_string());
                self.note(&format!("    {sentence}"));
                let as_expected = refused.refusal.number() == number;
                self.must(as_expected, &format!("that should be refusal {number}"))
            }
            Err(failure) => Err(failure),
            Ok(_) => self.must(false, "a plan for another layout was taken"),
        }
    }

    /// Removes a disk's file.
    fn lose(&mut self, name: &str) -> Result<(), Failure> {
        let path = self.folder.path.join(name);
        fs::remove_file(&path).map_err(|error| trouble("remove", &path, error))?;
        self.note(&format!("{name} is lost"));
        Ok(())
    }

    /// Runs a line of the tool; a word with a dot or a slash in it is a file of the folder, or a folder in it.
    fn run(&self, line: &str) -> Result<String, Failure> {
        let mut words = line.split(' ');
        let command = words.next().and_then(commands::find);
        let words: Vec<OsString> = words
            .map(|word| match word.contains(['.', '/']) {
                true => self.folder.path.join(word).into_os_string(),
                false => OsString::from(word),
            })
            .collect();
        match command {
            Some(command) => commands::run(command, words).answer,
            None => Err(Failure::File(format!("no such command: {line}"))),
        }
    }

    fn must(&self, holds: bool, otherwise: &str) -> Result<(), Failure> {
        match holds {
            true => Ok(()),
            false => Err(Failure::File(otherwise.to_string())),
        }
    }

    /// Without the folder's name, which is long and says nothing.
    fn shortened(&self, text: &str) -> String {
        text.replace(&format!("{}/", printable(&self.folder.path)), "")
    }

    fn write(&self, name: &str, bytes: &[u8]) -> Result<(), Failure> {
        put(&self.folder.path.join(name), &[], bytes)
    }

    fn read(&self, name: &str) -> Result<Vec<u8>, Failure> {
        let path: &Path = &self.folder.path.join(name);
        fs::read(path).map_err(|error| trouble("read", path, error))
    }
}

/// Lines as long as a symbol, so that each disk can be read.
fn register() -> String {
    (0..DATA * STRIPES)
        .map(|line| {
            let (minute, key) = (line, 1000 + 37 * line);
            let entry = format!("12:{minute:02} key {key} revoked");
            format!("{entry:<width$}\n", width = SYMBOL - 1)
        })
        .collect()
}

/// The stripes with disk 0's strip ruined in each.
fn ruin(stripes: &[u8]) -> Vec<u8> {
    let mut ruined = stripes.to_vec();
    for stripe in ruined.chunks_mut(SYMBOLS * SYMBOL) {
        stripe.iter_mut().take(ROWS * SYMBOL).for_each(|byte| *byte = b'#');
    }
    ruined
}

/// One symbol of each stripe.
fn each(stripes: &[u8], symbol: usize) -> Vec<u8> {
    stripes.chunks(SYMBOL).skip(symbol).step_by(SYMBOLS).flatten().copied().collect()
}

/// The first symbol as text, without the blanks at its end.
fn first_line(stripes: &[u8]) -> String {
    let symbol: Vec<u8> = stripes.iter().copied().take(SYMBOL / 2).collect();
    String::from_utf8_lossy(&symbol).trim_end().to_string()
}

/// The same code with its last two disks, P and Q, in each other's place.
fn parities_swapped(sheet: &[u8]) -> Vec<u8> {
    let (head, parities) = sheet.split_at(sheet.len().saturating_sub(2 * ROWS * 8));
    let (p, q) = parities.split_at(parities.len() / 2);
    [head, q, p].concat()
}

/// Three data disks of two rows and a parity disk, whose row 1 leaves out d3, row 1 of disk 1.
fn thin_sheet() -> Vec<u8> {
    let sums: [u64; 8] = [1, 2, 4, 8, 16, 32, 1 + 4 + 16, 2 + 32];
    let mut sheet = vec![4, 1, 4, 2, 6, 8];
    sheet.extend(sums.iter().flat_map(|sum| sum.to_le_bytes()));
    sheet
}
