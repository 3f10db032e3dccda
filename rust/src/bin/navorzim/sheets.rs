//! What stands in the sheets, for messages and pictures. The library alone judges them; these readers come after it.
use crate::disks::Disks;
use crate::failure::{Failure, Refused};
use crate::files::{read_sheet, trouble};
use crate::wanted::{self, Wanted};
use navorzim::{Family, Refusal, LONGEST_CODE_SHEET, PLAN_BUFFER};
use std::fmt::{self, Display};
use std::ops::Range;
use std::path::{Path, PathBuf};

/// A code sheet that the library takes, and what it says.
#[derive(Debug)]
pub struct Code {
    pub file: PathBuf,
    pub sheet: Vec<u8>,
    /// n
    pub disks: usize,
    /// r
    pub rows: usize,
    /// K
    pub data: usize,
    /// one set of data symbols a symbol, bit 0 the lowest
    pub sums: Vec<u64>,
}

impl Code {
    /// Reads a code sheet's file.
    pub fn open(file: &Path) -> Result<Code, Failure> {
        let sheet = read_sheet(file, LONGEST_CODE_SHEET)?;
        let told = format!("it has {} bytes", length(&sheet, LONGEST_CODE_SHEET));
        Code::read(file, sheet).map_err(|refusal| {
            let detail = match refusal {
                Refusal::CodeSheetTooShort | Refusal::CodeSheetTooLong => told,
                _ => String::new(),
            };
            Failure::refused(refusal, detail, file)
        })
    }

    /// Reads a code sheet.
    pub fn read(file: &Path, sheet: Vec<u8>) -> Result<Code, Refusal> {
        let shape = navorzim::read_code(&sheet)?;
        let sums = sheet.get(6..).unwrap_or(&[]).chunks_exact(8);
        Ok(Code {
            file: file.to_path_buf(),
            disks: shape.disks,
            rows: shape.rows,
            data: shape.data_symbols,
            sums: sums.map(|row| row.iter().rev().fold(0, |sum, &byte| sum << 8 | u64::from(byte))).collect(),
            sheet,
        })
    }

    /// N.
    pub fn symbols(&self) -> usize {
        self.sums.len()
    }

    /// The disk that a symbol lies on.
    pub fn disk_of(&self, symbol: usize) -> usize {
        symbol / self.rows.max(1)
    }

    /// The row of its disk that a symbol lies in.
    pub fn row_of(&self, symbol: usize) -> usize {
        symbol % self.rows.max(1)
    }

    /// Where a data symbol stands as it is, if it does.
    pub fn home_of(&self, data_symbol: usize) -> Option<usize> {
        self.sums.iter().position(|&sum| sum.count_ones() == 1 && sum.trailing_zeros() as usize == data_symbol)
    }

    /// The symbol that each data symbol is read from: a surviving one that is the data symbol alone, or else a lost one.
    pub fn homes(&self, lost: &Disks) -> Result<Vec<usize>, Failure> {
        let alone = |t: usize| (0..self.symbols()).filter(move |&symbol| self.sums[symbol] == 1 << t);
        let home = |t: usize| alone(t).find(|&symbol| !lost.has(self.disk_of(symbol))).or(alone(t).next());
        let nowhere: Vec<String> = (0..self.data).filter(|&t| home(t).is_none()).map(|t| format!("d{t}")).collect();
        match nowhere.is_empty() {
            true => Ok((0..self.data).filter_map(home).collect()),
            false => {
                let why = format!("no symbol is {} alone, so that data can't be read again", nowhere.join(" or "));
                Err(trouble("use", &self.file, why))
            }
        }
    }

    /// The shape in words.
    pub fn shape(&self) -> String {
        format!(
            "{} of {}, {}",
            counted(self.disks, "disk"),
            counted(self.rows, "row"),
            counted(self.data, "data symbol")
        )
    }

    /// The family's name and parameters, if it is a known one.
    pub fn family_name(&self) -> Option<String> {
        self.family().map(|(_, name)| name)
    }

    /// The family, if it is a known one, and the shape.
    pub fn title(&self) -> String {
        match self.family() {
            Some((_, family)) => format!("{family}: {}", self.shape()),
            None => self.shape(),
        }
    }

    /// What a disk is for, if the family is a known one.
    pub fn role(&self, disk: usize) -> Option<&'static str> {
        let parities: &[&str] = match self.family()?.0 {
            Family::SingleParity { .. } => &["P"],
            Family::Liberation { .. } | Family::RowDiagonal { .. } | Family::EvenOdd { .. } => &["P", "Q"],
        };
        let data_disks = self.disks.saturating_sub(parities.len());
        Some(disk.checked_sub(data_disks).map_or("data", |parity| parities.get(parity).unwrap_or(&"")))
    }

    /// The family that this very sheet belongs to, and its name.
    fn family(&self) -> Option<(Family, String)> {
        let (n, r) = (self.disks as u64, self.rows as u64);
        if self.is_old_row_diagonal() {
            let name = format!("Row-diagonal as before the correction, p {}", r + 1);
            return Some((Family::RowDiagonal { p: r + 1 }, name));
        }
        let is = |family: Family| family.sheet().is_ok_and(|sheet| sheet == self.sheet);
        let named = [
            (
                Family::Liberation { w: r, data_disks: n.saturating_sub(2) },
                format!("Liberation, w {r}, k {}", n.saturating_sub(2)),
            ),
            (Family::RowDiagonal { p: r + 1 }, format!("Row-diagonal, p {}", r + 1)),
            (Family::EvenOdd { p: r + 1 }, format!("EVENODD, p {}", r + 1)),
            (
                Family::SingleParity { data_disks: n.saturating_sub(1), rows: r },
                format!("Single parity, k {}, r {r}", n.saturating_sub(1)),
            ),
        ];
        named.into_iter().find(|(family, _)| is(*family))
    }

    /// Whether this is row-diagonal as it was before its rule was corrected: the diagonals of Q went over the data disks alone. Such
    /// a sheet is a legal code still, but not every two of its disks can be lost.
    fn is_old_row_diagonal(&self) -> bool {
        let r = self.rows;
        let corrected = Family::RowDiagonal { p: r as u64 + 1 }.sheet().and_then(|sheet| Code::read(&self.file, sheet));
        let Ok(mut old) = corrected else { return false };
        let q = old.sums.len() - r;
        for (i, sum) in old.sums[q..].iter_mut().enumerate() {
            let on_diagonal = (0..old.data).filter(|t| (t / r + t % r) % (r + 1) == i);
            *sum = on_diagonal.fold(0, |sum, t| sum | 1 << t);
        }
        (old.disks, old.data, old.sums) == (self.disks, self.data, self.sums.clone())
    }

    /// The refusal of disks, a plan or a symbol length, with the numbers at fault and the file that holds them.
    pub fn explain(&self, refusal: Refusal, disks: &Disks, plan: Option<&Plan>, symbol: u64) -> Failure {
        let own = Some(self.file.clone());
        let planned = plan.map(|plan| plan.file.clone());
        let beyond = disks.iter().find(|&disk| disk >= self.disks as u64);
        let (detail, file) = match (refusal, beyond) {
            (Refusal::NoSuchDisk, Some(disk)) => {
                let last = self.disks.saturating_sub(1);
                (format!("asked for {disk}, it has 0 to {last}"), own)
            }
            (Refusal::SymbolLength, _) => (format!("asked for {symbol}"), None),
            (Refusal::TooManySurvivors { .. }, _) => ("without --fewest there is no such limit".to_string(), own),
            _ => {
                let detail = plan.map_or(String::new(), |plan| plan.detail(refusal, disks, self));
                (detail, planned.or(own))
            }
        };
        Failure::Refused(Refused { refusal, detail, file })
    }
}

/// A plan sheet, of any bytes.
#[derive(Debug)]
pub struct Plan {
    pub file: PathBuf,
    pub sheet: Vec<u8>,
}

/// Where the parts of a plan sheet lie, if it has an edition that the rules know: the read count, the failed disks, the wanted symbols
/// (edition 1 has no such list), and the first step.
struct Sections {
    reads: usize,
    disks: Range<usize>,
    wanted: Option<Range<usize>>,
    steps: usize,
}

/// One step of a plan.
#[derive(Clone, Copy, Debug, PartialEq, Eq)]
pub struct Step {
    pub kind: u8,
    pub target: u8,
    pub source: u8,
}

impl Plan {
    /// Reads a plan sheet's file.
    pub fn open(file: &Path) -> Result<Plan, Failure> {
        Ok(Plan { file: file.to_path_buf(), sheet: read_sheet(file, PLAN_BUFFER)? })
    }

    fn byte(&self, at: usize) -> u8 {
        self.sheet.get(at).copied().unwrap_or(0)
    }

    fn sections(&self) -> Option<Sections> {
        let count = |at: usize| usize::from(self.byte(at));
        match self.sheet[..] {
            [6, 1, ..] => Some(Sections { reads: 6, disks: 5..6, wanted: None, steps: 9 }),
            [6, 2, ..] => {
                let wanted = 8..8 + count(7);
                Some(Sections { reads: 6, disks: 5..6, steps: wanted.end + 2, wanted: Some(wanted) })
            }
            [5, 3, ..] => {
                let disks = 7..7 + count(6);
                let wanted = disks.end + 1..disks.end + 1 + count(disks.end);
                Some(Sections { reads: 5, disks, steps: wanted.end + 2, wanted: Some(wanted) })
            }
            // The library refuses it, with 11, 13 or 14.
            _ => None,
        }
    }

    /// A list of the sheet, as far as the sheet goes.
    fn list(&self, at: Option<Range<usize>>) -> Vec<u64> {
        let Range { start, end } = at.unwrap_or(0..0);
        let end = end.min(self.sheet.len());
        self.sheet.get(start..end).unwrap_or(&[]).iter().map(|&entry| u64::from(entry)).collect()
    }

    /// The disks that it is for.
    fn disks(&self) -> Vec<u64> {
        self.list(self.sections().map(|sections| sections.disks))
    }

    /// The list of wanted symbols.
    fn wanted_list(&self) -> Vec<u64> {
        self.list(self.sections().and_then(|sections| sections.wanted))
    }

    /// What an accepted plan wants: without a list, or with the empty one of edition 3, everything.
    pub fn wanted(&self) -> Wanted {
        match self.wanted_list() {
            list if list.is_empty() => Wanted::All,
            list => Wanted::Symbols(list),
        }
    }

    /// The steps, as many as there are whole.
    pub fn steps(&self) -> Vec<Step> {
        let first = self.sections().map_or(self.sheet.len(), |sections| sections.steps);
        let steps = self.sheet.get(first..).unwrap_or(&[]).chunks_exact(3);
        steps.map(|step| Step { kind: step[0], target: step[1], source: step[2] }).collect()
    }

    /// The surviving symbols that an accepted plan reads, rising, each once. A clear has a source byte, but it reads nothing.
    pub fn sources(&self, code: &Code, lost: &Disks) -> Vec<usize> {
        let read = self.steps().into_iter().filter(|step| step.kind != 0).map(|step| usize::from(step.source));
        let mut read: Vec<usize> = read.filter(|&symbol| !lost.has(code.disk_of(symbol))).collect();
        read.sort_unstable();
        read.dedup();
        read
    }

    /// What a refusal's sentence leaves open.
    fn detail(&self, refusal: Refusal, asked: &Disks, code: &Code) -> String {
        let byte = |at: usize| self.byte(at);
        match refusal {
            Refusal::PlanSheetTooShort | Refusal::PlanSheetTooLong => {
                format!("it has {} bytes", length(&self.sheet, PLAN_BUFFER))
            }
            Refusal::PlanSheetEdition => format!("it is {} with first byte {}", byte(1), byte(0)),
            Refusal::PlanOfAnotherCode => format!(
                "the plan has n {}, r {}, K {}, the code {}, {}, {}",
                byte(2),
                byte(3),
                byte(4),
                code.disks,
                code.rows,
                code.data
            ),
            Refusal::NoSuchDisk => self.disk_beyond(code),
            Refusal::BadDiskList { position } => self.disk_fault(position, code),
            Refusal::PlanOfAnotherDisk => {
                format!("the plan is for {}, not for {}", Disks::of(self.disks()).words(), asked.words())
            }
            Refusal::MalformedStep { step }
            | Refusal::TargetNotWanted { step }
            | Refusal::StepOntoItself { step }
            | Refusal::UnfilledPlaceUsed { step } => self.step_detail(step),
            Refusal::WrongReadCount { .. } => {
                let stated = self.sections().map_or(0, |sections| byte(sections.reads));
                format!("the plan says {stated}")
            }
            Refusal::BadWantedList { position } => wanted::fault(code, asked, &self.wanted_list(), position),
            // What the library can't answer to a plan, and what says everything itself.
            _ => String::new(),
        }
    }

    /// Which disk of the plan's list the array doesn't have.
    fn disk_beyond(&self, code: &Code) -> String {
        let beyond = self.disks().into_iter().find(|&disk| disk >= code.disks as u64);
        let last = code.disks.saturating_sub(1);
        beyond.map_or(String::new(), |disk| format!("the plan lists {disk}, the array has 0 to {last}"))
    }

    /// What is wrong with the plan's list of disks, as the refusal's place says.
    fn disk_fault(&self, position: u64, code: &Code) -> String {
        let (disks, at) = (self.disks(), usize::try_from(position).unwrap_or(usize::MAX));
        match (disks.get(at), disks.get(at.wrapping_sub(1))) {
            (Some(disk), Some(before)) => format!("it is disk {disk}, after disk {before}"),
            _ => format!("it has {}, the array has {}", counted(disks.len(), "disk"), code.disks),
        }
    }

    fn step_detail(&self, step: u64) -> String {
        let at = usize::try_from(step).unwrap_or(usize::MAX);
        match self.steps().get(at) {
            Some(step) => format!("it has kind {}, target {}, source {}", step.kind, step.target, step.source),
            None => String::new(),
        }
    }
}

impl Display for Step {
    fn fmt(&self, f: &mut fmt::Formatter<'_>) -> fmt::Result {
        match self.kind {
            0 => write!(f, "{} ← zero", self.target),
            1 => write!(f, "{} ← {}", self.target, self.source),
            _ => write!(f, "{} += {}", self.target, self.source),
        }
    }
}

/// A sheet's length in words; of a long file no more is known, since no more of it was read.
fn length(sheet: &[u8], longest: usize) -> String {
    if sheet.len() > longest {
        format!("more than {longest}")
    } else {
        sheet.len().to_string()
    }
}

/// A number of things.
pub fn counted<N: Display + PartialEq + From<u8>>(number: N, thing: &str) -> String {
    let plural = if number == N::from(1) { "" } else { "s" };
    format!("{number} {thing}{plural}")
}

/// The set bits, lowest first.
pub fn members(set: u64) -> impl Iterator<Item = usize> {
    (0..64).filter(move |bit| set >> bit & 1 == 1)
}
