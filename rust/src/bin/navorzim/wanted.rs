//! Which symbols of the lost disks are wanted: what `--want` asks for, what a plan sheet lists, and both in words.
use crate::arguments::shown;
use crate::disks::Disks;
use crate::lists::{self, decimal, listed, rising};
use crate::sheets::{counted, Code};
use std::ffi::OsStr;
use std::ops::RangeInclusive;

/// What `--want` asks for: rows of each lost disk and symbols by their numbers, as they were typed.
#[derive(Debug)]
pub struct Request {
    rows: Vec<RangeInclusive<u64>>,
    symbols: Vec<RangeInclusive<u64>>,
}

impl Request {
    /// Reads a list like `0,2-4` of rows, or `s5,s7-s9` of symbols; or says what can't be understood of it.
    pub fn read(word: &OsStr) -> Result<Request, String> {
        let mut request = Request { rows: Vec::new(), symbols: Vec::new() };
        for item in word.to_string_lossy().split(',') {
            let wrong = |why: &str| Err(format!("'{}' {why}", shown(OsStr::new(item))));
            let (range, list) = if let Some(rows) = lists::range(item, decimal) {
                (rows, &mut request.rows)
            } else if let Some(symbols) = lists::range(item, symbol) {
                (symbols, &mut request.symbols)
            } else {
                return wrong("is neither a row, like 2 or 0-2, nor a symbol, like s5 or s5-s7");
            };
            if let Some(fault) = lists::fault(&range) {
                return wrong(fault);
            }
            list.push(range);
        }
        Ok(request)
    }

    /// The numbers of the symbols, rising, each once: row j of a disk is symbol disk × r + j.
    fn symbols(&self, code: &Code, disks: &Disks) -> Vec<u64> {
        let origin = |disk: u64| disk.saturating_mul(code.rows as u64);
        let rows = self.rows.iter().cloned().flatten();
        let rows = rows.flat_map(|row| disks.iter().map(move |disk| origin(disk).saturating_add(row)));
        rising(rows.chain(self.symbols.iter().cloned().flatten()))
    }
}

/// A symbol's number after an s.
fn symbol(text: &str) -> Option<u64> {
    text.strip_prefix('s').and_then(decimal)
}

/// What is wanted of the lost disks.
#[derive(Clone, Debug, PartialEq, Eq)]
pub enum Wanted {
    /// all of them
    All,
    /// some symbols, rising
    Symbols(Vec<u64>),
}

impl Wanted {
    /// What a request asks for; without one everything.
    pub fn asked_for(request: Option<&Request>, code: &Code, disks: &Disks) -> Wanted {
        request.map_or(Wanted::All, |request| Wanted::Symbols(request.symbols(code, disks)))
    }

    /// The wanted ones of the lost symbols.
    pub fn symbols(&self, code: &Code, disks: &Disks) -> Vec<u64> {
        let lost = (0..code.symbols()).filter(|&symbol| disks.has(code.disk_of(symbol)));
        lost.filter(|&symbol| self.has(symbol)).map(|symbol| symbol as u64).collect()
    }

    /// Whether a lost symbol is wanted.
    pub fn has(&self, symbol: usize) -> bool {
        match self {
            Wanted::All => true,
            Wanted::Symbols(symbols) => symbols.contains(&(symbol as u64)),
        }
    }

    /// The disks or, if not all of them is wanted, the rows: `disk 1`, `disk 1 rows 0 2`, `disk 1 row 0 and disk 3 rows 0 2`.
    pub fn words(&self, code: &Code, disks: &Disks) -> String {
        match self {
            Wanted::All => disks.words(),
            Wanted::Symbols(symbols) => places(code, symbols),
        }
    }

    /// That no plan brings it back.
    pub fn cannot_be_rebuilt(&self, code: &Code, disks: &Disks) -> String {
        let several = match self {
            Wanted::All => disks.count() > 1,
            Wanted::Symbols(symbols) => symbols.len() > 1,
        };
        let all = if several { "all " } else { "" };
        format!("{} can't {all}be rebuilt by any plan", self.words(code, disks))
    }
}

/// Symbols as rows of their disks: `disk 1 row 2`, or `disk 1 row 2 and disk 3 rows 0 2`.
pub fn places(code: &Code, symbols: &[u64]) -> String {
    let disk_of = |symbol: &u64| code.disk_of(*symbol as usize);
    let on_one_disk = symbols.chunk_by(|one, next| disk_of(one) == disk_of(next));
    let disks: Vec<String> =
        on_one_disk.map(|symbols| format!("disk {} {}", disk_of(&symbols[0]), rows(code, symbols))).collect();
    listed(&disks)
}

/// Symbols as whole disks and rows of the others: `disks 1 and 2, disk 3 rows 0 2`.
pub fn disks_and_rows(code: &Code, symbols: &[u64]) -> String {
    let (mut whole, mut parts) = (Vec::new(), Vec::new());
    for strip in symbols.chunk_by(|one, next| code.disk_of(*one as usize) == code.disk_of(*next as usize)) {
        match strip.len() == code.rows {
            true => whole.push(code.disk_of(strip[0] as usize) as u64),
            false => parts.extend(strip),
        }
    }
    let whole = (!whole.is_empty()).then(|| Disks::of(whole).words());
    let parts = (!parts.is_empty()).then(|| places(code, &parts));
    let all: Vec<String> = whole.into_iter().chain(parts).collect();
    all.join(", ")
}

/// Some symbols of lost disks that have just been named: `its row 2`, or `disk 1 row 2 and disk 3 rows 0 2`.
pub fn of_them(code: &Code, disks: &Disks, symbols: &[u64]) -> String {
    match disks.one() {
        Some(_) => format!("its {}", rows(code, symbols)),
        None => places(code, symbols),
    }
}

/// Symbols of one disk as its rows: `row 2` or `rows 0 2`.
pub fn rows(code: &Code, symbols: &[u64]) -> String {
    let rows: Vec<String> = symbols.iter().map(|&symbol| code.row_of(symbol as usize).to_string()).collect();
    format!("row{} {}", if rows.len() == 1 { "" } else { "s" }, rows.join(" "))
}

/// What is wrong with a list that the library refused, as its place says.
pub fn fault(code: &Code, disks: &Disks, list: &[u64], position: u64) -> String {
    let lost = code.rows * disks.count();
    if list.is_empty() || list.len() > lost {
        let (have, unit) = if disks.count() == 1 { ("has", "row") } else { ("have", "symbol") };
        return format!("it has {}, {} {have} {}", counted(list.len(), "symbol"), disks.words(), counted(lost, unit));
    }
    let at = usize::try_from(position).unwrap_or(usize::MAX);
    let Some(&entry) = list.get(at) else { return String::new() };
    match list.get(at.wrapping_sub(1)) {
        Some(before) if disks.iter().any(|disk| strip(code, disk).contains(&entry)) => {
            format!("it is symbol {entry}, after symbol {before}")
        }
        _ => format!("it is symbol {entry}, {}", strips(code, disks)),
    }
}

/// The numbers of a disk's symbols.
fn strip(code: &Code, disk: u64) -> RangeInclusive<u64> {
    let (first, height) = (disk.saturating_mul(code.rows as u64), code.rows as u64);
    first..=first.saturating_add(height).saturating_sub(1)
}

/// Which symbols the disks have.
fn strips(code: &Code, disks: &Disks) -> String {
    let numbers = |disk| format!("{} to {}", strip(code, disk).start(), strip(code, disk).end());
    match disks.one() {
        Some(disk) => {
            format!("disk {disk} has {}, its rows 0 to {}", numbers(disk), code.rows.saturating_sub(1))
        }
        None => {
            let numbers: Vec<String> = disks.iter().map(numbers).collect();
            format!("{} have {}", disks.words(), listed(&numbers))
        }
    }
}
