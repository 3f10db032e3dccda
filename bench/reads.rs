//! How many symbols plans read: for each disk of the families, by ordinary planning, at the price 1 for every disk, and at least.
use super::{idle, liberation_sheet, proved, row_diagonal_sheet, simple};

/// What was counted for a disk.
#[derive(Clone, Copy, PartialEq)]
struct Reads {
    planning: u64,
    priced: u64,
    settled: bool,
    fewest: u64,
}

impl Reads {
    fn of(sheet: &[u8], disk: u8) -> Reads {
        let mut buffer = vec![0; 3210];
        let planning = proved::plan_disks(sheet, &[disk], &[], &mut buffer) - 1000;
        let priced = proved::priced(sheet, &[disk], &[], &idle(vec![1.0; sheet[2].into()]), &mut buffer);
        Reads { planning, priced: priced.answer - 1000, settled: priced.settled, fewest: simple::fewest_reads(sheet, disk.into()) }
    }
}

/// A family's code: its name, its sheet, and what a paper has its own recovery of a data disk read, with the source document that it is.
struct Array {
    name: String,
    sheet: Vec<u8>,
    paper: &'static str,
}

fn arrays() -> Vec<Array> {
    let single = [(3, 2), (7, 8), (63, 1)].map(|(k, r)| (format!("single parity k {k}, r {r}"), proved::single_parity(k, r))).into_iter();
    let liberation = [3, 5, 7].into_iter().flat_map(|w| (2..=w).map(move |k| (format!("Liberation w {w}, k {k}"), liberation_sheet(w, k))));
    let diagonal = [3, 5, 7].map(|p| (format!("row-diagonal p {p}"), row_diagonal_sheet(p))).into_iter();
    let evenodd = [3, 5, 7].map(|p| (format!("EVENODD p {p}"), proved::evenodd(p))).into_iter();
    let all = single.chain(liberation).chain(diagonal).chain(evenodd);
    all.map(|(name, sheet)| Array { paper: paper(&name), name, sheet }).collect()
}

/// Source document 002 has disk 0 of the first two, source document 003 disk 1 of the third.
fn paper(name: &str) -> &'static str {
    match name {
        "Liberation w 5, k 5" => "20 (002)",
        "Liberation w 7, k 7" => "38 (002)",
        "row-diagonal p 5" => "12 (003)",
        _ => "",
    }
}

/// Disks in a row.
fn disks(first: usize, count: usize) -> String {
    match count {
        1 => first.to_string(),
        _ => format!("{first} to {}", first + count - 1),
    }
}

/// A line for each run of disks of which the same was counted. The papers' figures are for data disks, which come first.
fn lines(array: &Array) {
    let counted: Vec<Reads> = (0..array.sheet[2]).map(|disk| Reads::of(&array.sheet, disk)).collect();
    let mut first = 0;
    for same in counted.chunk_by(|one, other| one == other) {
        let Reads { planning, priced, settled, fewest } = same[0];
        let (disks, paper) = (disks(first, same.len()), if first == 0 { array.paper } else { "" });
        let ended = if settled { "settled" } else { "stopped" };
        println!("| {} | {disks} | {planning} | {priced}, {ended} | {fewest} | {paper} |", array.name);
        first += same.len();
    }
}

/// The table of docs/PERFORMANCE.md.
pub fn table() {
    println!("| family | disks | ordinary planning | every price 1 | fewest possible | paper |");
    println!("|---|---|---|---|---|---|");
    arrays().iter().for_each(lines);
}
