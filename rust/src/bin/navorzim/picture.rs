//! A model of what is drawn: disks as columns, rows as cells, and what happens to each symbol. Text and SVG draw the same model.
use crate::disks::Disks;
use crate::planning::FEWEST;
use crate::sheets::{counted, members, Code, Step};
use crate::stuck::Stuck;
use crate::wanted::{of_them, places, rows, Wanted};

/// What is told about the code.
#[derive(Debug)]
pub enum Story {
    /// the code alone
    Code,
    /// an accepted plan for lost disks, or for some of their symbols; `fewest` if it is known that none reads fewer
    Plan { disks: Disks, wanted: Wanted, reads: u64, fewest: bool, steps: Vec<Step> },
    /// a plan for lost disks that is refused, because this symbol ends wrong
    Wrong { disks: Disks, wanted: Wanted, steps: Vec<Step>, symbol: usize },
    /// no plan can be
    Stuck(Stuck),
}

/// What happens to a symbol.
#[derive(Clone, Copy, Debug, PartialEq, Eq)]
pub enum Mark {
    /// a data symbol as it is
    Data,
    /// a sum
    Sum,
    /// lost, and rebuilt by a plan for whole disks
    Lost,
    /// lost, and rebuilt by a plan for some symbols
    Wanted,
    /// lost, and left as it is by a plan for other symbols
    Unwanted,
    /// lost, and a plan makes something else of it
    Wrong,
    /// survives and is read
    Read,
    /// survives and is not needed
    Idle,
    /// lost and wanted, and a pattern shows on it
    BeyondHelp,
    /// lost and wanted, and no pattern shows on it
    StillKnown,
    /// survives, and what it holds of patterns cancels out
    Cancels,
    /// survives, and holds no data symbol of a pattern
    Apart,
}

impl Mark {
    /// What the legend says.
    pub fn meaning(self) -> &'static str {
        match self {
            Mark::Data => "data symbol as it is",
            Mark::Sum => "sum of data symbols",
            Mark::Lost => "lost",
            Mark::Wanted => "lost, wanted",
            Mark::Unwanted => "lost, not wanted",
            Mark::Wrong => "lost, ends wrong",
            Mark::Read => "survives, read",
            Mark::Idle => "survives, not read",
            Mark::BeyondHelp => "lost, beyond help",
            Mark::StillKnown => "lost, still known",
            Mark::Cancels => "survives, every pattern cancels out",
            Mark::Apart => "survives, holds none of a pattern",
        }
    }
}

/// One symbol.
#[derive(Debug)]
pub struct Cell {
    pub symbol: usize,
    pub mark: Mark,
    /// the data symbols that it is the sum of
    pub sum: u64,
    /// the letters of the patterns that show on it
    pub letters: String,
}

impl Cell {
    /// What the symbol is, in full.
    pub fn full(&self) -> String {
        self.spelled("+")
    }

    /// What the symbol is, with a sum as its size and its first members.
    pub fn middling(&self) -> String {
        if self.sum.count_ones() <= 2 {
            return self.full();
        }
        let first: Vec<String> = members(self.sum).take(2).map(|t| t.to_string()).collect();
        format!("+{} ({} ..)", self.sum.count_ones(), first.join(" "))
    }

    /// What the symbol is, with a sum as its size.
    pub fn short(&self) -> String {
        match self.sum.count_ones() {
            0 | 1 => self.full(),
            size => format!("+{size}"),
        }
    }

    /// What happens to the symbol, and which patterns show on it.
    pub fn meaning(&self) -> String {
        let letters: Vec<String> = self.letters.chars().map(String::from).collect();
        match letters.len() {
            0 => self.mark.meaning().to_string(),
            1 => format!("{}, pattern {}", self.mark.meaning(), self.letters),
            2.. => format!("{}, patterns {}", self.mark.meaning(), letters.join(" ")),
        }
    }

    /// The members with something between them; a sum of nothing is zero.
    pub fn spelled(&self, between: &str) -> String {
        spelled(self.sum, between)
    }
}

/// The members of a sum with something between them; a sum of nothing is zero.
fn spelled(sum: u64, between: &str) -> String {
    if sum == 0 {
        return "zero".to_string();
    }
    let named: Vec<String> = members(sum).map(|t| format!("d{t}")).collect();
    named.join(between)
}

/// What is drawn.
#[derive(Debug)]
pub struct Picture {
    pub title: String,
    /// what the story comes to, in sentences
    pub notes: Vec<String>,
    pub disks: usize,
    pub rows: usize,
    /// by symbol number
    pub cells: Vec<Cell>,
    /// what each disk is for, where the code is a known one
    pub roles: Vec<Option<&'static str>>,
    /// the lost disks
    pub lost: Disks,
    /// the wanted symbols that a plan brings back, and the surviving symbols that each is the sum of
    pub sums: Vec<(usize, u64)>,
    pub steps: Vec<Step>,
    /// the patterns that have letters, in sentences
    pub patterns: Vec<String>,
}

impl Picture {
    pub fn new(code: &Code, story: &Story) -> Picture {
        let letters = |symbol: usize| match story {
            Story::Stuck(stuck) => stuck.letters(symbol),
            Story::Code | Story::Plan { .. } | Story::Wrong { .. } => String::new(),
        };
        let cell = |(symbol, &sum)| Cell { symbol, mark: mark(code, story, symbol), sum, letters: letters(symbol) };
        let cells = code.sums.iter().enumerate().map(cell);
        Picture {
            title: code.title(),
            notes: notes(code, story),
            disks: code.disks,
            rows: code.rows,
            cells: cells.collect(),
            roles: (0..code.disks).map(|disk| code.role(disk)).collect(),
            sums: match story {
                Story::Plan { disks, wanted, steps, .. } | Story::Wrong { disks, wanted, steps, .. } => {
                    brought_back(code, disks, wanted, steps)
                }
                Story::Code | Story::Stuck(_) => Vec::new(),
            },
            lost: match story {
                Story::Code => Disks::NONE,
                Story::Plan { disks, .. } | Story::Wrong { disks, .. } => disks.clone(),
                Story::Stuck(stuck) => stuck.disks.clone(),
            },
            steps: match story {
                Story::Plan { steps, .. } | Story::Wrong { steps, .. } => steps.clone(),
                Story::Code | Story::Stuck(_) => Vec::new(),
            },
            patterns: match story {
                Story::Stuck(stuck) => stuck.lettered_patterns(code),
                Story::Code | Story::Plan { .. } | Story::Wrong { .. } => Vec::new(),
            },
        }
    }

    /// The picture in words, for those who can't see it.
    pub fn described(&self) -> String {
        let grid = "A grid: disks are columns, rows are cells, each with a symbol's number and what it is.".to_string();
        let legend = self.legend().into_iter().map(|(mark, cells)| format!("{}: {cells}.", mark.meaning()));
        let said = self.notes.iter().cloned().chain([grid]).chain(legend).chain(self.patterns.iter().cloned());
        let sentences: Vec<String> = said.collect();
        sentences.join(" ")
    }

    /// What a disk is for, if that is known.
    pub fn role(&self, disk: usize) -> Option<&'static str> {
        self.roles.get(disk).copied().flatten()
    }

    /// The cell of a disk and row.
    pub fn cell(&self, disk: usize, row: usize) -> Option<&Cell> {
        self.cells.get(disk * self.rows + row)
    }

    /// The marks that occur, in the order in which a legend explains them, and how many cells have each.
    pub fn legend(&self) -> Vec<(Mark, usize)> {
        use Mark::*;
        [Data, Sum, Lost, Wanted, Wrong, BeyondHelp, StillKnown, Unwanted, Read, Cancels, Idle, Apart]
            .into_iter()
            .map(|mark| (mark, self.cells.iter().filter(|cell| cell.mark == mark).count()))
            .filter(|&(_, cells)| cells > 0)
            .collect()
    }
}

fn mark(code: &Code, story: &Story, symbol: usize) -> Mark {
    let sum = code.sums.get(symbol).copied().unwrap_or(0);
    let lost = |disks: &Disks| disks.has(code.disk_of(symbol));
    match story {
        Story::Code if sum.count_ones() == 1 => Mark::Data,
        Story::Code => Mark::Sum,
        Story::Wrong { symbol: wrong, .. } if *wrong == symbol => Mark::Wrong,
        Story::Plan { disks, wanted, .. } | Story::Wrong { disks, wanted, .. } if lost(disks) => match wanted {
            Wanted::All => Mark::Lost,
            Wanted::Symbols(_) if wanted.has(symbol) => Mark::Wanted,
            Wanted::Symbols(_) => Mark::Unwanted,
        },
        Story::Plan { steps, .. } | Story::Wrong { steps, .. } if steps.iter().any(|step| reads(step, symbol)) => {
            Mark::Read
        }
        Story::Plan { .. } | Story::Wrong { .. } => Mark::Idle,
        Story::Stuck(stuck) if lost(&stuck.disks) => match (stuck.wanted.has(symbol), stuck.is_beyond_help(symbol)) {
            (false, _) => Mark::Unwanted,
            (true, true) => Mark::BeyondHelp,
            (true, false) => Mark::StillKnown,
        },
        Story::Stuck(stuck) if stuck.is_touched(sum) => Mark::Cancels,
        Story::Stuck(_) => Mark::Apart,
    }
}

/// What the steps of an accepted plan make of the survivors, symbol by symbol. A symbol that is added twice cancels out.
fn brought_back(code: &Code, disks: &Disks, wanted: &Wanted, steps: &[Step]) -> Vec<(usize, u64)> {
    let mut sums: Vec<u64> = (0..64).map(|symbol| 1 << symbol).collect();
    for step in steps {
        let (target, source) = (usize::from(step.target), usize::from(step.source));
        let (before, added) = (sums.get(target).copied().unwrap_or(0), sums.get(source).copied().unwrap_or(0));
        if let Some(sum) = sums.get_mut(target) {
            *sum = match step.kind {
                0 => 0,
                1 => added,
                _ => before ^ added,
            };
        }
    }
    wanted.symbols(code, disks).into_iter().map(|symbol| (symbol as usize, sums[symbol as usize])).collect()
}

/// A clear has a source byte, but it reads nothing.
fn reads(step: &Step, symbol: usize) -> bool {
    step.kind != 0 && usize::from(step.source) == symbol
}

fn notes(code: &Code, story: &Story) -> Vec<String> {
    match story {
        Story::Code => Vec::new(),
        Story::Plan { disks, wanted, reads, fewest, steps } => {
            let survivors = code.symbols().saturating_sub(code.rows * disks.count());
            let plan = match wanted {
                Wanted::All => "The plan".to_string(),
                Wanted::Symbols(symbols) => format!("The plan for {}", of_them(code, disks, symbols)),
            };
            vec![format!(
                "{}. {plan}, checked: {}, reads {reads} of {}{}.",
                disks.are_lost(),
                counted(steps.len(), "step"),
                counted(survivors, "surviving symbol"),
                if *fewest { FEWEST } else { "" }
            )]
        }
        Story::Wrong { disks, wanted, steps, symbol } => {
            let (is, made) = (code.sums[*symbol], made_of(code, disks, wanted, steps, *symbol));
            let off: Vec<String> = members(is ^ made).map(|t| format!("d{t}")).collect();
            let others = if off.len() > 1 { format!(", and {}", off[1..].join(" ")) } else { String::new() };
            let place = match disks.one() {
                Some(_) => rows(code, &[*symbol as u64]),
                None => places(code, &[*symbol as u64]),
            };
            vec![
                format!("{}. The plan is refused: {place} ends wrong.", disks.are_lost()),
                format!(
                    "Symbol {symbol} is {}, and the steps make {} of it: {} is off{others}.",
                    spelled(is, " + "),
                    spelled(made, " + "),
                    off.first().map_or("nothing", String::as_str),
                ),
            ]
        }
        Story::Stuck(stuck) => stuck.notes(code).into_iter().chain(stuck.offer(code)).collect(),
    }
}

/// The data symbols that the steps make a lost symbol the sum of.
fn made_of(code: &Code, disks: &Disks, wanted: &Wanted, steps: &[Step], symbol: usize) -> u64 {
    let sums = brought_back(code, disks, wanted, steps);
    let sources = sums.iter().find(|(brought, _)| *brought == symbol).map_or(0, |&(_, sources)| sources);
    members(sources).fold(0, |sum, source| sum ^ code.sums.get(source).copied().unwrap_or(0))
}

#[cfg(test)]
mod tests {
    use super::{Picture, Story};
    use crate::disks::Disks;
    use crate::sheets::{Code, Step};
    use crate::svg;
    use crate::text::{self, Style};
    use crate::wanted::Wanted;
    use std::path::Path;

    /// A mirror, disk 0 lost: the caption of a plan that copies its symbol, in the text and in the picture.
    fn captions(fewest: bool) -> [bool; 2] {
        let rows = [1u64, 1].into_iter().flat_map(u64::to_le_bytes);
        let sheet = [4, 1, 2, 1, 1, 2].into_iter().chain(rows).collect();
        let code = Code::read(Path::new("mirror"), sheet).expect("a code");
        let steps = vec![Step { kind: 1, target: 0, source: 1 }];
        let story = Story::Plan { disks: Disks::of([0]), wanted: Wanted::All, reads: 1, fewest, steps };
        let picture = Picture::new(&code, &story);
        let drawn = [text::draw(&picture, Style { colour: false, width: 200 }), svg::draw(&picture)];
        let end = if fewest { ", the fewest possible." } else { "." };
        drawn.map(|drawn| drawn.contains(&format!("1 step, reads 1 of 1 surviving symbol{end}")))
    }

    #[test]
    fn a_count_is_called_the_fewest_only_where_it_is_known() {
        assert_eq!(captions(true), [true, true]);
        assert_eq!(captions(false), [true, true]);
    }
}
