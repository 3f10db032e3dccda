//! Where no plan can be: how much is gone, what shows it, and which of the wanted symbols can be had all the same.
use crate::disks::Disks;
use crate::sheets::{counted, Code};
use crate::wanted::{disks_and_rows, of_them, places, Wanted};
use navorzim::{Pattern, Refusal};

/// The names of patterns, where there are several. More than these are counted: a cell has no room for so many letters.
const LETTERS: [char; 8] = ['a', 'b', 'c', 'd', 'e', 'f', 'g', 'h'];

/// Up to this power of 2 possibilities are a number; beyond it the power says more than its digits.
const LARGEST_POWER_IN_DIGITS: usize = 10;

/// Wanted symbols of lost disks that no plan brings back, all of them.
#[derive(Debug)]
pub struct Stuck {
    pub disks: Disks,
    pub wanted: Wanted,
    /// what the planner answered: as many patterns as symbols' worth is gone
    patterns: Vec<Pattern>,
    /// the lost symbols that each pattern shows on
    shown: Vec<Vec<u64>>,
    /// the wanted symbols that a pattern shows on
    beyond_help: Vec<u64>,
    /// the wanted symbols that no pattern shows on: the survivors fix them, and a plan brings them back
    pub within_reach: Vec<u64>,
}

impl Stuck {
    /// What the planner's patterns say of these disks and wanted symbols.
    pub fn new(code: &Code, disks: &Disks, wanted: &Wanted, patterns: Vec<Pattern>) -> Result<Stuck, Refusal> {
        let shown = patterns.iter().map(|pattern| pattern.shows_on(&code.sheet));
        let shown = shown.map(|symbols| Ok(symbols?.into_iter().map(u64::from).collect()));
        let shown = shown.collect::<Result<Vec<Vec<u64>>, Refusal>>()?;
        let is_shown = |symbol: &u64| shown.iter().any(|symbols| symbols.contains(symbol));
        let (beyond_help, within_reach) = wanted.symbols(code, disks).into_iter().partition(is_shown);
        Ok(Stuck { disks: disks.clone(), wanted: wanted.clone(), patterns, shown, beyond_help, within_reach })
    }

    /// Whether a wanted symbol is beyond help.
    pub fn is_beyond_help(&self, symbol: usize) -> bool {
        self.beyond_help.contains(&(symbol as u64))
    }

    /// Whether some pattern has a data symbol in common with a sum.
    pub fn is_touched(&self, sum: u64) -> bool {
        self.patterns.iter().any(|pattern| pattern.0 & u128::from(sum) != 0)
    }

    /// The letters of the patterns that show on a symbol, where patterns have letters.
    pub fn letters(&self, symbol: usize) -> String {
        let shown = self.lettered().filter(|(_, _, symbols)| symbols.contains(&(symbol as u64)));
        shown.map(|(letter, ..)| letter).collect()
    }

    /// The patterns with their letters and what they show on; none where there is one pattern, or too many.
    fn lettered(&self) -> impl Iterator<Item = (char, Pattern, &Vec<u64>)> {
        let several = (2..=LETTERS.len()).contains(&self.patterns.len());
        let named = if several { &LETTERS[..] } else { &[] };
        named
            .iter()
            .zip(self.patterns.iter().zip(&self.shown))
            .map(|(&letter, (&pattern, shown))| (letter, pattern, shown))
    }

    /// All that is said of a file of stripes: how much is gone, what shows it, and what `--want` can do.
    pub fn text(&self, code: &Code) -> String {
        lines(self.account(code).into_iter().chain(self.offer(code)))
    }

    /// How much is gone, and all patterns that show it.
    pub fn account(&self, code: &Code) -> Vec<String> {
        let mut account = self.notes(code);
        account.extend(self.lettered_patterns(code));
        account
    }

    /// How much is gone; and the pattern that shows it, unless several have letters.
    pub fn notes(&self, code: &Code) -> Vec<String> {
        let them = match &self.wanted {
            Wanted::All if self.disks.count() == 1 => "it".to_string(),
            Wanted::All => "all of them".to_string(),
            Wanted::Symbols(symbols) if symbols.len() == 1 => of_them(code, &self.disks, symbols),
            Wanted::Symbols(symbols) => format!("all of {}", of_them(code, &self.disks, symbols)),
        };
        let have = if self.beyond_help.len() == 1 { "It has" } else { "Together they have" };
        let gone = counted(self.patterns.len(), "symbol");
        let mut notes = vec![
            format!("{}, and no plan can bring {them} back.", self.disks.are_lost()),
            format!("{}: {}.", self.share(), disks_and_rows(code, &self.beyond_help)),
            format!("{have} {} for each bit: as much as {gone} is gone.", self.possibilities()),
        ];
        if self.lettered().next().is_none() {
            notes.extend(self.first_pattern(code));
        }
        notes
    }

    /// What `--want` can do, if something is within reach.
    pub fn offer(&self, code: &Code) -> Option<String> {
        let back = (!self.within_reach.is_empty()).then(|| of_them(code, &self.disks, &self.within_reach))?;
        Some(format!("A plan can bring {back} back: --want {}.", self.request(code)))
    }

    /// Each pattern by its letter and what it shows on, and what that means; nothing where patterns have no letters.
    pub fn lettered_patterns(&self, code: &Code) -> Vec<String> {
        let each = self.lettered().map(|(letter, pattern, shown)| {
            let data: Vec<String> = pattern.data_symbols().map(|t| format!("d{t}")).collect();
            format!("Pattern {letter} is {}, {}: it shows on {}.", pattern.0, data.join(" + "), places(code, shown))
        });
        let mut patterns: Vec<String> = each.collect();
        if !patterns.is_empty() {
            patterns.push(format!("Stripes that differ by one of them {} the symbols it shows on.", self.agree(code)));
        }
        patterns
    }

    /// The first pattern, or the only one, and what it means.
    fn first_pattern(&self, code: &Code) -> Vec<String> {
        let first = match self.patterns.len() {
            1 => "The pattern".to_string(),
            count => format!("The first of {count} patterns"),
        };
        let notes = self.patterns.iter().zip(&self.shown).take(1).flat_map(|(&pattern, shown)| {
            let wanted = shown.iter().copied().filter(|&symbol| self.is_beyond_help(symbol as usize));
            let wanted = places(code, &wanted.collect::<Vec<u64>>());
            [
                format!("{first} is {}.", spelled(code, pattern)),
                format!("Stripes that differ by it {} {wanted}.", self.agree(code)),
            ]
        });
        notes.collect()
    }

    /// How stripes compare that differ by a pattern, before the symbols that it shows on.
    fn agree(&self, code: &Code) -> &'static str {
        match self.disks.count() < code.disks {
            true => "agree on all surviving disks, not on",
            false => "differ, with no surviving disk to tell by, on",
        }
    }

    /// How much is gone, in short: `2 of 5 symbols are beyond help, together 4 possibilities for each bit`.
    pub fn in_short(&self) -> String {
        let together = if self.beyond_help.len() == 1 { "" } else { "together " };
        format!("{}, {together}{} for each bit", self.share(), self.possibilities())
    }

    /// How many of the wanted symbols are beyond help.
    fn share(&self) -> String {
        let (beyond, all) = (self.beyond_help.len(), self.beyond_help.len() + self.within_reach.len());
        let thing = match self.wanted {
            Wanted::All => "symbol",
            Wanted::Symbols(_) => "wanted symbol",
        };
        format!("{beyond} of {} {} beyond help", counted(all, thing), if beyond == 1 { "is" } else { "are" })
    }

    /// How many possibilities the survivors leave for one bit of each wanted symbol, the same one in all of them.
    fn possibilities(&self) -> String {
        match self.patterns.len() {
            gone if gone <= LARGEST_POWER_IN_DIGITS => format!("{} possibilities", 1 << gone),
            gone => format!("2^{gone} possibilities"),
        }
    }

    /// What `--want` takes for the symbols within reach: rows of one disk, or symbols of several.
    fn request(&self, code: &Code) -> String {
        let item = |&symbol: &u64| match self.disks.one() {
            Some(_) => code.row_of(symbol as usize).to_string(),
            None => format!("s{symbol}"),
        };
        let items: Vec<String> = self.within_reach.iter().map(item).collect();
        items.join(",")
    }
}

/// Sentences, a line each.
pub fn lines(sentences: impl Iterator<Item = String>) -> String {
    sentences.map(|sentence| sentence + "\n").collect()
}

/// A pattern as a number, as bits, and as data symbols, each with where it stands.
fn spelled(code: &Code, pattern: Pattern) -> String {
    let named = pattern.data_symbols().map(|t| match code.home_of(t) {
        Some(symbol) => format!("d{t} ({})", places(code, &[symbol as u64])),
        None => format!("d{t}"),
    });
    let named: Vec<String> = named.collect();
    format!("{}, bits {:0width$b} (bit 0 last): {}", pattern.0, pattern.0, named.join(", "), width = code.data)
}
