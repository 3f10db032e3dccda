//! Why a call said no: the table of `docs/RULES.md`, one case a line.
use std::error::Error;
use std::fmt;

/// Which wanted symbol a refusal names, in the way of the plan sheet's edition.
#[derive(Clone, Copy, Debug, PartialEq, Eq)]
pub enum WantedSymbol {
    /// By its row of the failed disk: editions 1 and 2.
    Row(u64),
    /// By its number: edition 3.
    Symbol(u64),
}

impl WantedSymbol {
    /// How a plan sheet's edition names a wanted symbol. Only a sheet of one of these editions is judged so far that one is named.
    pub(crate) fn naming(plan: &[u8]) -> fn(u64) -> WantedSymbol {
        match plan {
            [6, 1 | 2, ..] => WantedSymbol::Row,
            [5, 3, ..] => WantedSymbol::Symbol,
            _ => WantedSymbol::Row,
        }
    }

    fn place(self) -> u64 {
        match self {
            WantedSymbol::Row(place) | WantedSymbol::Symbol(place) => place,
        }
    }
}

impl fmt::Display for WantedSymbol {
    fn fmt(&self, f: &mut fmt::Formatter<'_>) -> fmt::Result {
        match self {
            WantedSymbol::Row(row) => write!(f, "row {row} of the failed disk"),
            WantedSymbol::Symbol(symbol) => write!(f, "symbol {symbol}"),
        }
    }
}

/// Why a call said no. A refused call changes no byte that it was lent.
///
/// Each case has a number and a place, those of `docs/RULES.md` and of the header for C. Steps, rows and positions count from 0.
#[derive(Clone, Copy, Debug, PartialEq, Eq)]
#[non_exhaustive]
pub enum Refusal {
    /// Refusal 1 is given when the code sheet is shorter than its head, 6 bytes, or than its rows need. Its place is 0.
    CodeSheetTooShort,
    /// Refusal 2 is given when bytes follow the last row of the code sheet. Its place is 0.
    CodeSheetTooLong,
    /// Refusal 3 is given when the code sheet's first count isn't 4, or its second count isn't N. Its place is 0.
    CodeSheetCount,
    /// Refusal 4 is given when the code sheet's edition isn't 1. Its place is 0.
    CodeSheetEdition,
    /// Refusal 5 is given when the code sheet's n, r, N or K is outside the limits. Its place is 0.
    CodeBeyondLimit,
    /// Refusal 6 is given when a row of the code sheet has a bit set at K or above. Its place is row × 64 + bit.
    StrayBit {
        /// The first row with such a bit: a symbol's number.
        row: u64,
        /// The lowest such bit of that row.
        bit: u64,
    },
    /// Refusal 7 is given when an asked disk, or one that the plan sheet lists, isn't below n. Its place is 0.
    NoSuchDisk,
    /// Refusal 11 is given when the plan sheet is shorter than its head, its lists or its steps need. Its place is 0.
    PlanSheetTooShort,
    /// Refusal 12 is given when bytes follow the last step of the plan sheet. Its place is 0.
    PlanSheetTooLong,
    /// Refusal 13 is given when the plan sheet's first count isn't 6 or 5, or it has more than 1,024 steps. Its place is 0.
    PlanSheetCount,
    /// Refusal 14 is given when the plan sheet's edition isn't 1 or 2 with first count 6, or 3 with first count 5. Its place is 0.
    PlanSheetEdition,
    /// Refusal 15 is given when the plan sheet's n, r or K isn't the code's. Its place is 0.
    PlanOfAnotherCode,
    /// Refusal 16 is given when the plan sheet's failed disks aren't the asked ones. Its place is 0.
    PlanOfAnotherDisk,
    /// Refusal 17 is given when a step's kind is above 2, its target or source isn't below N, or it is a clear whose source byte
    /// isn't 0. Its place is the step.
    MalformedStep {
        /// The step's number.
        step: u64,
    },
    /// Refusal 18 is given when a step's target isn't a wanted symbol. Its place is the step.
    TargetNotWanted {
        /// The step's number.
        step: u64,
    },
    /// Refusal 25 is given when a copy's or an add's source is its target. Its place is the step.
    StepOntoItself {
        /// The step's number.
        step: u64,
    },
    /// Refusal 19 is given when a step adds to a place, or takes from a lost place, that no earlier step has filled. Its place is
    /// the step.
    UnfilledPlaceUsed {
        /// The step's number.
        step: u64,
    },
    /// Refusal 20 is given when no step fills a wanted symbol. Its place is the lowest such symbol: its row of the disk, or its number
    /// in edition 3.
    NeverFilled {
        /// The symbol.
        wanted: WantedSymbol,
    },
    /// Refusal 21 is given when a wanted symbol does not come out right under this code. Its place is 64 times the lowest such symbol,
    /// as with refusal 20, plus the lowest data symbol that is off: one that the steps leave out of it, or bring into it.
    EndsWrong {
        /// The symbol.
        wanted: WantedSymbol,
        /// The data symbol that is off.
        data_symbol: u64,
    },
    /// Refusal 22 is given when the plan sheet's read count isn't the number of distinct surviving symbols that its steps read. Its
    /// place is the true count.
    WrongReadCount {
        /// How many surviving symbols the plan reads.
        true_count: u64,
    },
    /// Refusal 23 is given when a list of wanted symbols has more entries than there are lost symbols, or, for edition 2, none, with
    /// place 0, or else when an entry isn't above the one before it or isn't on a failed disk. Its place is then the position of the
    /// first such entry.
    BadWantedList {
        /// The position in the list.
        position: u64,
    },
    /// Refusal 24 is given when a list of failed disks has no entry or more than n, with place 0, or else when an entry isn't above the
    /// one before it. Its place is then the position of the first such entry.
    BadDiskList {
        /// The position in the list.
        position: u64,
    },
    /// Refusal 31 is given when a symbol's length is 0 or above 65,536. Its place is 0.
    SymbolLength,
    /// Refusal 32 is given when the stripe isn't N × L bytes long. Its place is 0.
    StripeLength,
    /// Refusal 33 is given when the data isn't K × L bytes long. Its place is 0.
    DataLength,
    /// Refusal 34 is given when the buffer for a plan is shorter than 3,081 bytes, than 3,114 for a plan with wanted symbols, or than
    /// 3,210 for a plan for a list of disks. Its place is 0.
    PlanBufferTooShort,
    /// Refusal 35 is given when the spare strip isn't r × L bytes long. Its place is 0.
    SpareStripLength,
    /// Refusal 36 is given when the family has no code with these parameters, or its n, N or r would be above the limit. Its place
    /// is 0.
    NotInFamily,
    /// Refusal 37 is given when the buffer is shorter than the code sheet to be written. Its place is 0.
    SheetBufferTooShort,
    /// Refusal 38 is given when the asked symbol isn't below N. Its place is 0.
    NoSuchSymbol,
    /// Refusal 41 is given when the fewest reads are asked for and more than 16 symbols survive, whether or not there is a plan. Its
    /// place is their number.
    TooManySurvivors {
        /// How many symbols survive.
        survivors: u64,
    },
    /// Refusal 42 is given when a plan at prices is asked for and a disk is neither away, nor idle at a price from 0 to 1,000,000, nor busy
    /// at such a price and a factor from 1 to 64, or no state is given for it. Its place is the lowest such disk.
    BadDiskState {
        /// The disk.
        disk: u64,
    },
    /// A number that the table does not have is kept as it came, with its place. The library that this crate builds and links never
    /// gives one; another library's refusal would still be a refusal, and never taken for a listed one.
    Unlisted {
        /// The number.
        number: u64,
        /// The place.
        place: u64,
    },
}

impl Refusal {
    /// The refusal of a number and place as the library gives them, with a wanted symbol named as the plan's edition does; none for
    /// number 0.
    pub(crate) fn given(number: u64, place: u64, wanted: fn(u64) -> WantedSymbol) -> Option<Refusal> {
        use Refusal::*;
        Some(match number {
            0 => return None,
            1 => CodeSheetTooShort,
            2 => CodeSheetTooLong,
            3 => CodeSheetCount,
            4 => CodeSheetEdition,
            5 => CodeBeyondLimit,
            6 => StrayBit { row: place / 64, bit: place % 64 },
            7 => NoSuchDisk,
            11 => PlanSheetTooShort,
            12 => PlanSheetTooLong,
            13 => PlanSheetCount,
            14 => PlanSheetEdition,
            15 => PlanOfAnotherCode,
            16 => PlanOfAnotherDisk,
            17 => MalformedStep { step: place },
            18 => TargetNotWanted { step: place },
            19 => UnfilledPlaceUsed { step: place },
            25 => StepOntoItself { step: place },
            20 => NeverFilled { wanted: wanted(place) },
            21 => EndsWrong { wanted: wanted(place / 64), data_symbol: place % 64 },
            22 => WrongReadCount { true_count: place },
            23 => BadWantedList { position: place },
            24 => BadDiskList { position: place },
            31 => SymbolLength,
            32 => StripeLength,
            33 => DataLength,
            34 => PlanBufferTooShort,
            35 => SpareStripLength,
            36 => NotInFamily,
            37 => SheetBufferTooShort,
            38 => NoSuchSymbol,
            41 => TooManySurvivors { survivors: place },
            42 => BadDiskState { disk: place },
            _ => Unlisted { number, place },
        })
    }

    /// Its number.
    pub fn number(&self) -> u64 {
        use Refusal::*;
        match self {
            CodeSheetTooShort => 1,
            CodeSheetTooLong => 2,
            CodeSheetCount => 3,
            CodeSheetEdition => 4,
            CodeBeyondLimit => 5,
            StrayBit { .. } => 6,
            NoSuchDisk => 7,
            PlanSheetTooShort => 11,
            PlanSheetTooLong => 12,
            PlanSheetCount => 13,
            PlanSheetEdition => 14,
            PlanOfAnotherCode => 15,
            PlanOfAnotherDisk => 16,
            MalformedStep { .. } => 17,
            TargetNotWanted { .. } => 18,
            UnfilledPlaceUsed { .. } => 19,
            StepOntoItself { .. } => 25,
            NeverFilled { .. } => 20,
            EndsWrong { .. } => 21,
            WrongReadCount { .. } => 22,
            BadWantedList { .. } => 23,
            BadDiskList { .. } => 24,
            SymbolLength => 31,
            StripeLength => 32,
            DataLength => 33,
            PlanBufferTooShort => 34,
            SpareStripLength => 35,
            NotInFamily => 36,
            SheetBufferTooShort => 37,
            NoSuchSymbol => 38,
            TooManySurvivors { .. } => 41,
            BadDiskState { .. } => 42,
            Unlisted { number, .. } => *number,
        }
    }

    /// Its place: 0, but where the case says otherwise.
    pub fn place(&self) -> u64 {
        use Refusal::*;
        match *self {
            StrayBit { row, bit } => row * 64 + bit,
            MalformedStep { step }
            | TargetNotWanted { step }
            | StepOntoItself { step }
            | UnfilledPlaceUsed { step } => step,
            NeverFilled { wanted } => wanted.place(),
            EndsWrong { wanted, data_symbol } => wanted.place() * 64 + data_symbol,
            WrongReadCount { true_count } => true_count,
            BadWantedList { position } | BadDiskList { position } => position,
            TooManySurvivors { survivors } => survivors,
            BadDiskState { disk } => disk,
            Unlisted { place, .. } => place,
            CodeSheetTooShort | CodeSheetTooLong | CodeSheetCount | CodeSheetEdition | CodeBeyondLimit | NoSuchDisk => {
                0
            }
            PlanSheetTooShort | PlanSheetTooLong | PlanSheetCount | PlanSheetEdition => 0,
            PlanOfAnotherCode | PlanOfAnotherDisk => 0,
            SymbolLength | StripeLength | DataLength | PlanBufferTooShort | SpareStripLength => 0,
            NotInFamily | SheetBufferTooShort | NoSuchSymbol => 0,
        }
    }
}

impl fmt::Display for Refusal {
    fn fmt(&self, f: &mut fmt::Formatter<'_>) -> fmt::Result {
        use Refusal::*;
        match self {
            StrayBit { row, bit } => write!(f, "row {row} of the code has bit {bit} set, which is not below K"),
            MalformedStep { step } => write!(f, "step {step} is malformed"),
            TargetNotWanted { step } => write!(f, "the target of step {step} isn't a wanted symbol"),
            StepOntoItself { step } => write!(f, "step {step} copies or adds a symbol onto itself"),
            UnfilledPlaceUsed { step } => write!(f, "step {step} uses a lost place that no earlier step has filled"),
            NeverFilled { wanted } => write!(f, "{wanted} is never filled"),
            EndsWrong { wanted, data_symbol } => write!(f, "{wanted} ends wrong: data symbol {data_symbol} is off"),
            WrongReadCount { true_count } => write!(f, "the plan's read count is wrong: it reads {true_count} symbols"),
            BadWantedList { position: 0 } => write!(
                f,
                "the list of wanted symbols is empty, has more entries than there are lost symbols, or its entry 0 isn't on a failed disk"
            ),
            BadWantedList { position } => {
                write!(f, "entry {position} of the list of wanted symbols doesn't rise or isn't on a failed disk")
            }
            BadDiskList { position: 0 } => {
                f.write_str("the list of failed disks is empty or has more entries than there are disks")
            }
            BadDiskList { position } => write!(f, "entry {position} of the list of failed disks doesn't rise"),
            TooManySurvivors { survivors } => {
                write!(f, "{survivors} symbols survive, and the fewest reads are worked out for 16 at most")
            }
            BadDiskState { disk } => write!(
                f,
                "disk {disk} is neither away, nor idle at a price of 0 to 1,000,000, nor busy at such a price and a factor of 1 to 64"
            ),
            Unlisted { number, place } => write!(f, "refusal {number} at {place}, which has no name here"),
            placeless => f.write_str(placeless.sentence()),
        }
    }
}

impl Refusal {
    /// The sentence of a refusal whose place is always 0.
    fn sentence(&self) -> &'static str {
        use Refusal::*;
        match self {
            CodeSheetTooShort => "the code sheet is too short",
            CodeSheetTooLong => "the code sheet is too long",
            CodeSheetCount => "a count of the code sheet is wrong: the first byte must be 4, byte 5 must be n × r",
            CodeSheetEdition => "the code sheet's edition isn't 1",
            CodeBeyondLimit => "the code is beyond a limit: n is 2 to 64, r 1 to 32, n × r at most 64, K 1 to 64",
            NoSuchDisk => "the array has no such disk",
            PlanSheetTooShort => "the plan sheet is too short",
            PlanSheetTooLong => "the plan sheet is too long",
            PlanSheetCount => {
                "a count of the plan sheet is wrong: the first byte must be 6 or 5, and there are at most 1,024 steps"
            }
            PlanSheetEdition => "the plan sheet's edition isn't 1 or 2 with first byte 6, or 3 with first byte 5",
            PlanOfAnotherCode => "the plan was made for another layout: its n, r or K isn't the code's",
            PlanOfAnotherDisk => "the plan was made for another disk, or for other disks",
            SymbolLength => "a symbol is 1 to 65,536 bytes long",
            StripeLength => "the stripe isn't N symbols long",
            DataLength => "the data isn't K symbols long",
            PlanBufferTooShort => {
                "a plan needs a buffer of 3,081 bytes or more, 3,114 with wanted symbols, 3,210 for a list of disks"
            }
            SpareStripLength => "the spare strip isn't r symbols long",
            NotInFamily => "the family has no code with these parameters",
            SheetBufferTooShort => "the buffer is shorter than the code sheet",
            NoSuchSymbol => "the array has no such symbol",
            StrayBit { .. } | MalformedStep { .. } | TargetNotWanted { .. } | UnfilledPlaceUsed { .. } => "",
            StepOntoItself { .. } => "",
            NeverFilled { .. } | EndsWrong { .. } | WrongReadCount { .. } => "",
            BadWantedList { .. } | BadDiskList { .. } | Unlisted { .. } => "",
            TooManySurvivors { .. } | BadDiskState { .. } => "",
        }
    }
}

impl Error for Refusal {}

#[cfg(test)]
mod tests {
    use super::{Refusal, WantedSymbol};
    use std::collections::HashSet;

    /// A refusal as a call gives it that was lent no plan.
    fn given(number: u64, place: u64) -> Option<Refusal> {
        Refusal::given(number, place, WantedSymbol::naming(&[]))
    }

    /// The numbers at the head of a table's rows: those of a text's lines after the one that begins with `title`, up to `end`.
    fn table(text: &str, title: &str, end: &str, head: std::ops::Range<usize>) -> Vec<u64> {
        let rows = text.lines().skip_while(|line| !line.starts_with(title)).skip(1).take_while(|line| *line != end);
        let heads = rows.map(|line| line.get(head.clone()).expect("a row of the table"));
        heads
            .flat_map(|head| head.split([',', ' ', '|']).filter_map(|word| word.parse().ok()).collect::<Vec<_>>())
            .collect()
    }

    /// The numbers of the table in the header for C.
    fn of_the_header() -> Vec<u64> {
        table(include_str!("../../include/navorzim.h"), " *   number  given when", " *", 3..11)
    }

    /// Those of the table in the rules, where 23 and 24 have two rows.
    fn of_the_rules() -> Vec<u64> {
        let mut numbers = table(include_str!("../../docs/RULES.md"), "| no. | given when", "", 0..5);
        numbers.dedup();
        numbers
    }

    #[test]
    fn every_number_of_the_table_has_its_refusal() {
        let numbers = of_the_header();
        assert_eq!(numbers, of_the_rules());
        assert_eq!((numbers.len(), numbers.iter().max()), (32, Some(&42)));
        assert_eq!(given(0, 0), None);
        let mut sentences = HashSet::new();
        for number in numbers {
            let refusal = given(number, 0).expect("a refusal");
            assert!(!matches!(refusal, Refusal::Unlisted { .. }));
            assert_eq!((refusal.number(), refusal.place()), (number, 0));
            assert!(refusal.to_string().len() > 10 && sentences.insert(refusal.to_string()), "{refusal} is said twice");
        }
    }

    /// The header for C has the same sentences, in letters that every terminal has; one without a place where there is one here.
    #[test]
    fn the_header_says_the_same() {
        let header = include_str!("../../include/navorzim.h");
        for refusal in of_the_header().into_iter().filter_map(|number| given(number, 0)) {
            let said = format!("case {}: return \"", refusal.number());
            let said = header.split(&said).nth(1).and_then(|rest| rest.split("\";").next()).expect("a sentence");
            let here = refusal.sentence().replace('×', "*");
            assert!(here.is_empty() || here == said, "{here}, but the header says: {said}");
        }
    }

    #[test]
    fn an_unlisted_number_is_taken_for_no_other() {
        let listed: HashSet<u64> = of_the_header().into_iter().collect();
        let others = (1..1000).chain([u64::from(u32::MAX) + 38, u64::MAX]).filter(|number| !listed.contains(number));
        for number in others {
            let refusal = given(number, 7).expect("a refusal, not an answer");
            assert_eq!(refusal, Refusal::Unlisted { number, place: 7 });
            assert_eq!((refusal.number(), refusal.place()), (number, 7));
            assert!(refusal.to_string().contains(&format!("{number} at 7")));
        }
    }

    #[test]
    fn places_are_kept() {
        for number in [6, 17, 18, 19, 20, 21, 22, 23, 24, 25, 41, 42] {
            for place in [0, 1, 63, 64, 1023, 4095] {
                for plan in [&[][..], &[6, 1], &[6, 2], &[5, 3]] {
                    let refusal = Refusal::given(number, place, WantedSymbol::naming(plan)).expect("a refusal");
                    assert_eq!((refusal.number(), refusal.place()), (number, place));
                }
            }
        }
    }

    #[test]
    fn survivors_that_are_too_many_are_counted() {
        let refusal = given(41, 17).expect("a refusal");
        assert_eq!(refusal, Refusal::TooManySurvivors { survivors: 17 });
        assert_eq!(refusal.to_string(), "17 symbols survive, and the fewest reads are worked out for 16 at most");
    }

    #[test]
    fn a_disk_in_a_bad_state_is_named() {
        let refusal = given(42, 63).expect("a refusal");
        assert_eq!(refusal, Refusal::BadDiskState { disk: 63 });
        let said = "disk 63 is neither away, nor idle at a price of 0 to 1,000,000, nor busy at such a price and a factor of 1 to 64";
        assert_eq!(refusal.to_string(), said);
    }

    #[test]
    fn wanted_symbols_are_named_by_the_edition() {
        for (plan, number, place, said) in [
            (&[6, 1][..], 20, 3, "row 3 of the failed disk is never filled"),
            (&[6, 2], 21, 3 * 64 + 5, "row 3 of the failed disk ends wrong: data symbol 5 is off"),
            (&[5, 3], 20, 63, "symbol 63 is never filled"),
            (&[5, 3], 21, 63 * 64 + 5, "symbol 63 ends wrong: data symbol 5 is off"),
        ] {
            let refusal = Refusal::given(number, place, WantedSymbol::naming(plan)).expect("a refusal");
            assert_eq!((refusal.place(), refusal.to_string()), (place, said.to_string()));
        }
    }
}
