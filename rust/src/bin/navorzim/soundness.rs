//! `test`: whether the surviving disks of each stripe can be sound.
use crate::arguments::Arguments;
use crate::commands::all_but;
use crate::disks::Disks;
use crate::failure::{printable, Failure};
use crate::files::Purpose;
use crate::sheets::{counted, Code};
use crate::stream::{self, End, Pieces, Stream};
use navorzim::{Equation, Refusal, Soundness};
use std::path::Path;

/// How many stripes that aren't sound are named.
const NAMED: usize = 10;

/// The stripes that aren't sound: how many, and the first ones, each with the lowest column that shows it.
#[derive(Default)]
struct Unsound {
    count: u64,
    first: Vec<(u64, u64)>,
}

impl Unsound {
    fn add(&mut self, stripe: u64, column: u64) {
        self.count += 1;
        if self.first.len() < NAMED {
            self.first.push((stripe, column));
        }
    }

    /// A line for each of the first, and one for how many more there are.
    fn lines(&self, stripe_length: u64) -> String {
        let line = |(stripe, column): &(u64, u64)| {
            format!("  stripe {stripe}, from byte {} on: column {column}\n", stripe.saturating_mul(stripe_length))
        };
        let mut lines: String = self.first.iter().map(line).collect();
        let more = self.count - self.first.len() as u64;
        if more > 0 {
            lines += &format!("  and {more} more\n");
        }
        lines
    }
}

pub fn run(arguments: &mut Arguments) -> Result<String, Failure> {
    let (code, disks) = (arguments.source("CODE")?, arguments.disks("DISKS")?);
    let (stripes, symbol) = (arguments.source("STRIPES")?, arguments.symbol_length()?);
    arguments.finish()?;
    let (code, lost) = (Code::open(&code)?, disks.as_bytes());
    let explain = |refusal| code.explain(refusal, &disks, None, symbol);
    let test = |stripe: &[u8]| navorzim::test_survivors(&code.sheet, &lost, symbol, stripe);
    // With no bytes the library refuses all that goes before the stripe's length, in its own order, and then that length.
    all_but(test(&[]).map(|_| ()), Refusal::StripeLength).map_err(explain)?;
    let equations = navorzim::equations(&code.sheet, &lost).map_err(explain)?;
    let pieces = Pieces::stripes(&code, symbol);
    let stripe_length = pieces.length() as u64;
    let stream = Stream::open(&stripes, pieces, End::Whole, Purpose::Read)?;
    let mut unsound = Unsound::default();
    let count = stream::look_at_each(stream, |number, stripe| {
        if let Soundness::Unsound { column } = test(stripe).map_err(explain)? {
            unsound.add(number, column);
        }
        Ok(())
    })?;
    let believed = believed(&code, &disks, symbol, &equations);
    match unsound.count {
        0 => Ok(format!("sound: {}\n{believed}", tested(count, &stripes))),
        bad => Err(Failure::Unsound {
            text: format!(
                "not sound: {bad} of {}\n{}{believed}",
                tested(count, &stripes),
                unsound.lines(stripe_length)
            ),
            what: format!("{bad} of {} can't be sound", counted(count, "stripe")),
            stripes: stripes.clone(),
        }),
    }
}

/// What was tested.
fn tested(count: u64, stripes: &Path) -> String {
    format!("{} in {}", counted(count, "stripe"), printable(stripes))
}

/// By what: which disks, L and code a file was made with can't be known, and what no equation has can't be seen.
fn believed(code: &Code, disks: &Disks, symbol: u64, equations: &[Equation]) -> String {
    let surviving: Vec<usize> = (0..code.symbols()).filter(|&symbol| !disks.has(code.disk_of(symbol))).collect();
    let seen = surviving.iter().filter(|&&symbol| equations.iter().any(|equation| equation.has(symbol))).count();
    let sees = match equations.len() {
        0 => "by no equation: what survives could be anything".to_string(),
        count => {
            let all = counted(surviving.len(), "surviving symbol");
            format!("by {}, seeing {seen} of {all}", counted(count, "equation"))
        }
    };
    format!(
        "  with {} lost, {sees}\n  by symbols of {} (L), code {} ({})\n",
        disks.words(),
        counted(symbol, "byte"),
        printable(&code.file),
        code.title()
    )
}
