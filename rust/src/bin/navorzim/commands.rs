//! The commands. Each reads its files, asks the library, and answers the text for standard output.
use crate::arguments::{shown, Arguments};
use crate::disks::Disks;
use crate::failure::{printable, Failure, Refused};
use crate::files::Purpose;
use crate::picture::{Picture, Story};
use crate::planning::{checked, checked_plan, no_plan, plan_anew, Choice, FEWEST};
use crate::sheets::{counted, Code, Plan};
use crate::stream::{self, End, Pieces, Stream};
use crate::text::Style;
use crate::wanted::{Request, Wanted};
use crate::{arrays, demo, help, output, restore, soundness, svg, text};
use navorzim::{Family, Refusal, WantedSymbol};
use std::ffi::OsString;
use std::path::{Path, PathBuf};

/// A command: its name, its options, its help and what it does.
pub struct Command {
    pub name: &'static str,
    pub options: &'static [&'static str],
    pub help: &'static str,
    pub run: fn(&mut Arguments) -> Result<String, Failure>,
}

/// All commands, in the order in which help lists them.
pub const COMMANDS: &[Command] = &[
    Command { name: "demo", options: &["--keep"], help: help::DEMO, run: demo::run },
    Command { name: "family", options: &["-o", "--wait"], help: help::FAMILY, run: family },
    Command { name: "split", options: &["-o", "--symbol", "--wait"], help: help::SPLIT, run: arrays::split },
    Command {
        name: "status",
        options: &["--links", "--read", "--wait", "--without"],
        help: help::STATUS,
        run: arrays::status,
    },
    Command {
        name: "restore",
        options: &["--dry-run", "--links", "--plan", "--wait", "--without"],
        help: help::RESTORE,
        run: restore::run,
    },
    Command { name: "join", options: &["-o", "--links", "--wait", "--without"], help: help::JOIN, run: arrays::join },
    Command { name: "encode", options: &["-o", "--length", "--symbol", "--wait"], help: help::ENCODE, run: encode },
    Command { name: "decode", options: &["-o", "--length", "--symbol", "--wait"], help: help::DECODE, run: decode },
    Command { name: "plan", options: &["-o", "--fewest", "--wait", "--want"], help: help::PLAN, run: plan },
    Command { name: "check", options: &[], help: help::CHECK, run: check },
    Command { name: "test", options: &["--symbol", "--wait"], help: help::TEST, run: soundness::run },
    Command {
        name: "rebuild",
        options: &["-o", "--in-place", "--symbol", "--wait"],
        help: help::REBUILD,
        run: rebuild,
    },
    Command { name: "strip", options: &["-o", "--symbol", "--wait"], help: help::STRIP, run: strip },
    Command {
        name: "show",
        options: &["--disk", "--fewest", "--plan", "--svg", "--wait", "--want"],
        help: help::SHOW,
        run: show,
    },
];

/// The command with a name.
pub fn find(name: &str) -> Option<&'static Command> {
    COMMANDS.iter().find(|command| command.name == name)
}

/// What came of a command.
pub struct Ran {
    pub answer: Result<String, Failure>,
    /// whether standard output has taken its bytes, so that the answer goes to standard error
    pub aside: bool,
}

impl From<Result<String, Failure>> for Ran {
    fn from(answer: Result<String, Failure>) -> Ran {
        Ran { answer, aside: false }
    }
}

/// Runs a command with what follows its name.
pub fn run(command: &'static Command, given: impl IntoIterator<Item = OsString>) -> Ran {
    let given: Vec<OsString> = given.into_iter().collect();
    let asked = given.iter().take_while(|word| *word != "--").any(|word| word == "-h" || word == "--help");
    match Arguments::read(command.name, command.options, given) {
        Ok(arguments) if arguments.asks_for_help() => Ok(command.help.to_string()).into(),
        // Whoever asks for help gets it, whatever else can't be understood.
        Err(_) if asked => Ok(command.help.to_string()).into(),
        Ok(mut arguments) => {
            let answer = arguments.wait().and_then(|()| (command.run)(&mut arguments));
            Ran { answer, aside: arguments.takes_standard_output() }
        }
        Err(failure) => Err(failure).into(),
    }
}

fn family(arguments: &mut Arguments) -> Result<String, Failure> {
    let name = arguments.word("NAME")?;
    let (family, given) = match name.to_str() {
        Some("single-parity") => {
            let (data_disks, rows) = (arguments.number("K")?, arguments.number("R")?);
            let family = Family::SingleParity { data_disks, rows };
            (family, format!("k {data_disks}, r {rows}"))
        }
        Some("liberation") => {
            let (w, data_disks) = (arguments.number("W")?, arguments.number("K")?);
            let family = Family::Liberation { w, data_disks };
            (family, format!("w {w}, k {data_disks}"))
        }
        Some("row-diagonal") => {
            let p = arguments.number("P")?;
            (Family::RowDiagonal { p }, format!("p {p}"))
        }
        Some("evenodd") => {
            let p = arguments.number("P")?;
            (Family::EvenOdd { p }, format!("p {p}"))
        }
        _ => {
            let listed = "single-parity, liberation, row-diagonal and evenodd";
            let what = format!("there is no family '{}', but {listed}", shown(&name));
            return Err(arguments.misuse(what));
        }
    };
    let output = arguments.output()?;
    arguments.finish()?;
    let unlisted = |refusal| {
        Failure::Refused(Refused { refusal, detail: format!("{} {given}", name.to_string_lossy()), file: None })
    };
    let sheet = family.sheet().map_err(unlisted)?;
    output::put(&output, &[], &sheet)?;
    let length = sheet.len();
    let code = Code::read(&output, sheet).map_err(unlisted)?;
    Ok(format!("wrote {}: {}, {length} bytes\n", printable(&output), code.shape()))
}

fn encode(arguments: &mut Arguments) -> Result<String, Failure> {
    let (code, data) = (arguments.source("CODE")?, arguments.source("DATA")?);
    let (symbol, length) = (arguments.symbol_length()?, arguments.number_option("--length")?);
    let output = arguments.output()?;
    arguments.finish()?;
    arguments.not_both_standard(&data)?;
    let code = Code::open(&code)?;
    let explain = |refusal| code.explain(refusal, &Disks::NONE, None, symbol);
    // With no data the library refuses all that goes before the data's length, in its own order, and then that length.
    all_but(navorzim::encode(&code.sheet, symbol, &[], &mut []), Refusal::DataLength).map_err(explain)?;
    let mut stripe = vec![0; Pieces::stripes(&code, symbol).length()];
    let end = length.map_or(End::Whole, End::After);
    let stream = Stream::open(&data, Pieces::data(&code, symbol), end, Purpose::Read)?;
    let stripes = stream::each(stream, Some(&output), &[&code.file], |piece, output| {
        navorzim::encode(&code.sheet, symbol, piece, &mut stripe).map_err(explain)?;
        output.write(&stripe)
    })?;
    Ok(format!(
        "wrote {}: {} of {} symbols of {symbol} bytes\n",
        printable(&output),
        counted(stripes, "stripe"),
        code.symbols()
    ))
}

fn decode(arguments: &mut Arguments) -> Result<String, Failure> {
    let (code, stripes) = (arguments.source("CODE")?, arguments.source("STRIPES")?);
    let (symbol, length) = (arguments.symbol_length()?, arguments.number_option("--length")?);
    let output = arguments.output()?;
    arguments.finish()?;
    arguments.not_both_standard(&stripes)?;
    let code = Code::open(&code)?;
    let homes = code.homes(&Disks::NONE)?;
    let explain = |refusal| code.explain(refusal, &Disks::NONE, None, symbol);
    all_but(navorzim::strip(&code.sheet, 0, symbol, &[]).map(|_| ()), Refusal::StripeLength).map_err(explain)?;
    let pieces = Pieces::stripes(&code, symbol);
    let stripes_of = |length: u64| length.div_ceil(Pieces::data(&code, symbol).length() as u64);
    let end = length.map_or(End::Whole, |length| End::After(stripes_of(length).saturating_mul(pieces.length() as u64)));
    let stream = Stream::open(&stripes, pieces, end, Purpose::Read)?;
    let mut left = length.unwrap_or(u64::MAX);
    let count = stream::each(stream, Some(&output), &[&code.file], |stripe, output| {
        homes.iter().try_for_each(|home| {
            let whole = &stripe[home * symbol as usize..][..symbol as usize];
            let symbol = &whole[..whole.len().min(usize::try_from(left).unwrap_or(usize::MAX))];
            left -= symbol.len() as u64;
            output.write(symbol)
        })
    })?;
    let bytes = length.unwrap_or(u64::MAX) - left;
    Ok(format!("wrote {}: {} of {}\n", printable(&output), counted(bytes, "byte"), counted(count, "stripe")))
}

fn plan(arguments: &mut Arguments) -> Result<String, Failure> {
    let (code, disks) = (arguments.source("CODE")?, arguments.disks("DISKS")?);
    let (request, choice, output) = (arguments.wanted()?, arguments.choice(), arguments.output()?);
    arguments.finish()?;
    let code = Code::open(&code)?;
    let planned = checked_plan(&code, &disks, &Wanted::asked_for(request.as_ref(), &code, &disks), choice)?;
    let (plan, reads) = planned.map_err(|stuck| no_plan(stuck.text(&code), &code, &stuck))?;
    output::put(&output, &[&code.file], &plan.sheet)?;
    Ok(format!(
        "wrote {}: {} bytes, {}, reads {}{}{}\n",
        printable(&output),
        plan.sheet.len(),
        counted(plan.steps().len(), "step"),
        counted(reads, "symbol"),
        if choice == Choice::FewestReads { FEWEST } else { "" },
        brings_back(&code, &disks, &plan)
    ))
}

fn check(arguments: &mut Arguments) -> Result<String, Failure> {
    let (code, disks) = (arguments.source("CODE")?, arguments.disks("DISKS")?);
    let plan = arguments.source("PLAN")?;
    arguments.finish()?;
    let (code, plan) = (Code::open(&code)?, Plan::open(&plan)?);
    let reads = checked(&code, &disks, &plan)?;
    Ok(format!("accepted, reads {}{}\n", counted(reads, "symbol"), brings_back(&code, &disks, &plan)))
}

/// Of a plan with a list: what it brings back.
fn brings_back(code: &Code, disks: &Disks, plan: &Plan) -> String {
    match plan.wanted() {
        Wanted::All => String::new(),
        wanted @ Wanted::Symbols(_) => format!(", brings back {}", wanted.words(code, disks)),
    }
}

fn rebuild(arguments: &mut Arguments) -> Result<String, Failure> {
    let (code, disks) = (arguments.source("CODE")?, arguments.disks("DISKS")?);
    let (plan, stripes) = (arguments.source("PLAN")?, arguments.source("STRIPES")?);
    let symbol = arguments.symbol_length()?;
    let output = rebuilding_to(arguments)?;
    arguments.finish()?;
    arguments.not_both_standard(&stripes)?;
    let (code, plan, lost) = (Code::open(&code)?, Plan::open(&plan)?, disks.as_bytes());
    let explain = |refusal| code.explain(refusal, &disks, Some(&plan), symbol);
    // As in `encode`: all that goes before the stripe's length.
    all_but(navorzim::rebuild_disks(&code.sheet, &lost, &plan.sheet, symbol, &mut []), Refusal::StripeLength)
        .map_err(explain)?;
    let purpose = if output.is_some() { Purpose::Read } else { Purpose::ReadAndReplace };
    let stream = Stream::open(&stripes, Pieces::stripes(&code, symbol), End::Whole, purpose)?;
    let count = stream::each(stream, output.as_deref(), &[&code.file, &plan.file], |stripe, output| {
        // The library checks the plan again, for every stripe: none is believed because it was once believed.
        navorzim::rebuild_disks(&code.sheet, &lost, &plan.sheet, symbol, stripe).map_err(explain)?;
        output.write(stripe)
    })?;
    // The library can't know which L, disk or code the stripes were made with, so the user is told what was believed.
    Ok(format!(
        "rebuilt {} in {}: {}\n  by symbols of {} (L), code {} ({})\n",
        plan.wanted().words(&code, &disks),
        counted(count, "stripe"),
        printable(output.as_ref().unwrap_or(&stripes)),
        counted(symbol, "byte"),
        printable(&code.file),
        code.title()
    ))
}

/// Where the rebuilt stripes go: a file, or none for the place of those that were read. A wrong L, disk or code can't always be
/// noticed, and the only copy isn't replaced unasked.
fn rebuilding_to(arguments: &mut Arguments) -> Result<Option<PathBuf>, Failure> {
    let output = arguments.target_option("-o")?;
    match (&output, arguments.flag("--in-place")) {
        (Some(_), true) => Err(arguments.misuse("-o and --in-place exclude each other".to_string())),
        (None, false) => Err(arguments.misuse("-o OUT is missing, or --in-place, which replaces STRIPES".to_string())),
        _ => Ok(output),
    }
}

fn strip(arguments: &mut Arguments) -> Result<String, Failure> {
    let (code, disk) = (arguments.source("CODE")?, arguments.number("DISK")?);
    let stripes = arguments.source("STRIPES")?;
    let (symbol, output) = (arguments.symbol_length()?, arguments.output()?);
    arguments.finish()?;
    arguments.not_both_standard(&stripes)?;
    let code = Code::open(&code)?;
    let explain = |refusal| code.explain(refusal, &Disks::of([disk]), None, symbol);
    all_but(navorzim::strip(&code.sheet, disk, symbol, &[]).map(|_| ()), Refusal::StripeLength).map_err(explain)?;
    let stream = Stream::open(&stripes, Pieces::stripes(&code, symbol), End::Whole, Purpose::Read)?;
    let count = stream::each(stream, Some(&output), &[&code.file], |stripe, output| {
        let strip = navorzim::strip(&code.sheet, disk, symbol, stripe).map_err(explain)?;
        output.write(strip)
    })?;
    Ok(format!(
        "wrote {}: {} of disk {disk}, {} of {symbol} bytes each\n",
        printable(&output),
        counted(count, "strip"),
        counted(code.rows, "symbol")
    ))
}

fn show(arguments: &mut Arguments) -> Result<String, Failure> {
    let code = arguments.source("CODE")?;
    let disks = arguments.disks_option("--disk")?;
    let plan = arguments.source_option("--plan")?;
    let (request, choice) = (arguments.wanted()?, arguments.choice());
    let drawing = arguments.target_option("--svg")?;
    arguments.finish()?;
    if let Some(misuse) = clash(disks.is_some(), plan.is_some(), request.is_some(), choice) {
        return Err(arguments.misuse(misuse.to_string()));
    }
    let code = Code::open(&code)?;
    let (story, refused) = match (disks, &plan) {
        (None, _) => (Story::Code, None),
        (Some(disks), None) => (planned_story(&code, disks, request.as_ref(), choice)?, None),
        (Some(disks), Some(plan)) => judged_story(&code, disks, &Plan::open(plan)?)?,
    };
    let picture = Picture::new(&code, &story);
    if let Some(drawing) = drawing {
        let plan = plan.as_deref().unwrap_or(Path::new(""));
        output::put_text(&drawing, &[&code.file, plan], &svg::draw(&picture))?;
    }
    // Whoever takes the picture from standard output doesn't want it twice.
    let text = match arguments.takes_standard_output() {
        true => String::new(),
        false => text::draw(&picture, Style::of_stdout()),
    };
    match (story, refused) {
        (_, Some(refused)) => Err(Failure::Drawn { text, refused }),
        (Story::Stuck(stuck), None) => Err(no_plan(text, &code, &stuck)),
        (Story::Code | Story::Plan { .. } | Story::Wrong { .. }, None) => Ok(text),
    }
}

/// Why these options don't go together, if so.
fn clash(disks: bool, plan: bool, wanted: bool, choice: Choice) -> Option<&'static str> {
    match (disks, plan, wanted, choice) {
        (false, true, _, _) => Some("--plan needs --disk: which disks are lost isn't left to the plan"),
        (false, false, true, _) => Some("--want needs --disk: the disks that are lost"),
        (false, false, false, Choice::FewestReads) => Some("--fewest needs --disk: the disks that are lost"),
        (true, true, true, _) => Some("--want and --plan exclude each other: a plan says itself what it wants"),
        (true, true, false, Choice::FewestReads) => {
            Some("--fewest and --plan exclude each other: a plan is drawn as it is")
        }
        (false, false, false, Choice::Usual) | (true, true, false, Choice::Usual) | (true, false, _, _) => None,
    }
}

/// The planner's answer as a story; its plan is checked like any other.
fn planned_story(code: &Code, disks: Disks, request: Option<&Request>, choice: Choice) -> Result<Story, Failure> {
    match plan_anew(code, &disks, &Wanted::asked_for(request, code, &disks), choice)? {
        Ok(plan) => checked_story(code, disks, &plan, choice == Choice::FewestReads),
        Err(stuck) => Ok(Story::Stuck(stuck)),
    }
}

/// A given plan as a story: an accepted one, or one that ends wrong, with its refusal.
fn judged_story(code: &Code, disks: Disks, plan: &Plan) -> Result<(Story, Option<Refused>), Failure> {
    match navorzim::check_disks(&code.sheet, &disks.as_bytes(), &plan.sheet) {
        Err(refusal @ Refusal::EndsWrong { wanted, .. }) => {
            let symbol = match wanted {
                WantedSymbol::Row(row) => disks.iter().next().unwrap_or(0) * code.rows as u64 + row,
                WantedSymbol::Symbol(symbol) => symbol,
            };
            let story = Story::Wrong { disks, wanted: plan.wanted(), steps: plan.steps(), symbol: symbol as usize };
            let refused = Refused { refusal, detail: String::new(), file: Some(plan.file.clone()) };
            Ok((story, Some(refused)))
        }
        _ => Ok((checked_story(code, disks, plan, false)?, None)),
    }
}

/// An accepted plan as a story, and whether it is known that no plan reads fewer symbols.
fn checked_story(code: &Code, disks: Disks, plan: &Plan, fewest: bool) -> Result<Story, Failure> {
    let reads = checked(code, &disks, plan)?;
    Ok(Story::Plan { disks, wanted: plan.wanted(), reads, fewest, steps: plan.steps() })
}

/// Any refusal but the one that a call without bytes must end in.
pub fn all_but(answer: Result<(), Refusal>, expected: Refusal) -> Result<(), Refusal> {
    match answer {
        Err(refusal) if refusal != expected => Err(refusal),
        _ => Ok(()),
    }
}
