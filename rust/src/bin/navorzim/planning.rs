//! Plans for lost disks: what the planner says, and whether a plan is accepted.
use crate::disks::Disks;
use crate::failure::Failure;
use crate::lists::as_bytes;
use crate::sheets::{Code, Plan};
use crate::stuck::Stuck;
use crate::wanted::{self, Wanted};
use navorzim::{Planning, Refusal};

/// Which of the plans that there are is asked for.
#[derive(Clone, Copy, Debug, PartialEq, Eq)]
pub enum Choice {
    /// the planner's own
    Usual,
    /// one that reads as few symbols as any
    FewestReads,
}

/// What is said of a number of symbols that are read, if no plan reads fewer: only of what `navorzim::plan_fewest` answered.
pub const FEWEST: &str = ", the fewest possible";

/// The planner's answer: for one disk a sheet of edition 1, or of edition 2 with a list; for several disks, or with the fewest reads, one of
/// edition 3.
fn ask(code: &Code, disks: &Disks, wanted: &Wanted, choice: Choice) -> Result<Planning, Refusal> {
    let list = match wanted {
        Wanted::All => Vec::new(),
        Wanted::Symbols(symbols) => as_bytes(symbols),
    };
    match (choice, disks.one(), wanted) {
        (Choice::FewestReads, _, _) => navorzim::plan_fewest(&code.sheet, &disks.as_bytes(), &list),
        (Choice::Usual, Some(disk), Wanted::All) => navorzim::plan(&code.sheet, disk),
        (Choice::Usual, Some(disk), Wanted::Symbols(_)) => navorzim::plan_wanted(&code.sheet, disk, &list),
        (Choice::Usual, None, _) => navorzim::plan_disks(&code.sheet, &disks.as_bytes(), &list),
    }
}

/// A plan for the wanted symbols of lost disks, made anew, or why there is none.
pub fn plan_anew(code: &Code, disks: &Disks, wanted: &Wanted, choice: Choice) -> Result<Result<Plan, Stuck>, Failure> {
    match ask(code, disks, wanted, choice) {
        Ok(Planning::Plan { plan, .. }) => Ok(Ok(Plan { file: code.file.clone(), sheet: plan })),
        Ok(Planning::NoPlan { patterns }) => match Stuck::new(code, disks, wanted, patterns) {
            Ok(stuck) => Ok(Err(stuck)),
            Err(refusal) => Err(code.explain(refusal, disks, None, 0)),
        },
        Err(refusal) => Err(match (refusal, wanted) {
            (Refusal::BadWantedList { position }, Wanted::Symbols(symbols)) => {
                Failure::refused(refusal, wanted::fault(code, disks, symbols, position), &code.file)
            }
            _ => code.explain(refusal, disks, None, 0),
        }),
    }
}

/// A plan for the wanted symbols of lost disks, made anew and checked, with how many symbols it reads, or why there is none.
pub fn checked_plan(
    code: &Code,
    disks: &Disks,
    wanted: &Wanted,
    choice: Choice,
) -> Result<Result<(Plan, u64), Stuck>, Failure> {
    match plan_anew(code, disks, wanted, choice)? {
        Ok(plan) => {
            let reads = checked(code, disks, &plan)?;
            Ok(Ok((plan, reads)))
        }
        Err(stuck) => Ok(Err(stuck)),
    }
}

/// Whether the wanted symbols of lost disks have a plan.
pub fn has_plan(code: &Code, disks: &Disks, wanted: &Wanted) -> bool {
    matches!(ask(code, disks, wanted, Choice::Usual), Ok(Planning::Plan { .. }))
}

/// How a command ends that met patterns.
pub fn no_plan(text: String, code: &Code, stuck: &Stuck) -> Failure {
    let what = format!("{}: {}", stuck.wanted.cannot_be_rebuilt(code, &stuck.disks), stuck.in_short());
    Failure::NoPlan { text, what, code: code.file.clone() }
}

/// How many symbols a plan reads, if it is accepted.
pub fn checked(code: &Code, disks: &Disks, plan: &Plan) -> Result<u64, Failure> {
    let reads = navorzim::check_disks(&code.sheet, &disks.as_bytes(), &plan.sheet);
    reads.map_err(|refusal| code.explain(refusal, disks, Some(plan), 0))
}
