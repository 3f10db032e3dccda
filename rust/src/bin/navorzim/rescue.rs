//! What is said of an array whose lost disks can't all be rebuilt: how much is gone, and what can be done all the same.
use crate::array::Array;
use crate::disks::Disks;
use crate::failure::Failure;
use crate::inventory::Inventory;
use crate::planning::{has_plan, no_plan};
use crate::sheets::Code;
use crate::stuck::{lines, Stuck};
use crate::wanted::{disks_and_rows, Wanted};

/// How a command ends whose disks can't be rebuilt; `said` are the lines before that.
pub fn beyond_help(array: &Array, inventory: &Inventory, stuck: &Stuck, said: String) -> Failure {
    let code = &array.code;
    let whole = Disks::of(stuck.disks.iter().filter(|&disk| is_known(code, &stuck.disks, disk)));
    let missing = inventory.missing();
    let restorable = Disks::of(whole.iter().filter(|&disk| missing.has(disk as usize)));
    let mut notes = stuck.account(code);
    notes.extend(still_known(code, stuck, &whole));
    notes.extend(by_themselves(&restorable));
    notes.extend(if_one_came_back(code, &stuck.disks));
    no_plan(said + &lines(notes.into_iter()), code, stuck)
}

/// Whether a lost disk as a whole has a plan, though others may have none.
fn is_known(code: &Code, lost: &Disks, disk: u64) -> bool {
    has_plan(code, lost, &Wanted::Symbols(Wanted::All.symbols(code, &Disks::of([disk]))))
}

/// The wanted symbols that aren't gone. `--want` is for files of stripes: of an array they come back only with their disk.
fn still_known(code: &Code, stuck: &Stuck, whole: &Disks) -> Option<String> {
    let only = if whole.count() == 0 { ", but restore brings back whole disks only" } else { "" };
    let known = (!stuck.within_reach.is_empty()).then_some(&stuck.within_reach)?;
    Some(format!("Still known: {}{only}.", disks_and_rows(code, known)))
}

/// Which missing disks `restore` brings back if it is asked for them and no others.
fn by_themselves(restorable: &Disks) -> Option<String> {
    let list: Vec<String> = restorable.iter().map(|disk| disk.to_string()).collect();
    (!list.is_empty())
        .then(|| format!("restore can bring {} back: restore ARRAY {}.", restorable.words(), list.join(",")))
}

/// Which of the lost disks would be enough for all others, if it came back.
fn if_one_came_back(code: &Code, lost: &Disks) -> Option<String> {
    let without = |disk: u64| Disks::of(lost.iter().filter(move |&other| other != disk));
    let enough = lost.iter().filter(|&disk| lost.count() > 1 && has_plan(code, &without(disk), &Wanted::All));
    let enough = Disks::of(enough);
    let one = match enough.count() {
        0 => return None,
        1 => enough.words(),
        2.. => format!("one of {}", enough.words()),
    };
    let others = if lost.count() == 2 { "the other" } else { "the others" };
    Some(format!("If {one} came back, {others} could be rebuilt."))
}
