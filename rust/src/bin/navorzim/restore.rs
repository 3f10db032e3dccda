//! `restore`: the missing disks of an array, made anew from the others.
use crate::arguments::Arguments;
use crate::array::Array;
use crate::arrays::caution;
use crate::disks::Disks;
use crate::failure::{printable, Failure};
use crate::files::{open_regular, trouble, Held, Purpose};
use crate::gather::{Block, Blocks};
use crate::inventory::{Found, Inventory};
use crate::planning::{checked, checked_plan, Choice};
use crate::progress::Progress;
use crate::recovery::{bytes_read, reading, Recovery, Room};
use crate::replacement::{handles, Model, Replacement};
use crate::rescue::beyond_help;
use crate::sheets::{counted, Code, Plan};
use crate::wanted::{places, Wanted};
use navorzim::Refusal;
use std::path::Path;
use std::sync::atomic::{AtomicU64, Ordering};
use std::thread;
use std::time::Instant;

/// The most memory that blocks take, over all threads.
const MEMORY: usize = 32 << 20;

pub fn run(arguments: &mut Arguments) -> Result<String, Failure> {
    let folder = arguments.file("ARRAY")?;
    let asked = arguments.disks_if_any("DISKS")?;
    let given = arguments.source_option("--plan")?;
    let dry_run = arguments.flag("--dry-run");
    let (links, without) = (arguments.links(), arguments.without()?);
    arguments.finish()?;
    let (array, description) = Array::open(&folder, links)?;
    let inventory = Inventory::take(&array, &without)?;
    let targets = targets(&array, &inventory, asked)?;
    let mut text = match targets.count() {
        0 => nothing_missing(&array, &inventory),
        _ => {
            let lost = inventory.lost();
            let plan = match given {
                Some(given) => given_plan(&array.code, &lost, &targets, &given)?,
                None => plan_for(&array, &inventory, &lost, &targets)?,
            };
            match dry_run {
                true => would_write(&array, &lost, &targets, &plan),
                false => write(&array, description.as_ref(), &lost, &targets, &plan)?,
            }
        }
    };
    if description.is_none() {
        text.push_str(&describe(&array, &inventory, dry_run)?);
    }
    Ok(text)
}

/// Why there is nothing to do. Disks to do without aren't missing.
fn nothing_missing(array: &Array, inventory: &Inventory) -> String {
    let text = format!("nothing to restore: all {} are there\n", counted(array.code.disks, "disk"));
    let lines = (0..array.code.disks).filter(|&disk| inventory.disks[disk] == Found::SetAside);
    let lines = lines.map(|disk| format!("  {}: move it away to have it restored\n", array.name(disk)));
    lines.fold(text, |text, line| text + &line)
}

/// What would be read and written.
fn would_write(array: &Array, lost: &Disks, targets: &Disks, plan: &Plan) -> String {
    format!(
        "would restore {}: {}\n  would read {}\n  would write {}\n",
        targets.words(),
        files(array, targets),
        reading(array, &plan.sources(&array.code, lost)),
        counted(bytes_written(array, targets), "byte")
    )
}

/// Writes the description anew, as the labels have it.
fn describe(array: &Array, inventory: &Inventory, dry_run: bool) -> Result<String, Failure> {
    let place = array.description();
    let named = printable(place.named());
    if dry_run {
        return Ok(format!("would write {named} anew, from the labels\n"));
    }
    let there = (0..array.code.disks).filter(|&disk| inventory.disks[disk] == Found::There);
    let sources = there.map(|disk| open_regular(&array.disk(disk), Purpose::Read, array.links));
    let model = Model::MadeOf(sources.collect::<Result<Vec<_>, Failure>>()?);
    let mut file = Replacement::begin_new(place, model)?;
    file.write(array.text().as_bytes())?;
    file.finish(None)?;
    Ok(format!("wrote {named} anew, from the labels\n"))
}

/// The disks that are to be restored: those that are asked for, or else all that are missing. Nothing that is there is replaced.
fn targets(array: &Array, inventory: &Inventory, asked: Option<Disks>) -> Result<Disks, Failure> {
    let in_the_way = |disk: usize| {
        let why = inventory.fault(array, disk).unwrap_or("it is there".to_string());
        trouble("write", array.disk(disk).named(), format!("{why}; move it away to have it restored"))
    };
    match asked {
        None => match (0..array.code.disks).find(|&disk| inventory.fault(array, disk).is_some()) {
            Some(disk) => Err(in_the_way(disk)),
            None => Ok(inventory.missing()),
        },
        Some(asked) => {
            if asked.iter().any(|disk| disk >= array.code.disks as u64) {
                return Err(array.code.explain(Refusal::NoSuchDisk, &asked, None, 0));
            }
            let there = asked.iter().find(|&disk| inventory.disks[disk as usize] != Found::Missing);
            there.map_or(Ok(asked), |disk| Err(in_the_way(disk as usize)))
        }
    }
}

/// A plan that is made anew. Its lost disks are all that can't be read, its wanted symbols those of the disks that are to be restored.
fn plan_for(array: &Array, inventory: &Inventory, lost: &Disks, targets: &Disks) -> Result<Plan, Failure> {
    let wanted = match targets == lost {
        true => Wanted::All,
        false => Wanted::Symbols(Wanted::All.symbols(&array.code, targets)),
    };
    match checked_plan(&array.code, lost, &wanted, Choice::Usual)? {
        Ok((plan, _)) => Ok(plan),
        Err(stuck) => Err(beyond_help(array, inventory, &stuck, inventory.fault_lines(array))),
    }
}

/// A plan that is given, checked like any other. It may want less than whole disks, and then it is of no use.
fn given_plan(code: &Code, lost: &Disks, targets: &Disks, file: &Path) -> Result<Plan, Failure> {
    let plan = Plan::open(file)?;
    checked(code, lost, &plan)?;
    let (all, wanted) = (Wanted::All.symbols(code, targets), plan.wanted());
    let left_out: Vec<u64> = all.into_iter().filter(|&symbol| !wanted.has(symbol as usize)).collect();
    match left_out.is_empty() {
        true => Ok(plan),
        false => Err(trouble("use", file, format!("it doesn't bring {} back", places(code, &left_out)))),
    }
}

fn bytes_written(array: &Array, targets: &Disks) -> u64 {
    array.disk_length().saturating_mul(targets.count() as u64)
}

fn files(array: &Array, disks: &Disks) -> String {
    let files: Vec<String> = disks.iter().map(|disk| printable(array.disk(disk as usize).named())).collect();
    files.join(", ")
}

/// Makes the disks and gives them their names.
fn write(
    array: &Array,
    description: Option<&Held>,
    lost: &Disks,
    targets: &Disks,
    plan: &Plan,
) -> Result<String, Failure> {
    let began = Instant::now();
    let recovery = Recovery::open(array, lost, Some(plan), &[])?;
    let read = || recovery.survivors().held().chain(description);
    let begin = |disk: u64| {
        let model = Model::MadeOf(handles(read())?);
        Ok((disk as usize, Replacement::begin_new(array.disk(disk as usize), model)?))
    };
    let mut disks = targets.iter().map(begin).collect::<Result<Vec<_>, Failure>>()?;
    let progress = Progress::new(Some(array.stripes));
    Work { array, recovery: &recovery, disks: &disks, progress: &progress, next: AtomicU64::new(0) }.run()?;
    for (disk, file) in &mut disks {
        file.write_at(&array.label(*disk), array.disk_length())?;
        progress.flushing(array.name(*disk).to_string());
        file.complete()?;
    }
    for (_, file) in disks {
        file.finish(read())?;
    }
    drop(progress);
    let sources = plan.sources(&array.code, lost);
    let written = bytes_written(array, targets);
    let (all, seconds) = (bytes_read(array, &sources).saturating_add(written), began.elapsed().as_secs_f64());
    Ok(format!(
        "restored {}: {}\n  read {}\n  wrote {}, in {seconds:.2} s{}\n{}",
        targets.words(),
        files(array, targets),
        reading(array, &sources),
        counted(written, "byte"),
        rate(all, seconds),
        caution(array)
    ))
}

/// How fast bytes went, where that is worth a number.
fn rate(bytes: u64, seconds: f64) -> String {
    let rate = bytes as f64 / 1e6 / seconds.max(1e-9);
    match rate >= 0.5 {
        true => format!(": {rate:.0} MB/s"),
        false => String::new(),
    }
}

/// Blocks that several threads work on, each taking the next one.
struct Work<'a> {
    array: &'a Array,
    recovery: &'a Recovery<'a>,
    disks: &'a [(usize, Replacement)],
    progress: &'a Progress,
    next: AtomicU64,
}

impl Work<'_> {
    /// On as many threads as there are processors, blocks and room for.
    fn run(&self) -> Result<(), Failure> {
        let processors = thread::available_parallelism().map_or(1, usize::from);
        let blocks = usize::try_from(Blocks::of(self.array).count()).unwrap_or(usize::MAX);
        let others = processors.min(MEMORY / Room::needed(self.array)).min(blocks).max(1) - 1;
        thread::scope(|scope| {
            // A thread that the system refuses is done without.
            let spawn = |_| thread::Builder::new().spawn_scoped(scope, || self.take_blocks()).ok();
            let others: Vec<_> = (0..others).filter_map(spawn).collect();
            let own = self.take_blocks();
            let ended =
                others.into_iter().map(|other| other.join().unwrap_or_else(|panic| std::panic::resume_unwind(panic)));
            ended.fold(own, Result::and)
        })
    }

    /// Takes blocks until there are no more, or a thread has failed.
    fn take_blocks(&self) -> Result<(), Failure> {
        let (blocks, mut room) = (Blocks::of(self.array), Room::new());
        loop {
            let number = self.next.fetch_add(1, Ordering::Relaxed);
            if number >= blocks.count() {
                return Ok(());
            }
            let block = blocks.block(number);
            let done = self.recovery.block(block, &mut room).and_then(|()| self.write(block, &mut room));
            if done.is_err() {
                self.next.store(blocks.count(), Ordering::Relaxed);
                return done;
            }
            self.progress.advance(block.stripes as u64);
        }
    }

    /// Writes a block's part of each disk: its strips, stripe by stripe.
    fn write(&self, block: Block, room: &mut Room) -> Result<(), Failure> {
        let (rows, length) = (self.array.code.rows, self.array.symbol_length as usize);
        let strips = rows * block.stripes * length;
        for (disk, file) in self.disks {
            let place = block.first * self.array.strip_length();
            let gathered = &room.stripe[disk * strips..(disk + 1) * strips];
            if block.stripes == 1 {
                file.write_at(gathered, place)?;
                continue;
            }
            room.shelf.resize(strips, 0);
            for (piece, symbol) in room.shelf.chunks_exact_mut(length).enumerate() {
                let at = (piece % rows * block.stripes + piece / rows) * length;
                symbol.copy_from_slice(&gathered[at..at + length]);
            }
            file.write_at(&room.shelf, place)?;
        }
        Ok(())
    }
}
