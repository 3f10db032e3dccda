//! `split`, `status` and `join`: a file as an array of disks, how the array does, and the file again.
use crate::arguments::Arguments;
use crate::array::{Array, NO_LABELS};
use crate::birth::Birth;
use crate::commands::all_but;
use crate::disks::Disks;
use crate::failure::{printable, Failure};
use crate::files::{Held, Purpose};
use crate::folders::NewFolder;
use crate::gather::Blocks;
use crate::inventory::{way_out, Found, Inventory};
use crate::lists::rising;
use crate::output::Output;
use crate::place::Place;
use crate::planning::{checked_plan, Choice};
use crate::progress::Progress;
use crate::recovery::{reading, Recovery, Room};
use crate::replacement::{handles, Model, Replacement};
use crate::rescue::beyond_help;
use crate::sheets::{counted, Code};
use crate::stream::{End, Pieces, Stream};
use crate::wanted::Wanted;
use navorzim::Refusal;
use std::path::Path;

pub fn split(arguments: &mut Arguments) -> Result<String, Failure> {
    let (code, data) = (arguments.source("CODE")?, arguments.source("DATA")?);
    let (symbol_length, folder) = (arguments.symbol_length()?, arguments.folder()?);
    arguments.finish()?;
    let code = Code::open(&code)?;
    // Before anything is written: an array that can't be joined again is of no use.
    code.homes(&Disks::NONE)?;
    let explain = |refusal| code.explain(refusal, &Disks::NONE, None, symbol_length);
    all_but(navorzim::encode(&code.sheet, symbol_length, &[], &mut []), Refusal::DataLength).map_err(explain)?;
    let stream = Stream::open(&data, Pieces::data(&code, symbol_length), End::Anywhere, Purpose::Read)?;
    let array = write(stream, &folder, code, symbol_length)?;
    Ok(format!(
        "wrote {}: {} of {}, and `array`, which describes them\n  {}\n",
        printable(&folder),
        counted(array.code.disks, "disk"),
        counted(array.disk_length(), "byte"),
        contents(&array)
    ))
}

/// Writes an array's disks, and when they are complete its description, with the length that the data turn out to have.
fn write(mut stream: Stream, path: &Path, code: Code, symbol_length: u64) -> Result<Array, Failure> {
    let birth = Birth::draw()?;
    let folder = NewFolder::make(path)?;
    let array = Array::new(folder.open(), birth.clone(), code, symbol_length, 0);
    let begin = |place: Place| Replacement::begin_new(place, Model::New(handles(stream.input().held())?));
    let mut disks = (0..array.code.disks).map(|disk| begin(array.disk(disk))).collect::<Result<Vec<_>, Failure>>()?;
    let mut description = begin(array.description())?;
    let code = &array.code;
    let mut piece = vec![0; Pieces::data(code, symbol_length).length()];
    let mut stripe = vec![0; Pieces::stripes(code, symbol_length).length()];
    let progress = Progress::new(stream.count());
    while stream.next(&mut piece)? {
        navorzim::encode(&code.sheet, symbol_length, &piece, &mut stripe)
            .map_err(|refusal| code.explain(refusal, &Disks::NONE, None, symbol_length))?;
        for (disk, strip) in disks.iter_mut().zip(stripe.chunks_exact(array.strip_length() as usize)) {
            disk.write(strip)?;
        }
        progress.advance(1);
    }
    let length = stream.input().taken();
    let array = Array::new(folder.open(), birth, array.code, symbol_length, length);
    for (disk, file) in disks.iter_mut().enumerate() {
        progress.flushing(array.name(disk).to_string());
        file.write(&array.label(disk))?;
        file.complete()?;
    }
    description.write(array.text().as_bytes())?;
    for file in disks.into_iter().chain([description]) {
        file.finish(stream.input().held())?;
    }
    folder.keep()?;
    Ok(array)
}

/// How much an array holds.
fn contents(array: &Array) -> String {
    format!(
        "{} of data in {}, symbols of {} (L)",
        counted(array.length, "byte"),
        counted(array.stripes, "stripe"),
        counted(array.symbol_length, "byte")
    )
}

/// What must be known of an array of version 1, as a line.
pub fn caution(array: &Array) -> String {
    match array.birth {
        Some(_) => String::new(),
        None => format!("  {NO_LABELS}\n"),
    }
}

pub fn status(arguments: &mut Arguments) -> Result<String, Failure> {
    let (folder, links, without) = (arguments.file("ARRAY")?, arguments.links(), arguments.without()?);
    let read = arguments.flag("--read");
    arguments.finish()?;
    let (array, description) = Array::open(&folder, links)?;
    let mut inventory = Inventory::take(&array, &without)?;
    if read {
        inventory.read_all(&array)?;
    }
    let mut text = format!("{}: {}\n  {}\n", printable(&folder), array.code.title(), contents(&array));
    text.push_str(&listing(&array, &inventory, description.is_some()));
    let lost = inventory.lost();
    if lost.count() == 0 {
        let read = if read { ", and every byte can be read" } else { "" };
        text.push_str(&format!("all {} are there{read}\n", counted(array.code.disks, "disk")));
        return if description.is_some() { Ok(text) } else { Err(Failure::Missing { text }) };
    }
    judged(&array, &inventory, &lost, text)
}

/// What is there and what isn't, a line each.
fn listing(array: &Array, inventory: &Inventory, described: bool) -> String {
    let mut text = caution(array);
    for disk in 0..array.code.disks {
        text.push_str(&disk_line(array, inventory, disk));
    }
    if !described {
        text.push_str("  array: missing; the labels have it, and restore writes it anew\n");
    }
    for extra in inventory.extra_words() {
        text.push_str(&format!("  {extra}\n"));
    }
    text
}

/// Whether lost disks can be rebuilt: how `status` ends where there are some.
fn judged(array: &Array, inventory: &Inventory, lost: &Disks, mut text: String) -> Result<String, Failure> {
    let plan = match checked_plan(&array.code, lost, &Wanted::All, Choice::Usual)? {
        Ok((plan, _)) => plan,
        Err(stuck) => return Err(beyond_help(array, inventory, &stuck, text)),
    };
    let reading = reading(array, &plan.sources(&array.code, lost));
    text.push_str(&format!("{} can be rebuilt: reads {reading}\n", lost.words()));
    match (0..array.code.disks).find_map(|disk| Some((disk, inventory.fault(array, disk)?))) {
        None => Err(Failure::Missing { text }),
        Some((disk, fault)) => {
            let what = format!("{}: {fault}; move it away to have it restored", printable(array.disk(disk).named()));
            Err(Failure::InTheWay { text, what })
        }
    }
}

/// A disk: its number, what it is for if that is known, its file and how that was found.
fn disk_line(array: &Array, inventory: &Inventory, disk: usize) -> String {
    let role = array.code.role(disk).unwrap_or("");
    let found = match &inventory.disks[disk] {
        Found::There => counted(array.disk_length(), "byte"),
        Found::Missing => "missing".to_string(),
        Found::SetAside => "there, and done without".to_string(),
        Found::Unreadable(place, why) => format!("can't be read at byte {place}: {why}; {}", way_out(disk)),
        Found::Length(_) | Found::SameAs(_) | Found::Stranger(_) | Found::Unfit(_) => {
            inventory.fault(array, disk).unwrap_or_default()
        }
    };
    format!("  disk {disk:<3} {role:<4}  {}  {found}\n", array.name(disk))
}

pub fn join(arguments: &mut Arguments) -> Result<String, Failure> {
    let (folder, output, links) = (arguments.file("ARRAY")?, arguments.output()?, arguments.links());
    let without = arguments.without()?;
    arguments.finish()?;
    let (array, description) = Array::open(&folder, links)?;
    let inventory = Inventory::take(&array, &without)?;
    array.keep_apart(&output)?;
    let lost = inventory.lost();
    let homes = array.code.homes(&lost)?;
    let is_lost = |&home: &usize| lost.has(array.code.disk_of(home));
    let (wanted, there): (Vec<usize>, Vec<usize>) = homes.iter().partition(|home| is_lost(home));
    let plan = match wanted.is_empty() {
        true => None,
        false => {
            let wanted = Wanted::Symbols(rising(wanted.iter().map(|&home| home as u64)));
            let plan = checked_plan(&array.code, &lost, &wanted, Choice::Usual)?;
            let stuck = |stuck| beyond_help(&array, &inventory, &stuck, inventory.fault_lines(&array));
            Some(plan.map_err(stuck)?.0)
        }
    };
    let recovery = Recovery::open(&array, &lost, plan.as_ref(), &there)?;
    let made_of: Vec<&Held> = recovery.survivors().held().chain(&description).collect();
    let mut file = Output::begin(&output, &[], &made_of)?;
    let progress = Progress::new(Some(array.stripes));
    write_data(&array, &recovery, &homes, &mut file, &progress)?;
    progress.flushing("it".to_string());
    file.finish(made_of)?;
    let rebuilt = match plan {
        None => String::new(),
        Some(_) => format!(", with {} rebuilt on the way", lost.words()),
    };
    let mut text = format!("wrote {}: {}{rebuilt}\n", printable(&output), counted(array.length, "byte"));
    text.push_str(&caution(&array));
    text.push_str(&inventory.fault_lines(&array));
    Ok(text)
}

/// Writes the data, stripe by stripe and in each symbol by symbol, as far as they go.
fn write_data(
    array: &Array,
    recovery: &Recovery,
    homes: &[usize],
    file: &mut Output,
    progress: &Progress,
) -> Result<(), Failure> {
    let (blocks, length) = (Blocks::of(array), array.symbol_length as usize);
    let (mut room, mut left) = (Room::new(), array.length);
    for number in 0..blocks.count() {
        let block = blocks.block(number);
        recovery.block(block, &mut room)?;
        for (nth, home) in (0..block.stripes).flat_map(|nth| homes.iter().map(move |home| (nth, home))) {
            let at = (home * block.stripes + nth) * length;
            let symbol = &room.stripe[at..at + length.min(usize::try_from(left).unwrap_or(usize::MAX))];
            file.write(symbol)?;
            left -= symbol.len() as u64;
        }
        progress.advance(block.stripes as u64);
    }
    Ok(())
}
