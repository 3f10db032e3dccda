//! The rules once more, in plain Rust and by other means than the proved library: rows are lists of truth values, a lost place is a
//! value that may be missing, a good list is found among all disks or all lost symbols from front to back, encoding scatters each data
//! symbol, how much of the wanted symbols is gone is a question of ranks, survivors are tested by data that give some of them, the
//! fewest reads are found by trying every set of survivors, and what reads cost is worked out on whole numbers.
#![allow(dead_code)]
use std::cmp::Ordering;
use std::collections::HashSet;

pub mod prices;
pub mod random;

/// A refusal's number and place.
pub type No = (u64, u64);

/// An answer of the library as the model gives it.
pub fn told<T>(answer: Result<T, navorzim::Refusal>) -> Result<T, No> {
    answer.map_err(|refusal| (refusal.number(), refusal.place()))
}

/// One symbol's row: which data symbols it is the XOR of.
pub type Row = Vec<bool>;

#[derive(Clone, Debug)]
pub struct Code {
    pub disks: usize,
    pub height: usize,
    pub data: usize,
    pub rows: Vec<Row>,
}

impl Code {
    pub fn symbols(&self) -> usize {
        self.rows.len()
    }

    /// The symbols of a disk.
    pub fn strip(&self, disk: usize) -> std::ops::Range<usize> {
        disk * self.height..(disk + 1) * self.height
    }

    /// The symbols of some disks, rising.
    pub fn strips(&self, disks: &[u8]) -> Vec<usize> {
        (0..self.disks)
            .filter(|disk| disks.iter().any(|&d| d as usize == *disk))
            .flat_map(|disk| self.strip(disk))
            .collect()
    }

    /// The symbols that survive when these disks are lost, rising.
    pub fn survivors(&self, disks: &[u8]) -> Vec<usize> {
        let lost = self.strips(disks);
        (0..self.symbols()).filter(|s| !lost.contains(s)).collect()
    }

    /// The code's sheet.
    pub fn sheet(&self) -> Vec<u8> {
        let mut sheet = vec![4, 1, self.disks as u8, self.height as u8, self.data as u8, self.symbols() as u8];
        for row in &self.rows {
            let mut bytes = [0u8; 8];
            for (bit, _) in row.iter().enumerate().filter(|(_, &set)| set) {
                bytes[bit / 8] |= 1 << (bit % 8);
            }
            sheet.extend(bytes);
        }
        sheet
    }
}

/// Under 6 bytes (1), first count (3), 4, 5, second count (3), 1, 2, 6.
pub fn read_code(sheet: &[u8]) -> Result<Code, No> {
    let [count, edition, disks, height, data, symbols, rest @ ..] = sheet else { return Err((1, 0)) };
    let (n, r, k) = (*disks as usize, *height as usize, *data as usize);
    let within = (2..=64).contains(&n) && (1..=32).contains(&r) && (1..=64).contains(&k) && n * r <= 64;
    match () {
        _ if *count != 4 => Err((3, 0)),
        _ if *edition != 1 => Err((4, 0)),
        _ if !within => Err((5, 0)),
        _ if *symbols as usize != n * r => Err((3, 0)),
        _ if rest.len() < 8 * n * r => Err((1, 0)),
        _ if rest.len() > 8 * n * r => Err((2, 0)),
        _ => {
            let bits: Vec<Row> =
                rest.chunks(8).map(|row| (0..64).map(|bit| row[bit / 8] & 1 << (bit % 8) != 0).collect()).collect();
            for (row, bits) in bits.iter().enumerate() {
                if let Some(stray) = bits[k..].iter().position(|&set| set) {
                    return Err((6, (row * 64 + k + stray) as u64));
                }
            }
            let rows = bits.into_iter().map(|row| row[..k].to_vec()).collect();
            Ok(Code { disks: n, height: r, data: k, rows })
        }
    }
}

/// Families, as sets of places: data disk c, row j is the place (c, j).
pub fn family(name: &str, a: u64, b: u64) -> Result<Vec<u8>, No> {
    let (data_disks, height, parities) = match name {
        "single parity" => {
            // Checked in wide numbers: a and b may be anything.
            let (k, r) = (a as u128, b as u128);
            if k < 1 || r < 1 || k + 1 > 64 || r > 32 || (k + 1) * r > 64 {
                return Err((36, 0));
            }
            (a as usize, b as usize, 1)
        }
        "liberation" if matches!(a, 3 | 5 | 7) && (2..=a).contains(&b) => (b as usize, a as usize, 2),
        "row-diagonal" if matches!(a, 3 | 5 | 7) => (a as usize - 1, a as usize - 1, 2),
        "evenodd" if matches!(a, 3 | 5 | 7) => (a as usize, a as usize - 1, 2),
        _ => return Err((36, 0)),
    };
    let mut places: Vec<HashSet<(usize, usize)>> = Vec::new();
    for c in 0..data_disks {
        places.extend((0..height).map(|j| HashSet::from([(c, j)])));
    }
    places.extend((0..height).map(|i| (0..data_disks).map(|c| (c, i)).collect()));
    if parities == 2 {
        places.extend((0..height).map(|i| diagonal(name, data_disks, height, i)));
    }
    let data = data_disks * height;
    let rows: Vec<Row> =
        places.iter().map(|set| (0..data).map(|t| set.contains(&(t / height, t % height))).collect()).collect();
    Ok(Code { disks: data_disks + parities, height, data, rows }.sheet())
}

/// Row i of the second parity disk.
fn diagonal(name: &str, data_disks: usize, height: usize, i: usize) -> HashSet<(usize, usize)> {
    let mut q = HashSet::new();
    for c in 0..data_disks {
        if name == "liberation" {
            let w = height;
            q.insert((c, (i + c) % w));
            if c > 0 && (c * (w - 1) / 2) % w == i {
                q.insert((c, (i + c - 1) % w));
            }
        } else {
            let p = height + 1;
            q.extend((0..height).filter(|j| (j + c) % p == i % p).map(|j| (c, j)));
        }
    }
    // EVENODD's S: row p - 1 - c of each disk c from 1 on. No term of it lies on the diagonal.
    if name == "evenodd" {
        q.extend((1..data_disks).map(|c| (c, height - c)));
    }
    // Row-diagonal's disk p - 1 is P. The row of it on diagonal i is row i + 1, if P has it, and that is this row of every data disk.
    if name == "row-diagonal" && i + 1 < height {
        q.extend((0..data_disks).map(|c| (c, i + 1)));
    }
    q
}

/// The sheet of row-diagonal as it was before its rule was corrected: P left out of the diagonals.
pub fn old_row_diagonal(p: u64) -> Vec<u8> {
    let mut code = read_code(&family("row-diagonal", p, 0).expect("listed")).expect("a code");
    let (height, first) = (code.height, code.symbols() - code.height);
    for i in 0..height {
        for t in 0..code.data {
            code.rows[first + i][t] = (t % height + t / height) % (height + 1) == i;
        }
    }
    code.sheet()
}

fn symbol_length(size: u64) -> Result<usize, No> {
    if (1..=65536).contains(&size) {
        Ok(size as usize)
    } else {
        Err((31, 0))
    }
}

/// Each data symbol scattered over the symbols that take it.
pub fn scatter(code: &Code, size: usize, data: &[u8]) -> Vec<u8> {
    let mut stripe = vec![0; code.symbols() * size];
    for (t, symbol) in data.chunks(size).enumerate() {
        for s in (0..code.symbols()).filter(|&s| code.rows[s][t]) {
            for (to, from) in stripe[s * size..].iter_mut().zip(symbol) {
                *to ^= from;
            }
        }
    }
    stripe
}

/// Code sheet, 31, 33, 32; then the whole stripe.
pub fn encode(sheet: &[u8], size: u64, data: &[u8], stripe_length: usize) -> Result<Vec<u8>, No> {
    let code = read_code(sheet)?;
    let size = symbol_length(size)?;
    if data.len() != code.data * size {
        return Err((33, 0));
    }
    if stripe_length != code.symbols() * size {
        return Err((32, 0));
    }
    Ok(scatter(&code, size, data))
}

/// A plan sheet that is whole: what it wants, how many symbols it says it reads, its steps, and whether refusals name a wanted symbol by
/// its number (edition 3) or by its row of the disk.
pub struct Plan {
    pub wanted: Vec<usize>,
    pub reads: usize,
    pub steps: Vec<[u8; 3]>,
    by_number: bool,
}

/// The first entry of a list that isn't found in what there is, which rises, after the entry before it.
fn not_found(list: &[u8], there: impl IntoIterator<Item = usize>) -> Option<u64> {
    let mut there = there.into_iter();
    list.iter().position(|&entry| !there.any(|number| number == entry as usize)).map(|position| position as u64)
}

/// A list of wanted symbols, 23, of at least so many entries. Those of an empty one, if that may be, are all lost symbols.
pub fn wanted_list(code: &Code, disks: &[u8], list: &[u8], least: usize) -> Result<Vec<usize>, No> {
    let lost = code.strips(disks);
    if list.len() < least || list.len() > lost.len() {
        return Err((23, 0));
    }
    match not_found(list, lost.clone()) {
        Some(position) => Err((23, position)),
        None if list.is_empty() => Ok(lost),
        None => Ok(list.iter().map(|&entry| entry as usize).collect()),
    }
}

/// A list of failed disks: 7 over all of it, then 24.
pub fn disk_list(code: &Code, list: &[u8]) -> Result<(), No> {
    if list.iter().any(|&disk| disk as usize >= code.disks) {
        return Err((7, 0));
    }
    if list.is_empty() || list.len() > code.disks {
        return Err((24, 0));
    }
    not_found(list, 0..code.disks).map_or(Ok(()), |position| Err((24, position)))
}

/// A list after its count, and what follows; none if the sheet ends before.
fn counted_list(bytes: &[u8]) -> Option<(&[u8], &[u8])> {
    let (count, rest) = bytes.split_first()?;
    (rest.len() >= *count as usize).then(|| rest.split_at(*count as usize))
}

/// A plan sheet for failed disks, a list that is known to be good. Under 9 bytes (11), 13, 14, 15; then by its edition.
pub fn read_plan(code: &Code, disks: &[u8], plan: &[u8]) -> Result<Plan, No> {
    let [count, edition, n, r, k, rest @ ..] = plan else { return Err((11, 0)) };
    match () {
        _ if plan.len() < 9 => return Err((11, 0)),
        _ if !matches!(count, 5 | 6) => return Err((13, 0)),
        _ if !matches!((count, edition), (6, 1) | (6, 2) | (5, 3)) => return Err((14, 0)),
        _ if [*n, *r, *k].map(usize::from) != [code.disks, code.height, code.data] => return Err((15, 0)),
        _ => {}
    }
    match edition {
        3 => plan_for_a_list(code, disks, rest),
        _ => plan_for_one(code, disks, *edition == 2, rest),
    }
}

/// Editions 1 and 2 from the failed disk on: 16; for a list 11 if the sheet ends before the step count does; step limit, 23, 11, 12.
fn plan_for_one(code: &Code, disks: &[u8], listed: bool, rest: &[u8]) -> Result<Plan, No> {
    let (failed, reads, rest) = (&rest[..1], rest[1], &rest[2..]);
    if failed != disks {
        return Err((16, 0));
    }
    let (list, rest) = if listed { counted_list(rest).ok_or((11, 0))? } else { (&[][..], rest) };
    let steps = step_count(rest)?;
    let wanted = wanted_list(code, disks, list, listed as usize)?;
    Ok(Plan { wanted, reads: reads as usize, steps: steps_of(&rest[2..], steps)?, by_number: false })
}

/// Edition 3 from the read count on: 11 if the sheet ends before the step count does, step limit, 7 and 24 for the listed disks, 16, 23, 11,
/// 12.
fn plan_for_a_list(code: &Code, disks: &[u8], rest: &[u8]) -> Result<Plan, No> {
    let (reads, rest) = (rest[0], &rest[1..]);
    let (failed, rest) = counted_list(rest).ok_or((11, 0))?;
    let (list, rest) = counted_list(rest).ok_or((11, 0))?;
    let steps = step_count(rest)?;
    disk_list(code, failed)?;
    if failed != disks {
        return Err((16, 0));
    }
    let wanted = wanted_list(code, disks, list, 0)?;
    Ok(Plan { wanted, reads: reads as usize, steps: steps_of(&rest[2..], steps)?, by_number: true })
}

/// 11 if it isn't there, 13 if it is above the limit.
fn step_count(rest: &[u8]) -> Result<usize, No> {
    match rest {
        [low, high, ..] if *low as usize + 256 * *high as usize <= 1024 => Ok(*low as usize + 256 * *high as usize),
        [_, _, ..] => Err((13, 0)),
        _ => Err((11, 0)),
    }
}

/// So many steps and nothing else: 11, 12.
fn steps_of(rest: &[u8], steps: usize) -> Result<Vec<[u8; 3]>, No> {
    match rest.len().cmp(&(3 * steps)) {
        Ordering::Less => Err((11, 0)),
        Ordering::Greater => Err((12, 0)),
        Ordering::Equal => Ok(rest.chunks(3).map(|step| [step[0], step[1], step[2]]).collect()),
    }
}

/// What the steps make of the rows, and the survivors that they read: 17, 18, 25, 19. Lost places are missing until a step fills them.
fn run(code: &Code, disks: &[u8], plan: &Plan) -> Result<(Vec<Option<Row>>, HashSet<usize>), No> {
    let lost = code.strips(disks);
    let row = |s: usize| (!lost.contains(&s)).then(|| code.rows[s].clone());
    let mut held: Vec<Option<Row>> = (0..code.symbols()).map(row).collect();
    let mut read = HashSet::new();
    for (number, &[kind, target, source]) in plan.steps.iter().enumerate() {
        let place = number as u64;
        let (target, source) = (target as usize, source as usize);
        if kind > 2 || target >= code.symbols() || source >= code.symbols() || (kind == 0 && source != 0) {
            return Err((17, place));
        }
        if !plan.wanted.contains(&target) {
            return Err((18, place));
        }
        if kind != 0 && target == source {
            return Err((25, place));
        }
        let result = match kind {
            0 => Some(vec![false; code.data]),
            1 => held[source].clone(),
            _ => match (&held[target], &held[source]) {
                (Some(a), Some(b)) => Some(a.iter().zip(b).map(|(x, y)| x != y).collect()),
                _ => None,
            },
        };
        if result.is_none() {
            return Err((19, place));
        }
        if kind != 0 && !lost.contains(&source) {
            read.insert(source);
        }
        held[target] = result;
    }
    Ok((held, read))
}

/// A code and a disk of it: the code sheet's refusals, 7.
pub fn read_code_with(sheet: &[u8], disk: u64) -> Result<(Code, usize), No> {
    let code = read_code(sheet)?;
    if disk >= code.disks as u64 {
        return Err((7, 0));
    }
    Ok((code, disk as usize))
}

/// A disk as the list of it, 7 where no array has such a disk: what the calls of one disk mean.
fn as_list(sheet: &[u8], disk: u64) -> Result<[u8; 1], No> {
    let (_, disk) = read_code_with(sheet, disk)?;
    Ok([disk as u8])
}

pub fn check(sheet: &[u8], disk: u64, plan: &[u8]) -> Result<u64, No> {
    check_disks(sheet, &as_list(sheet, disk)?, plan)
}

/// A plan, judged for failed disks: code sheet, 7, 24; its sheet, its steps, then 20 and 21 over the wanted symbols, 22.
pub fn check_disks(sheet: &[u8], disks: &[u8], plan: &[u8]) -> Result<u64, No> {
    let code = read_code(sheet)?;
    disk_list(&code, disks)?;
    let plan = read_plan(&code, disks, plan)?;
    let (held, read) = run(&code, disks, &plan)?;
    let name = |s: usize| if plan.by_number { s as u64 } else { (s % code.height) as u64 };
    if let Some(&s) = plan.wanted.iter().find(|&&s| held[s].is_none()) {
        return Err((20, name(s)));
    }
    for &s in &plan.wanted {
        let made = held[s].as_ref().expect("filled");
        if let Some(off) = (0..code.data).find(|&t| made[t] != code.rows[s][t]) {
            return Err((21, name(s) * 64 + off as u64));
        }
    }
    if plan.reads != read.len() {
        return Err((22, read.len() as u64));
    }
    Ok(read.len() as u64)
}

pub fn rebuild(sheet: &[u8], disk: u64, plan: &[u8], size: u64, stripe: &[u8]) -> Result<Vec<u8>, No> {
    rebuild_disks(sheet, &as_list(sheet, disk)?, plan, size, stripe)
}

/// The check, 31, 32; then the steps on the stripe's symbols, one vector each.
pub fn rebuild_disks(sheet: &[u8], disks: &[u8], plan: &[u8], size: u64, stripe: &[u8]) -> Result<Vec<u8>, No> {
    check_disks(sheet, disks, plan)?;
    let code = read_code(sheet)?;
    let plan = read_plan(&code, disks, plan)?;
    let size = symbol_length(size)?;
    if stripe.len() != code.symbols() * size {
        return Err((32, 0));
    }
    let mut symbols: Vec<Vec<u8>> = stripe.chunks(size).map(<[u8]>::to_vec).collect();
    for [kind, target, source] in plan.steps {
        let source = symbols[source as usize].clone();
        let target = &mut symbols[target as usize];
        *target = match kind {
            0 => vec![0; size],
            1 => source,
            _ => target.iter().zip(&source).map(|(a, b)| a ^ b).collect(),
        };
    }
    Ok(symbols.concat())
}

/// The rank of rows, by echelon form.
pub fn rank(rows: &[Row]) -> usize {
    let mut rows: Vec<Row> = rows.to_vec();
    let width = rows.first().map_or(0, Vec::len);
    let mut done = 0;
    for column in 0..width {
        let Some(found) = (done..rows.len()).find(|&i| rows[i][column]) else { continue };
        rows.swap(done, found);
        let pivot = rows[done].clone();
        for (i, row) in rows.iter_mut().enumerate() {
            if i != done && row[column] {
                for (a, b) in row.iter_mut().zip(&pivot) {
                    *a ^= b;
                }
            }
        }
        done += 1;
    }
    done
}

/// How much is gone of symbols of lost disks: what their rows add to the rank of the survivors'.
pub fn gone(code: &Code, disks: &[u8], wanted: &[usize]) -> usize {
    let mut rows: Vec<Row> = code.survivors(disks).into_iter().map(|s| code.rows[s].clone()).collect();
    let surviving = rank(&rows);
    rows.extend(wanted.iter().map(|&s| code.rows[s].clone()));
    rank(&rows) - surviving
}

/// Whether symbols of lost disks can be rebuilt.
pub fn can_be_rebuilt(code: &Code, disks: &[u8], wanted: &[usize]) -> bool {
    gone(code, disks, wanted) == 0
}

/// What planning is asked about.
#[derive(Clone, Copy, Debug)]
pub enum Asked<'a> {
    Disk(u64),
    Wanted(u64, &'a [u8]),
    Disks(&'a [u8], &'a [u8]),
}

/// What planning must refuse; otherwise the code, the lost disks and the wanted symbols.
pub fn plan_refusal(sheet: &[u8], asked: Asked, buffer_length: usize) -> Result<(Code, Vec<u8>, Vec<usize>), No> {
    let code = read_code(sheet)?;
    let (disks, wanted, room) = match asked {
        Asked::Disk(disk) => {
            let disks = as_list(sheet, disk)?;
            (disks.to_vec(), code.strips(&disks), 3081)
        }
        Asked::Wanted(disk, list) => {
            let disks = as_list(sheet, disk)?;
            (disks.to_vec(), wanted_list(&code, &disks, list, 1)?, 3114)
        }
        Asked::Disks(disks, list) => {
            disk_list(&code, disks)?;
            (disks.to_vec(), wanted_list(&code, disks, list, 0)?, 3210)
        }
    };
    if buffer_length < room {
        return Err((34, 0));
    }
    Ok((code, disks, wanted))
}

/// A sheet's bytes up to its step count: of edition 1, of edition 2 with a list, or of edition 3 with two.
pub fn head(code: &Code, asked: Asked, reads: u8) -> Vec<u8> {
    let [n, r, k] = [code.disks as u8, code.height as u8, code.data as u8];
    match asked {
        Asked::Disk(disk) => vec![6, 1, n, r, k, disk as u8, reads],
        Asked::Wanted(disk, list) => [&[6, 2, n, r, k, disk as u8, reads, list.len() as u8], list].concat(),
        Asked::Disks(disks, list) => {
            [&[5, 3, n, r, k, reads, disks.len() as u8], disks, &[list.len() as u8], list].concat()
        }
    }
}

/// Lost symbols times survivors; if nothing survives, at most one clear a wanted symbol.
pub fn steps_within_the_bound(code: &Code, disks: &[u8], plan: &Plan) {
    let lost = code.strips(disks).len();
    if lost == code.symbols() {
        assert!(
            plan.steps.len() <= plan.wanted.len() && plan.steps.iter().all(|step| step[0] == 0),
            "{:?}",
            plan.steps
        );
    } else {
        assert!(plan.steps.len() <= lost * (code.symbols() - lost), "{} steps", plan.steps.len());
    }
}

/// A plan for lost disks, run by the library on a stripe whose lost strips are ruined: the wanted symbols come back, and no other byte
/// changes.
pub fn rebuilds(random: &mut random::Random, code: &Code, lost: &[u8], wanted: &[usize], plan: &[u8]) {
    let size = 1 + random.below(3);
    let whole = scatter(code, size, &random.bytes(code.data * size));
    let (mut stripe, mut expected) = (whole.clone(), whole.clone());
    for s in code.strips(lost) {
        let ruin = random.bytes(size);
        stripe[s * size..(s + 1) * size].copy_from_slice(&ruin);
        if !wanted.contains(&s) {
            expected[s * size..(s + 1) * size].copy_from_slice(&ruin);
        }
    }
    let answer = told(navorzim::rebuild_disks(&code.sheet(), lost, plan, size as u64, &mut stripe));
    assert_eq!((answer, stripe), (Ok(()), expected), "{code:?} {lost:?} {plan:?}");
}

/// What planning with the fewest reads must refuse: what planning for a list of disks does, then 41 at the number of survivors. Otherwise
/// the code and the wanted symbols.
pub fn fewest_refusal(sheet: &[u8], disks: &[u8], list: &[u8], buffer_length: usize) -> Result<(Code, Vec<usize>), No> {
    let (code, _, wanted) = plan_refusal(sheet, Asked::Disks(disks, list), buffer_length)?;
    match code.survivors(disks).len() {
        0..=16 => Ok((code, wanted)),
        survivors => Err((41, survivors as u64)),
    }
}

/// What a set of at most 16 rows spans, a row as a number: entry i is what row i adds to the rows after it, or 0.
type Span = [u64; 16];

/// What is left of a row; nothing if it lies in the span. The highest bit of each entry is in no entry before it.
fn rest(span: &Span, row: u64) -> u64 {
    span.iter().rev().fold(row, |rest, added| rest.min(rest ^ added))
}

/// The fewest survivors, of at most 16, that are enough for the wanted symbols: every set of survivors is tried, whether the wanted rows
/// lie in the span of its own. None if all of them aren't enough.
pub fn fewest(code: &Code, disks: &[u8], wanted: &[usize]) -> Option<u64> {
    if !can_be_rebuilt(code, disks, wanted) {
        return None;
    }
    let number = |s: &usize| code.rows[*s].iter().rev().fold(0, |row, &set| row << 1 | u64::from(set));
    let survivors: Vec<u64> = code.survivors(disks).iter().map(number).collect();
    let wanted: Vec<u64> = wanted.iter().map(number).collect();
    let mut spans = vec![Span::default()];
    for set in 1usize..1 << survivors.len() {
        let lowest = set.trailing_zeros() as usize;
        let mut span = spans[set & (set - 1)];
        span[lowest] = rest(&span, survivors[lowest]);
        spans.push(span);
    }
    let enough = |span: &Span| wanted.iter().all(|&row| rest(span, row) == 0);
    (0u64..).zip(&spans).filter(|(_, span)| enough(span)).map(|(set, _)| set.count_ones().into()).min()
}

/// The same by trying plans of every length, where there are few data symbols and few wanted ones: of each set of survivors, whether steps
/// that read no other lead to the wanted rows.
pub fn fewest_by_plans(code: &Code, disks: &[u8], wanted: &[usize]) -> Option<u64> {
    let survivors = code.survivors(disks);
    let sets = (0..1u32 << survivors.len()).map(|set| -> Vec<usize> {
        (0..survivors.len()).filter(|i| set >> i & 1 == 1).map(|i| survivors[i]).collect()
    });
    sets.filter(|read| steps_lead_there(code, read, wanted)).map(|read| read.len() as u64).min()
}

/// Whether some steps that read these survivors bring the wanted rows back: all that the wanted places can hold is reached step by step.
fn steps_lead_there(code: &Code, read: &[usize], wanted: &[usize]) -> bool {
    let right: Vec<Option<Row>> = wanted.iter().map(|&s| Some(code.rows[s].clone())).collect();
    let mut reached = HashSet::from([vec![None; wanted.len()]]);
    let mut left: Vec<Vec<Option<Row>>> = reached.iter().cloned().collect();
    while let Some(held) = left.pop() {
        for (target, next) in (0..wanted.len()).flat_map(|t| steps_at(code, read, &held, t).map(move |row| (t, row))) {
            let mut after = held.clone();
            after[target] = Some(next);
            if reached.insert(after.clone()) {
                left.push(after);
            }
        }
    }
    reached.contains(&right)
}

/// What one step can make of a place: a clear, a copy or an add of a survivor that is read or of another place that is filled.
fn steps_at<'a>(
    code: &'a Code,
    read: &'a [usize],
    held: &'a [Option<Row>],
    target: usize,
) -> impl Iterator<Item = Row> + 'a {
    let others = held.iter().enumerate().filter(move |(other, _)| *other != target).filter_map(|(_, row)| row.as_ref());
    let sources = read.iter().map(|&s| &code.rows[s]).chain(others);
    let results = sources.flat_map(move |source| {
        let add = |row: &Row| row.iter().zip(source).map(|(a, b)| a != b).collect();
        [Some(source.clone()), held[target].as_ref().map(add)].into_iter().flatten()
    });
    results.chain([vec![false; code.data]])
}

/// The stripe of a pattern: data symbol t is 01 bytes where bit t is set, zero elsewhere. None if it has a bit at K or above.
fn pattern_stripe(code: &Code, pattern: u128, size: usize) -> Option<Vec<u8>> {
    let data: Vec<u8> = (0..128).flat_map(|t| vec![(pattern >> t & 1) as u8; size]).collect();
    let (data, beyond) = data.split_at(code.data * size);
    beyond.iter().all(|&byte| byte == 0).then(|| scatter(code, size, data))
}

/// Whether a stripe is zero in each of some symbols.
fn zero_in(stripe: &[u8], size: usize, mut symbols: impl Iterator<Item = usize>) -> bool {
    symbols.all(|s| stripe[s * size..(s + 1) * size].iter().all(|&byte| byte == 0))
}

/// Whether a pattern is good: K bits, its stripe zero on every survivor and not zero in a wanted symbol.
pub fn good_pattern(code: &Code, disks: &[u8], wanted: &[usize], pattern: impl Into<u128>, size: usize) -> bool {
    let Some(stripe) = pattern_stripe(code, pattern.into(), size) else { return false };
    zero_in(&stripe, size, code.survivors(disks).into_iter()) && !zero_in(&stripe, size, wanted.iter().copied())
}

/// What a pattern's stripe shows on each wanted symbol.
fn image(code: &Code, wanted: &[usize], pattern: u128) -> Row {
    let stripe = pattern_stripe(code, pattern, 1).expect("K bits");
    wanted.iter().map(|&s| stripe[s] != 0).collect()
}

/// Whether patterns say what is gone: as many as are gone, each a good one, and their images on the wanted symbols independent.
pub fn tell_what_is_gone(code: &Code, disks: &[u8], wanted: &[usize], patterns: &[u128], size: usize) -> bool {
    patterns.len() == gone(code, disks, wanted)
        && patterns.iter().all(|&pattern| good_pattern(code, disks, wanted, pattern, size))
        && rank(&patterns.iter().map(|&pattern| image(code, wanted, pattern)).collect::<Vec<Row>>()) == patterns.len()
}

/// The same by trying all data of one bit a symbol, of which there are few: each pattern is zero on the survivors, and whatever is zero there
/// shows the XOR of the images of exactly one subset of the patterns.
pub fn tell_what_is_gone_by_trying(code: &Code, disks: &[u8], wanted: &[usize], patterns: &[u128]) -> bool {
    let survivors = code.survivors(disks);
    let unseen = |data: &u128| {
        pattern_stripe(code, *data, 1).is_some_and(|stripe| zero_in(&stripe, 1, survivors.iter().copied()))
    };
    if !patterns.iter().all(unseen) {
        return false;
    }
    let sums = (0..1u32 << patterns.len())
        .map(|subset| (0..patterns.len()).filter(|i| subset >> i & 1 == 1).fold(0, |sum, i| sum ^ patterns[i]));
    let subsets: Vec<Row> = sums.map(|sum| image(code, wanted, sum)).collect();
    let mut all = (0..1u128 << code.data).filter(unseen).map(|data| image(code, wanted, data));
    all.all(|shown| subsets.iter().filter(|&subset| *subset == shown).count() == 1)
}

/// The equations, or their refusal: code sheet, 7, 24.
pub fn equations_refusal(sheet: &[u8], disks: &[u8]) -> Result<Code, No> {
    let code = read_code(sheet)?;
    disk_list(&code, disks)?;
    Ok(code)
}

/// Whether survivors can be sound: code sheet, 7, 24, 31, 32. The lowest column that shows that they can't.
pub fn test_survivors(sheet: &[u8], disks: &[u8], size: u64, stripe: &[u8]) -> Result<Option<usize>, No> {
    let code = equations_refusal(sheet, disks)?;
    let size = symbol_length(size)?;
    if stripe.len() != code.symbols() * size {
        return Err((32, 0));
    }
    let data = data_behind(&code, disks, size, stripe);
    let valid = scatter(&code, size, &data);
    let differing = |s: usize| (0..size).find(|column| valid[s * size + column] != stripe[s * size + column]);
    Ok(code.survivors(disks).into_iter().filter_map(differing).min())
}

/// Data that give as many survivors as are independent: each takes one data symbol, and the others are zero.
fn data_behind(code: &Code, disks: &[u8], size: usize, stripe: &[u8]) -> Vec<u8> {
    let mut solved: Vec<(usize, Row, Vec<u8>)> = Vec::new();
    let add = |(row, bytes): (&mut Row, &mut Vec<u8>), (other, others): (&Row, &Vec<u8>)| {
        row.iter_mut().zip(other).for_each(|(bit, other)| *bit ^= other);
        bytes.iter_mut().zip(others).for_each(|(byte, other)| *byte ^= other);
    };
    for s in code.survivors(disks) {
        let (mut row, mut bytes) = (code.rows[s].clone(), stripe[s * size..(s + 1) * size].to_vec());
        for (taken, other, others) in &solved {
            if row[*taken] {
                add((&mut row, &mut bytes), (other, others));
            }
        }
        let Some(free) = row.iter().position(|&set| set) else { continue };
        for (_, other, others) in solved.iter_mut().filter(|(_, other, _)| other[free]) {
            add((other, others), (&row, &bytes));
        }
        solved.push((free, row, bytes));
    }
    let mut data = vec![0; code.data * size];
    for (taken, _, bytes) in solved {
        data[taken * size..(taken + 1) * size].copy_from_slice(&bytes);
    }
    data
}

/// Whether equations are among the survivors, right and enough: surviving symbols whose rows sum to zero, and as many independent ones as
/// there are survivors beyond the rank of their rows.
pub fn good_equations(code: &Code, disks: &[u8], equations: &[u128]) -> bool {
    let survivors = code.survivors(disks);
    let members: Vec<Row> = equations.iter().map(|e| (0..128).map(|s| e >> s & 1 == 1).collect()).collect();
    let zero =
        |row: &Row| (0..code.data).all(|t| survivors.iter().filter(|&&s| row[s] && code.rows[s][t]).count() % 2 == 0);
    let among = |row: &Row| (0..128).all(|s| !row[s] || survivors.contains(&s));
    let rows: Vec<Row> = survivors.iter().map(|&s| code.rows[s].clone()).collect();
    members.iter().all(|row| among(row) && zero(row)) && rank(&members) == survivors.len() - rank(&rows)
}

/// The same by trying all bits of the survivors, of which there are few: they meet the equations exactly if some data give them.
pub fn good_equations_by_trying(code: &Code, disks: &[u8], equations: &[u128]) -> bool {
    let survivors = code.survivors(disks);
    let lost = code.strips(disks).iter().fold(0u128, |set, s| set | 1 << s);
    let given: HashSet<u128> = (0..1u128 << code.data)
        .map(|data| {
            let stripe = pattern_stripe(code, data, 1).expect("K bits");
            survivors.iter().filter(|&&s| stripe[s] == 1).fold(0, |set, s| set | 1 << s)
        })
        .collect();
    let choices = (0..1u32 << survivors.len()).map(|choice| {
        (0..survivors.len()).filter(|i| choice >> i & 1 == 1).fold(0u128, |set, i| set | 1 << survivors[i])
    });
    let meets_all = |bits: u128| equations.iter().all(|equation| (equation & bits).count_ones() & 1 == 0);
    equations.iter().all(|equation| equation & lost == 0 && equation >> code.symbols() == 0)
        && choices.into_iter().all(|bits| meets_all(bits) == given.contains(&bits))
}

/// One strip: code sheet, 7, 31, 32. The answer is its first byte and its end.
pub fn strip(sheet: &[u8], disk: u64, size: u64, stripe_length: usize) -> Result<(usize, usize), No> {
    let (code, disk) = read_code_with(sheet, disk)?;
    let size = symbol_length(size)?;
    if stripe_length != code.symbols() * size {
        return Err((32, 0));
    }
    let strip = code.strip(disk);
    Ok((strip.start * size, strip.end * size))
}

/// Look up: the same, 35, 38. The answer is whether it is in the spare strip, its first byte and its end.
pub fn look_up(
    sheet: &[u8],
    disk: u64,
    size: u64,
    stripe: usize,
    spare: usize,
    symbol: u64,
) -> Result<(bool, usize, usize), No> {
    strip(sheet, disk, size, stripe)?;
    let code = read_code(sheet)?;
    let size = size as usize;
    if spare != code.height * size {
        return Err((35, 0));
    }
    if symbol >= code.symbols() as u64 {
        return Err((38, 0));
    }
    let (symbol, lost) = (symbol as usize, code.strip(disk as usize));
    let from = if lost.contains(&symbol) { symbol - lost.start } else { symbol };
    Ok((lost.contains(&symbol), from * size, (from + 1) * size))
}

/// CRC-32 as zlib has it, by long division: the bytes' bits, each byte's lowest first, the first 32 of them turned round, and 32 zeros.
pub fn crc32(bytes: &[u8]) -> u32 {
    let bits = bytes.iter().chain(&[0; 4]).flat_map(|byte| (0..8).map(move |bit| byte >> bit & 1));
    let turned = bits.enumerate().map(|(nth, bit)| u64::from(bit) ^ u64::from(nth < 32));
    let rest = turned.fold(0u64, |rest, bit| match rest << 1 | bit {
        rest if rest >> 32 == 1 => rest ^ 0x1_04c1_1db7,
        rest => rest,
    });
    !(rest as u32).reverse_bits()
}
