//! Inputs: random, special and damaged.
#![allow(dead_code)]
use super::{Code, Row};

/// A small generator of our own: the standard library has none. Its seed is printed by each test; NAVORZIM_SEED adds to it, for other inputs.
pub struct Random(u64);

impl Random {
    pub fn new(seed: u64) -> Random {
        let more = std::env::var("NAVORZIM_SEED").ok().and_then(|more| more.parse().ok()).unwrap_or(0);
        let seed = seed.wrapping_add(more);
        println!("seed {seed}");
        Random(seed.wrapping_mul(0x9E37_79B9_7F4A_7C15) | 1)
    }

    pub fn next(&mut self) -> u64 {
        self.0 ^= self.0 << 13;
        self.0 ^= self.0 >> 7;
        self.0 ^= self.0 << 17;
        self.0.wrapping_mul(0x2545_F491_4F6C_DD1D)
    }

    /// Below a bound.
    pub fn below(&mut self, bound: usize) -> usize {
        ((self.next() >> 11) % bound.max(1) as u64) as usize
    }

    pub fn one_in(&mut self, chances: usize) -> bool {
        self.below(chances) == 0
    }

    pub fn pick<T: Copy>(&mut self, from: &[T]) -> T {
        from[self.below(from.len())]
    }

    pub fn bytes(&mut self, length: usize) -> Vec<u8> {
        (0..length).map(|_| (self.next() >> 24) as u8).collect()
    }
}

/// How many calls a test makes, printed.
pub fn calls(count: usize) -> usize {
    println!("{count} calls");
    count
}

/// A buffer that is long enough for every plan.
pub fn buffer(random: &mut Random) -> Vec<u8> {
    let length = navorzim::PLAN_BUFFER + random.pick(&[0, 0, 0, 1, 50]);
    random.bytes(length)
}

/// A code's sheet, one in four damaged.
pub fn sheet(random: &mut Random) -> (Code, Vec<u8>) {
    let code = code(random);
    let mut sheet = code.sheet();
    if random.one_in(4) {
        sheet = damaged(random, &sheet);
    }
    (code, sheet)
}

/// A code within the limits: dense, sparse, of low rank, with zero or equal rows, with identity rows, or a family's.
pub fn code(random: &mut Random) -> Code {
    if random.one_in(4) {
        return family(random);
    }
    let (disks, height) = loop {
        let (most_disks, most_rows) = (random.pick(&[9, 9, 9, 63]), random.pick(&[8, 8, 8, 32]));
        let (disks, height) = (2 + random.below(most_disks), 1 + random.below(most_rows));
        if disks * height <= 64 {
            break (disks, height);
        }
    };
    let symbols = disks * height;
    let data = match random.below(4) {
        0 => 1 + random.below(64),
        1 => symbols.saturating_sub(height).clamp(1, 64),
        2 => 1 + random.below(6),
        _ => 1 + random.below(symbols),
    };
    Code { disks, height, data, rows: rows(random, symbols, data) }
}

/// Rows: dense, sparse, identity rows and dense ones, of low rank, or unit rows in turn; some zero or equal.
pub fn rows(random: &mut Random, symbols: usize, data: usize) -> Vec<Row> {
    let kind = random.below(5);
    let mut rows: Vec<Row> = (0..symbols)
        .map(|s| match kind {
            0 => (0..data).map(|_| random.one_in(2)).collect(),
            1 => (0..data).map(|_| random.one_in(8)).collect(),
            2 => (0..data).map(|t| t == s || s >= data && random.one_in(2)).collect(),
            3 => (0..data).map(|t| t < 3 && random.one_in(2)).collect(),
            _ => (0..data).map(|t| t == s % data).collect(),
        })
        .collect();
    for s in 0..symbols {
        if random.one_in(16) {
            rows[s] = rows[random.below(symbols)].clone();
        }
        if random.one_in(24) {
            rows[s].fill(false);
        }
    }
    rows
}

/// A family's code.
fn family(random: &mut Random) -> Code {
    let sheet = match random.below(4) {
        0 => super::family("liberation", 5, 2 + random.below(4) as u64),
        1 => super::family("row-diagonal", random.pick(&[3, 5, 7]), 0),
        2 => super::family("evenodd", random.pick(&[3, 5, 7]), 0),
        _ => super::family("single parity", 1 + random.below(8) as u64, 1 + random.below(7) as u64),
    };
    super::read_code(&sheet.expect("listed")).expect("a family's sheet is good")
}

/// A sheet with something wrong with it, or two things: a byte changed, cut, lengthened, or random bytes.
pub fn damaged(random: &mut Random, sheet: &[u8]) -> Vec<u8> {
    let mut bytes = sheet.to_vec();
    for _ in 0..1 + random.below(2) {
        match random.below(6) {
            0 => bytes.truncate(random.below(bytes.len() + 1)),
            1 => {
                let more = random.pick(&[1, 2, 8, 600]);
                bytes.extend(random.bytes(more));
            }
            2 if !bytes.is_empty() => {
                let at = random.below(bytes.len().min(12));
                bytes[at] = random.pick(&[0, 1, 2, 3, 4, 5, 6, 7, 32, 33, 63, 64, 65, 128, 255]);
            }
            3 if !bytes.is_empty() => {
                let at = random.below(bytes.len());
                bytes[at] ^= 1 << random.below(8);
            }
            4 if !bytes.is_empty() => {
                let at = random.below(bytes.len());
                bytes[at] = random.next() as u8;
            }
            _ => {
                let length = random.below(40);
                bytes = random.bytes(length);
            }
        }
    }
    bytes
}

/// Some of the numbers: one, all or any of them.
fn some(random: &mut Random, numbers: Vec<u8>) -> Vec<u8> {
    let one = random.pick(&numbers);
    let kind = random.below(4);
    let chosen = |number: &u8| match kind {
        0 => *number == one,
        1 => true,
        _ => *number == one || random.one_in(2),
    };
    numbers.into_iter().filter(chosen).collect()
}

/// Some symbols of some disks, rising.
pub fn list(random: &mut Random, code: &Code, disks: &[u8]) -> Vec<u8> {
    some(random, code.strips(disks).into_iter().map(|s| s as u8).collect())
}

/// Some disks of a code, rising: most often one, two or three.
pub fn disks(random: &mut Random, code: &Code) -> Vec<u8> {
    let all: Vec<u8> = (0..code.disks as u8).collect();
    if random.one_in(4) {
        return some(random, all);
    }
    let count = 1 + random.below(3);
    let mut disks: Vec<u8> = (0..count).map(|_| random.pick(&all)).collect();
    disks.sort();
    disks.dedup();
    disks
}

/// A list of disks with something wrong with it, most often: another disk, one too many or too few, out of order, given twice, too many.
pub fn damaged_disks(random: &mut Random, code: &Code, disks: &[u8]) -> Vec<u8> {
    let (mut disks, n) = (disks.to_vec(), code.disks as u8);
    let at = random.below(disks.len());
    match random.below(8) {
        0 => disks.clear(),
        1 => disks[at] = random.pick(&[0, n - 1, n, n + 1, 64, 128, 255]),
        2 => disks.insert(at, disks[at]),
        3 => {
            let other = random.below(disks.len());
            disks.swap(at, other);
        }
        4 => drop(disks.remove(at)),
        5 => {
            disks.push(random.below(code.disks) as u8);
            disks.sort();
            disks.dedup();
        }
        6 => disks = (0..n + random.pick(&[0, 1, 2])).map(|disk| disk.min(n - 1)).collect(),
        _ => {
            let length = random.pick(&[33, 64, 65, 255, 256, 257, 300, 70_000]);
            disks = random.bytes(length).into_iter().map(|byte| byte % n).collect();
        }
    }
    disks
}

/// A list with something wrong with it, most often: an entry changed, out of order, given twice or left out, or too many of them.
pub fn damaged_list(random: &mut Random, code: &Code, list: &[u8]) -> Vec<u8> {
    let mut list = list.to_vec();
    let at = random.below(list.len());
    match random.below(8) {
        0 => list.clear(),
        1 => list[at] = random.pick(&[0, code.symbols() as u8 - 1, code.symbols() as u8, 64, 128, 254, 255]),
        2 => {
            list[at] =
                list[at].wrapping_add(random.pick(&[1, 255, code.height as u8, 0u8.wrapping_sub(code.height as u8)]))
        }
        3 => list[at] = random.below(code.symbols()) as u8,
        4 => list.insert(at, list[at]),
        5 => {
            let other = random.below(list.len());
            list.swap(at, other);
        }
        6 => {
            let length = code.height + random.pick(&[0, 1, 2]);
            list = (0..length).map(|i| list[0].wrapping_add(i as u8)).collect();
        }
        _ => {
            let length = random.pick(&[33, 64, 65, 255, 256, 257, 300, 512, 70_000]);
            list = random.bytes(length);
        }
    }
    list
}

/// A number that a caller might give for a disk or a symbol of so many.
pub fn index(random: &mut Random, count: usize) -> u64 {
    match random.below(12) {
        0 => count as u64,
        1 => count as u64 + 1,
        2 => random.pick(&[255, 256, 1 << 32, u64::MAX, u64::MAX - 1]),
        _ => random.below(count) as u64,
    }
}

/// A symbol length, mostly small.
pub fn size(random: &mut Random) -> u64 {
    match random.below(14) {
        0 => random.pick(&[0, 65537, 1 << 20, u64::MAX, 1 << 63]),
        1 => 1 + random.below(300) as u64,
        _ => 1 + random.below(9) as u64,
    }
}

/// A length that should be `count` symbols, now and then another.
pub fn length(random: &mut Random, count: usize, size: u64) -> usize {
    let right = if size <= 4096 { count * size as usize } else { random.below(64) };
    match random.below(14) {
        0 => right + 1,
        1 => right.saturating_sub(1),
        2 => random.below(40),
        _ => right,
    }
}
