//! The proved library against simple Rust doing the identical work, and against Jerasure, ISA-L and one pass in C rebuilding the same disk, in
//! turn, in one process. Medians of 101 rounds. With `--check` only what a landing must keep; with `--reads` how many symbols plans read.
use std::hint::black_box;
use std::time::Instant;

mod reads;

/// The proved calls, by their interface for C. A refusal is its number; a read count is 1000 plus it; a pattern is 999; sound survivors are
/// 1000, others 2000 plus the column.
mod proved {
    #[repr(C)]
    struct Verdict {
        number: u64,
        place: u64,
    }

    #[repr(C)]
    struct Sheet {
        number: u64,
        place: u64,
        length: u64,
    }

    #[repr(C)]
    struct Checked {
        number: u64,
        place: u64,
        reads: u64,
    }

    #[repr(C)]
    struct Planned {
        number: u64,
        place: u64,
        length: u64,
        reads: u64,
        pattern: u64,
        pattern_high: u64,
        patterns: u64,
    }

    #[repr(C)]
    struct PricedOut {
        number: u64,
        place: u64,
        length: u64,
        reads: u64,
        settled: u64,
        sum: f64,
        pattern: u64,
        pattern_high: u64,
        patterns: u64,
    }

    #[repr(C)]
    struct Tested {
        number: u64,
        place: u64,
        sound: u64,
        column: u64,
    }

    type Bytes = *const u8;
    type BytesMut = *mut u8;
    type Floats = *const f64;

    extern "C" {
        fn navorzim_single_parity(data_disks: u64, rows: u64, buffer: BytesMut, buffer_length: usize) -> Sheet;
        fn navorzim_evenodd(p: u64, buffer: BytesMut, buffer_length: usize) -> Sheet;
        fn navorzim_encode(s: Bytes, sl: usize, size: u64, c: Bytes, cl: usize, stripe: BytesMut, stripe_length: usize) -> Verdict;
        fn navorzim_rebuild(s: Bytes, sl: usize, disk: u64, p: Bytes, pl: usize, size: u64, stripe: BytesMut, stripe_length: usize) -> Verdict;
        fn navorzim_plan(s: Bytes, sl: usize, disk: u64, buffer: BytesMut, buffer_length: usize) -> Planned;
        fn navorzim_plan_fewest(s: Bytes, sl: usize, d: Bytes, dl: usize, w: Bytes, wl: usize, buffer: BytesMut, buffer_length: usize) -> Planned;
        fn navorzim_plan_disks(s: Bytes, sl: usize, d: Bytes, dl: usize, w: Bytes, wl: usize, buffer: BytesMut, buffer_length: usize) -> Planned;
        fn navorzim_plan_priced(
            s: Bytes,
            sl: usize,
            d: Bytes,
            dl: usize,
            w: Bytes,
            wl: usize,
            kinds: Bytes,
            kinds_length: usize,
            prices: Floats,
            prices_length: usize,
            factors: Floats,
            factors_length: usize,
            buffer: BytesMut,
            buffer_length: usize,
        ) -> PricedOut;
        fn navorzim_check(s: Bytes, sl: usize, disk: u64, p: Bytes, pl: usize) -> Checked;
        fn navorzim_test_survivors(s: Bytes, sl: usize, d: Bytes, dl: usize, size: u64, stripe: Bytes, stripe_length: usize) -> Tested;
    }

    // SAFETY, for each call: a pointer is that of a slice with the length beside it, and what is written is lent for the call alone.

    pub fn single_parity(data_disks: u64, rows: u64) -> Vec<u8> {
        written(|buffer, length| unsafe { navorzim_single_parity(data_disks, rows, buffer, length) })
    }

    pub fn evenodd(p: u64) -> Vec<u8> {
        written(|buffer, length| unsafe { navorzim_evenodd(p, buffer, length) })
    }

    /// A family's code sheet.
    fn written(family: impl FnOnce(BytesMut, usize) -> Sheet) -> Vec<u8> {
        let mut buffer = vec![0; 518];
        let sheet = family(buffer.as_mut_ptr(), buffer.len());
        assert!(sheet.number == 0, "refused {} at {}", sheet.number, sheet.place);
        buffer.truncate(sheet.length as usize);
        buffer
    }

    pub fn encode(sheet: &[u8], size: usize, contents: &[u8], stripe: &mut [u8]) -> u64 {
        let (c, x) = ((contents.as_ptr(), contents.len()), (stripe.as_mut_ptr(), stripe.len()));
        unsafe { navorzim_encode(sheet.as_ptr(), sheet.len(), size as u64, c.0, c.1, x.0, x.1).number }
    }

    pub fn rebuild(sheet: &[u8], disk: usize, plan: &[u8], size: usize, stripe: &mut [u8]) -> u64 {
        let (p, x) = ((plan.as_ptr(), plan.len()), (stripe.as_mut_ptr(), stripe.len()));
        unsafe { navorzim_rebuild(sheet.as_ptr(), sheet.len(), disk as u64, p.0, p.1, size as u64, x.0, x.1).number }
    }

    pub fn plan(sheet: &[u8], disk: usize, buffer: &mut [u8]) -> u64 {
        answer_of(unsafe { navorzim_plan(sheet.as_ptr(), sheet.len(), disk as u64, buffer.as_mut_ptr(), buffer.len()) })
    }

    pub fn fewest(sheet: &[u8], disks: &[u8], wanted: &[u8], buffer: &mut [u8]) -> u64 {
        let (d, w, b) = ((disks.as_ptr(), disks.len()), (wanted.as_ptr(), wanted.len()), (buffer.as_mut_ptr(), buffer.len()));
        answer_of(unsafe { navorzim_plan_fewest(sheet.as_ptr(), sheet.len(), d.0, d.1, w.0, w.1, b.0, b.1) })
    }

    pub fn plan_disks(sheet: &[u8], disks: &[u8], wanted: &[u8], buffer: &mut [u8]) -> u64 {
        let (d, w, b) = ((disks.as_ptr(), disks.len()), (wanted.as_ptr(), wanted.len()), (buffer.as_mut_ptr(), buffer.len()));
        answer_of(unsafe { navorzim_plan_disks(sheet.as_ptr(), sheet.len(), d.0, d.1, w.0, w.1, b.0, b.1) })
    }

    pub fn priced(sheet: &[u8], disks: &[u8], wanted: &[u8], states: &super::States, buffer: &mut [u8]) -> super::Priced {
        let (d, w, b) = ((disks.as_ptr(), disks.len()), (wanted.as_ptr(), wanted.len()), (buffer.as_mut_ptr(), buffer.len()));
        let (k, p) = ((states.kinds.as_ptr(), states.kinds.len()), (states.prices.as_ptr(), states.prices.len()));
        let f = (states.factors.as_ptr(), states.factors.len());
        let out = unsafe { navorzim_plan_priced(sheet.as_ptr(), sheet.len(), d.0, d.1, w.0, w.1, k.0, k.1, p.0, p.1, f.0, f.1, b.0, b.1) };
        let PricedOut { number, place, length, reads, pattern, pattern_high, patterns, .. } = out;
        let answer = answer_of(Planned { number, place, length, reads, pattern, pattern_high, patterns });
        super::Priced { answer, sum: out.sum, settled: out.settled == 1 }
    }

    fn answer_of(planned: Planned) -> u64 {
        match planned {
            Planned { number, .. } if number != 0 => number,
            Planned { length: 0, .. } => 999,
            Planned { reads, .. } => 1000 + reads,
        }
    }

    pub fn check(sheet: &[u8], disk: usize, plan: &[u8]) -> u64 {
        let checked = unsafe { navorzim_check(sheet.as_ptr(), sheet.len(), disk as u64, plan.as_ptr(), plan.len()) };
        if checked.number != 0 {
            checked.number
        } else {
            1000 + checked.reads
        }
    }

    pub fn test(sheet: &[u8], disks: &[u8], size: usize, stripe: &[u8]) -> u64 {
        let (d, x) = ((disks.as_ptr(), disks.len()), (stripe.as_ptr(), stripe.len()));
        let tested = unsafe { navorzim_test_survivors(sheet.as_ptr(), sheet.len(), d.0, d.1, size as u64, x.0, x.1) };
        match tested {
            Tested { number, .. } if number != 0 => number,
            Tested { sound: 1, .. } => 1000,
            Tested { column, .. } => 2000 + column,
        }
    }
}

/// States as C has them, an entry a disk: kinds (0 away, 1 idle, 2 busy), prices and factors.
pub struct States {
    kinds: Vec<u8>,
    prices: Vec<f64>,
    factors: Vec<f64>,
}

/// What planning at prices answers: a number as above, the sum, and whether it is settled.
#[derive(Debug, PartialEq)]
pub struct Priced {
    answer: u64,
    sum: f64,
    settled: bool,
}

/// Jerasure's decoding of Liberation w 5, k 5 by a schedule made once and kept. It tests nothing.
#[cfg(jerasure)]
mod jerasure {
    use std::os::raw::{c_char, c_int};

    extern "C" {
        fn liberation_coding_bitmatrix(k: c_int, w: c_int) -> *mut c_int;
        fn jerasure_generate_schedule_cache(k: c_int, m: c_int, w: c_int, bitmatrix: *mut c_int, smart: c_int) -> *mut *mut *mut c_int;
        fn jerasure_schedule_decode_cache(
            k: c_int,
            m: c_int,
            w: c_int,
            cache: *mut *mut *mut c_int,
            erasures: *mut c_int,
            data: *mut *mut c_char,
            coding: *mut *mut c_char,
            size: c_int,
            packet: c_int,
        ) -> c_int;
    }

    pub struct Decoder(*mut *mut *mut c_int);

    impl Decoder {
        pub fn new() -> Decoder {
            // SAFETY: both calls take small numbers, and the second the matrix that the first allocated.
            unsafe { Decoder(jerasure_generate_schedule_cache(5, 2, 5, liberation_coding_bitmatrix(5, 5), 1)) }
        }

        /// Disk 0 rebuilt; a symbol is a packet, and its length a multiple of 8.
        pub fn rebuild(&self, size: usize, stripe: &mut [u8]) -> u64 {
            assert!(stripe.len() == 35 * size && size % 8 == 0);
            let mut disks: Vec<*mut c_char> = stripe.chunks_mut(5 * size).map(|disk| disk.as_mut_ptr().cast()).collect();
            let (data, coding) = disks.split_at_mut(5);
            let mut erasures = [0, -1];
            // SAFETY: seven disks of five packets each, apart from one another, as the matrix has them.
            unsafe {
                jerasure_schedule_decode_cache(
                    5,
                    2,
                    5,
                    self.0,
                    erasures.as_mut_ptr(),
                    data.as_mut_ptr(),
                    coding.as_mut_ptr(),
                    (5 * size) as c_int,
                    size as c_int,
                ) as u64
            }
        }
    }
}

/// For each lost symbol of an edition 1 plan its sources.
fn sums(plan: &[u8]) -> Vec<(usize, Vec<u8>)> {
    let mut sums: Vec<(usize, Vec<u8>)> = Vec::new();
    for step in plan[9..].chunks_exact(3) {
        match sums.last_mut() {
            Some((target, sources)) if *target == step[1] as usize => sources.push(step[2]),
            _ => sums.push((step[1] as usize, vec![step[2]])),
        }
    }
    sums
}

/// One pass in C for each lost symbol of a plan (kernel.c). It tests nothing.
mod kernel {
    extern "C" {
        fn kernel_sum(stripe: *mut u8, size: usize, target: usize, sources: *const u8, count: usize);
    }

    pub fn rebuild(sums: &[(usize, Vec<u8>)], size: usize, stripe: &mut [u8]) -> u64 {
        for (target, sources) in sums {
            assert!(sources.iter().all(|&s| s as usize != *target && (s as usize + 1) * size <= stripe.len()) && (target + 1) * size <= stripe.len());
            // SAFETY: target and sources are symbols of the stripe, and the target is none of the sources.
            unsafe { kernel_sum(stripe.as_mut_ptr(), size, *target, sources.as_ptr(), sources.len()) };
        }
        0
    }
}

/// ISA-L's XOR of several sources, once for each lost symbol of a plan. It tests nothing.
#[cfg(isal)]
mod isal {
    use std::os::raw::{c_int, c_void};

    extern "C" {
        fn xor_gen(vects: c_int, len: c_int, array: *mut *mut c_void) -> c_int;
    }

    /// Each lost symbol from its sources; the stripe begins at a multiple of 32, and so does every symbol.
    pub fn rebuild(sums: &[(usize, Vec<u8>)], size: usize, stripe: &mut [u8]) -> u64 {
        let start = stripe.as_mut_ptr();
        assert!(start as usize % 32 == 0 && size % 32 == 0);
        let mut failed = 0;
        for (target, sources) in sums {
            let mut array = [std::ptr::null_mut(); 64];
            for (place, s) in array.iter_mut().zip(sources.iter().map(|&s| s as usize).chain([*target])) {
                *place = stripe[s * size..(s + 1) * size].as_mut_ptr().cast::<c_void>();
            }
            // SAFETY: the vectors are symbols of the stripe, `size` bytes each, and the last is none of the others.
            failed |= unsafe { xor_gen(sources.len() as c_int + 1, size as c_int, array.as_mut_ptr()) };
        }
        failed as u64
    }
}

/// The same work without proof, with answers as above.
mod simple {
    pub struct Code {
        n: usize,
        r: usize,
        k: usize,
        rows: [u64; 64],
    }

    fn read(sheet: &[u8]) -> Result<Code, u64> {
        if sheet.len() < 6 {
            return Err(1);
        }
        let (n, r, k) = (sheet[2] as usize, sheet[3] as usize, sheet[4] as usize);
        if sheet[0] != 4 {
            return Err(3);
        }
        if sheet[1] != 1 {
            return Err(4);
        }
        if !(2..=64).contains(&n) || !(1..=32).contains(&r) || n * r > 64 || !(1..=64).contains(&k) {
            return Err(5);
        }
        let symbols = n * r;
        if sheet[5] as usize != symbols {
            return Err(3);
        }
        if sheet.len() < 6 + 8 * symbols {
            return Err(1);
        }
        if sheet.len() > 6 + 8 * symbols {
            return Err(2);
        }
        let mut rows = [0u64; 64];
        for (s, row) in rows.iter_mut().take(symbols).enumerate() {
            *row = u64::from_le_bytes(sheet[6 + 8 * s..14 + 8 * s].try_into().unwrap());
        }
        let beyond = if k < 64 { !0 << k } else { 0 };
        if rows[..symbols].iter().any(|row| row & beyond != 0) {
            return Err(6);
        }
        Ok(Code { n, r, k, rows })
    }

    #[inline(never)]
    pub fn encode(sheet: &[u8], size: usize, contents: &[u8], stripe: &mut [u8]) -> u64 {
        let code = match read(sheet) {
            Ok(code) => code,
            Err(number) => return number,
        };
        let symbols = code.n * code.r;
        if size == 0 || size > 65536 {
            return 31;
        }
        if contents.len() != code.k * size {
            return 33;
        }
        if stripe.len() != symbols * size {
            return 32;
        }
        for s in 0..symbols {
            let target = &mut stripe[s * size..(s + 1) * size];
            target.fill(0);
            for t in 0..code.k {
                if code.rows[s] >> t & 1 == 1 {
                    for (a, b) in target.iter_mut().zip(&contents[t * size..(t + 1) * size]) {
                        *a ^= *b;
                    }
                }
            }
        }
        0
    }

    #[inline(never)]
    pub fn check(sheet: &[u8], disk: usize, plan: &[u8]) -> u64 {
        let code = match read(sheet) {
            Ok(code) => code,
            Err(number) => return number,
        };
        if disk >= code.n {
            return 7;
        }
        if plan.len() < 9 {
            return 11;
        }
        let steps = plan[7] as usize + 256 * plan[8] as usize;
        if plan[0] != 6 {
            return 13;
        }
        if plan[1] != 1 {
            return 14;
        }
        if [plan[2] as usize, plan[3] as usize, plan[4] as usize] != [code.n, code.r, code.k] {
            return 15;
        }
        if plan[5] as usize != disk {
            return 16;
        }
        if steps > 1024 {
            return 13;
        }
        if plan.len() < 9 + 3 * steps {
            return 11;
        }
        if plan.len() > 9 + 3 * steps {
            return 12;
        }
        let symbols = code.n * code.r;
        let lost = disk * code.r..(disk + 1) * code.r;
        let (mut rows, mut filled, mut named) = (code.rows, [false; 64], [false; 64]);
        for (s, place) in filled.iter_mut().take(symbols).enumerate() {
            *place = !lost.contains(&s);
        }
        for step in plan[9..].chunks_exact(3) {
            let (kind, target, source) = (step[0], step[1] as usize, step[2] as usize);
            if kind > 2 || target >= symbols || source >= symbols || kind == 0 && source != 0 {
                return 17;
            }
            if !lost.contains(&target) {
                return 18;
            }
            if kind == 2 && !filled[target] || kind > 0 && !filled[source] {
                return 19;
            }
            rows[target] = match kind {
                0 => 0,
                1 => rows[source],
                _ => rows[target] ^ rows[source],
            };
            filled[target] = true;
            named[source] |= kind > 0 && !lost.contains(&source);
        }
        if lost.clone().any(|s| !filled[s]) {
            return 20;
        }
        if lost.clone().any(|s| rows[s] != code.rows[s]) {
            return 21;
        }
        let reads = named.iter().filter(|&&named| named).count();
        if plan[6] as usize != reads {
            return 22;
        }
        1000 + reads as u64
    }

    /// Whether two rows overlap oddly, by the processor's count of ones.
    fn odd(a: u64, b: u64) -> bool {
        (a & b).count_ones() % 2 == 1
    }

    /// Patterns reduced row by row: the pivot of each row, or 0, and what is left of the patterns.
    #[inline]
    fn eliminate(rows: &[u64], k: usize) -> ([u64; 64], [u64; 64]) {
        let (mut pivots, mut patterns) = ([0u64; 64], [0u64; 64]);
        for (bit, pattern) in patterns.iter_mut().take(k).enumerate() {
            *pattern = 1 << bit;
        }
        for (row, pivot) in rows.iter().zip(&mut pivots) {
            for pattern in &mut patterns[..k] {
                if odd(*pattern, *row) {
                    if *pivot == 0 {
                        *pivot = *pattern;
                    }
                    *pattern ^= *pivot;
                }
            }
        }
        (pivots, patterns)
    }

    /// The rows with a pivot that sum to a row, by back substitution.
    #[inline]
    fn subset_for(pivots: &[u64; 64], rows: &[u64], row: u64) -> u64 {
        let (mut left, mut subset) = (row, 0u64);
        for s in (0..rows.len()).rev() {
            if pivots[s] != 0 && odd(pivots[s], left) {
                left ^= rows[s];
                subset |= 1 << s;
            }
        }
        subset
    }

    /// Planning by the same method: patterns reduced row by row, then back substitution.
    #[inline(never)]
    pub fn plan(sheet: &[u8], disk: usize, buffer: &mut [u8]) -> u64 {
        let code = match read(sheet) {
            Ok(code) => code,
            Err(number) => return number,
        };
        if disk >= code.n {
            return 7;
        }
        if buffer.len() < 3081 {
            return 34;
        }
        let symbols = code.n * code.r;
        let lost = disk * code.r..(disk + 1) * code.r;
        let mut rows = code.rows;
        rows[lost.clone()].fill(0);
        let (pivots, patterns) = eliminate(&rows[..symbols], code.k);
        for t in lost.clone() {
            if patterns[..code.k].iter().any(|&pattern| odd(pattern, code.rows[t])) {
                return 999;
            }
        }
        let (mut steps, mut sources) = (0, 0u64);
        for t in lost {
            let subset = subset_for(&pivots, &rows[..symbols], code.rows[t]);
            sources |= subset;
            let mut kind = 1;
            for s in (0..symbols).filter(|s| subset >> s & 1 == 1) {
                buffer[9 + 3 * steps..12 + 3 * steps].copy_from_slice(&[kind, t as u8, s as u8]);
                (kind, steps) = (2, steps + 1);
            }
            if subset == 0 {
                buffer[9 + 3 * steps..12 + 3 * steps].copy_from_slice(&[0, t as u8, 0]);
                steps += 1;
            }
        }
        let reads = sources.count_ones() as u8;
        let head = [6, 1, code.n as u8, code.r as u8, code.k as u8, disk as u8, reads, (steps % 256) as u8, (steps / 256) as u8];
        buffer[..9].copy_from_slice(&head);
        1000 + reads as u64
    }

    /// The images of a search: of each unit pattern the symbols that it shows on, and sums of these.
    type Images = [u64; 64];

    /// What a search goes by besides its images: how many there are, what is wanted, the smallest set found, and how often it may still branch.
    struct Search {
        total: usize,
        wanted: u64,
        best: u64,
        branchings: usize,
    }

    /// Images that share no symbol that may be taken: those symbols, and how many images they are.
    struct Disjoint {
        used: u64,
        found: u32,
    }

    impl Disjoint {
        /// One more, if it has a wanted symbol, and few symbols that may be taken, none of them used.
        fn take(&mut self, image: u64, wanted: u64, allowed: u64, few: u32) {
            let shared = image & allowed;
            if image & wanted != 0 && shared.count_ones() <= few && shared & self.used == 0 {
                self.used |= shared;
                self.found += 1;
            }
        }
    }

    /// An image that has an element is added to each image that has it.
    fn reduce(images: &mut [u64], pivot: u64, element: u32) {
        for image in images.iter_mut().filter(|image| **image >> element & 1 == 1) {
            *image ^= pivot;
        }
    }

    impl Search {
        /// The images added to each other until each has a symbol of its own among those that may be taken.
        fn spread(&self, images: &mut Images, allowed: u64) {
            for i in 0..self.total {
                let image = images[i];
                if image & allowed != 0 {
                    reduce(&mut images[..self.total], image, (image & allowed).trailing_zeros());
                    images[i] = image;
                }
            }
        }

        /// So many symbols at least are to be taken besides: images, sums of two, and images again, as far as they share none.
        fn needed(&self, images: &Images, allowed: u64) -> u32 {
            let (images, mut disjoint) = (&images[..self.total], Disjoint { used: 0, found: 0 });
            for &image in images {
                disjoint.take(image, self.wanted, allowed, 1);
            }
            for (i, image) in images.iter().enumerate() {
                for other in &images[..i] {
                    disjoint.take(image ^ other, self.wanted, allowed, 2);
                }
            }
            for &image in images {
                disjoint.take(image, self.wanted, allowed, 64);
            }
            disjoint.found
        }

        /// Takes the first symbol of an image with a wanted symbol and the fewest that may be taken, then leaves it out.
        fn run(&mut self, mut images: Images, taken: u64, allowed: u64) {
            self.spread(&mut images, allowed);
            let choices = images[..self.total].iter().filter(|image| **image & self.wanted != 0);
            let Some(&image) = choices.min_by_key(|image| (*image & allowed).count_ones()) else {
                if taken.count_ones() < self.best.count_ones() {
                    self.best = taken;
                }
                return;
            };
            let (most, now) = (self.best.count_ones(), taken.count_ones());
            if image & allowed == 0 || most <= now + 1 || most - now <= self.needed(&images, allowed) || self.branchings == 0 {
                return;
            }
            let element = (image & allowed).trailing_zeros();
            let left = allowed ^ 1 << element;
            let mut reduced = images;
            reduce(&mut reduced[..self.total], image, element);
            self.branchings -= 1;
            self.run(reduced, taken | 1 << element, left);
            self.run(images, taken, left);
        }
    }

    /// The same search for a smallest set of survivors that is enough for the wanted symbols, with at most so many branchings. It begins with the images of the
    /// symbols involved, spread over the survivors, without the empty ones.
    fn smallest(code: &Code, survivors: u64, wanted: u64, most: usize) -> Search {
        let mut images = [0; 64];
        for (s, row) in code.rows[..code.n * code.r].iter().enumerate().filter(|(s, _)| (survivors | wanted) >> s & 1 == 1) {
            for (t, image) in images[..code.k].iter_mut().enumerate() {
                *image |= (row >> t & 1) << s;
            }
        }
        let mut search = Search { total: code.k, wanted, best: survivors, branchings: most };
        search.spread(&mut images, survivors);
        let (mut first, mut total) = ([0; 64], 0);
        for &image in images[..code.k].iter().filter(|&&image| image != 0) {
            first[total] = image;
            total += 1;
        }
        search.total = total;
        search.run(first, 0, survivors);
        search
    }

    /// The subsets of 16 survivors.
    const BRANCHINGS: usize = 65_536;

    /// How often the search branches when disk 0 of two disks is lost.
    pub fn branchings(sheet: &[u8]) -> usize {
        let Ok(code) = read(sheet) else { return 0 };
        let lost = (1 << code.r) - 1;
        BRANCHINGS - smallest(&code, lost << code.r, lost, BRANCHINGS).branchings
    }

    /// The fewest surviving symbols that are enough for a disk that has a plan, however long that takes.
    pub fn fewest_reads(sheet: &[u8], disk: usize) -> u64 {
        let Ok(code) = read(sheet) else { return 0 };
        let lost = code.strips([disk].into_iter());
        smallest(&code, code.all() & !lost, lost, usize::MAX).best.count_ones().into()
    }

    /// Whether a list of disks or symbols rises.
    fn rises(list: &[u8]) -> bool {
        list.windows(2).all(|pair| pair[0] < pair[1])
    }

    fn set_of(list: impl IntoIterator<Item = usize>) -> u64 {
        list.into_iter().fold(0, |set, s| set | 1 << s)
    }

    /// A code, the lost symbols and the wanted ones, once nothing is refused.
    struct Asked {
        code: Code,
        lost: u64,
        wanted: u64,
    }

    /// The tests of planning for lists of disks and symbols: the code sheet's, 7, 24, 23, 34.
    fn asked(sheet: &[u8], disks: &[u8], list: &[u8], buffer_length: usize) -> Result<Asked, u64> {
        let code = read(sheet)?;
        if disks.iter().any(|&disk| disk as usize >= code.n) {
            return Err(7);
        }
        if disks.is_empty() || disks.len() > code.n || !rises(disks) {
            return Err(24);
        }
        let symbols = code.n * code.r;
        let lost = code.strips(disks.iter().map(|&disk| disk as usize));
        if list.len() > disks.len() * code.r || !rises(list) || list.iter().any(|&s| s as usize >= symbols || lost >> s & 1 == 0) {
            return Err(23);
        }
        if buffer_length < 3210 {
            return Err(34);
        }
        let wanted = if list.is_empty() { lost } else { set_of(list.iter().map(|&s| s as usize)) };
        Ok(Asked { code, lost, wanted })
    }

    impl Code {
        /// All symbols.
        fn all(&self) -> u64 {
            !0 >> (64 - self.n * self.r)
        }

        /// The symbols of some disks.
        fn strips(&self, disks: impl Iterator<Item = usize>) -> u64 {
            set_of(disks.flat_map(|disk| disk * self.r..(disk + 1) * self.r))
        }

        /// The rows of known symbols, and 0 for the others.
        fn rows_of(&self, known: u64) -> [u64; 64] {
            let mut rows = self.rows;
            for (s, row) in rows.iter_mut().enumerate() {
                if known >> s & 1 == 0 {
                    *row = 0;
                }
            }
            rows
        }
    }

    /// The elements of a set that are below a bound, rising.
    fn elements(set: u64, bound: usize) -> impl Iterator<Item = usize> {
        (0..bound).filter(move |s| set >> s & 1 == 1)
    }

    /// Planning with the fewest reads by the same method: a smallest set of survivors that is enough, then a plan from that set.
    #[inline(never)]
    pub fn fewest(sheet: &[u8], disks: &[u8], list: &[u8], buffer: &mut [u8]) -> u64 {
        let Asked { code, lost, wanted } = match asked(sheet, disks, list, buffer.len()) {
            Ok(asked) => asked,
            Err(number) => return number,
        };
        let survivors = code.all() & !lost;
        if survivors.count_ones() > 16 {
            return 41;
        }
        plan_from(&code, disks, list, wanted, smallest(&code, survivors, wanted, BRANCHINGS).best, buffer)
    }

    /// An edition 3 plan for wanted symbols from known ones.
    fn plan_from(code: &Code, disks: &[u8], list: &[u8], wanted: u64, known: u64, buffer: &mut [u8]) -> u64 {
        let rows = code.rows_of(known);
        match sets_from(code, &rows, &eliminate(&rows[..code.n * code.r], code.k), wanted) {
            Some(sets) => write(code, disks, list, wanted, &sets, buffer),
            None => 999,
        }
    }

    /// For each wanted symbol the known ones that sum to it, if there is a plan.
    fn sets_from(code: &Code, rows: &[u64; 64], (pivots, patterns): &([u64; 64], [u64; 64]), wanted: u64) -> Option<[u64; 64]> {
        let symbols = code.n * code.r;
        if elements(wanted, symbols).any(|t| patterns[..code.k].iter().any(|&pattern| odd(pattern, code.rows[t]))) {
            return None;
        }
        let mut sets = [0; 64];
        for t in elements(wanted, symbols) {
            sets[t] = subset_for(pivots, &rows[..symbols], code.rows[t]);
        }
        Some(sets)
    }

    /// The edition 3 sheet of a set for each wanted symbol.
    fn write(code: &Code, disks: &[u8], list: &[u8], wanted: u64, sets: &[u64; 64], buffer: &mut [u8]) -> u64 {
        let symbols = code.n * code.r;
        let start = 10 + disks.len() + list.len();
        let (mut at, mut sources) = (start, 0u64);
        for t in elements(wanted, symbols) {
            let subset = sets[t];
            sources |= subset;
            let mut kind = 1;
            for s in elements(subset, symbols) {
                buffer[at..at + 3].copy_from_slice(&[kind, t as u8, s as u8]);
                (kind, at) = (2, at + 3);
            }
            if subset == 0 {
                buffer[at..at + 3].copy_from_slice(&[0, t as u8, 0]);
                at += 3;
            }
        }
        let (reads, steps) = (sources.count_ones() as u8, (at - start) / 3);
        buffer[..7].copy_from_slice(&[5, 3, code.n as u8, code.r as u8, code.k as u8, reads, disks.len() as u8]);
        buffer[7..7 + disks.len()].copy_from_slice(disks);
        buffer[7 + disks.len()] = list.len() as u8;
        buffer[8 + disks.len()..start - 2].copy_from_slice(list);
        buffer[start - 2..start].copy_from_slice(&(steps as u16).to_le_bytes());
        1000 + reads as u64
    }

    /// A disk is away, or idle at a price per symbol, or busy at a price and a factor.
    #[derive(Clone, Copy)]
    enum DiskState {
        Away,
        Idle { price: f64 },
        Busy { price: f64, factor: f64 },
    }

    /// The states of the disks, or 42.
    fn states_of(states: &super::States, disks: usize) -> Result<[DiskState; 64], u64> {
        let mut told = [DiskState::Away; 64];
        for (disk, state) in told[..disks].iter_mut().enumerate() {
            let price = states.prices.get(disk).filter(|price| (0.0..=1_000_000.0).contains(*price));
            let factor = states.factors.get(disk).filter(|factor| (1.0..=64.0).contains(*factor));
            *state = match (states.kinds.get(disk), price, factor) {
                (Some(0), _, _) => DiskState::Away,
                (Some(1), Some(&price), _) => DiskState::Idle { price },
                (Some(2), Some(&price), Some(&factor)) => DiskState::Busy { price, factor },
                _ => return Err(42),
            };
        }
        Ok(told)
    }

    /// What a search for cheaper sets goes by: the disks' strips and states, the wanted symbols and the equations.
    struct Swaps<'a> {
        strips: &'a [u64],
        states: &'a [DiskState],
        wanted: u64,
        equations: &'a [u64],
    }

    impl Swaps<'_> {
        /// The charges of the disks, added in their order.
        fn sum_of(&self, read: u64) -> f64 {
            let mut sum = 0.0;
            for (strip, state) in self.strips.iter().zip(self.states) {
                let reads = (read & strip).count_ones() as f64;
                sum += match *state {
                    DiskState::Away => 0.0,
                    DiskState::Idle { price } => reads * price,
                    DiskState::Busy { price, factor } => reads * price * factor,
                };
            }
            sum
        }

        /// The first swap that lowers the sum, of some symbols: the symbol, and what its set becomes.
        fn among(&self, sets: &[u64; 64], cost: f64, targets: std::ops::Range<usize>) -> Option<(usize, u64)> {
            for target in targets.filter(|t| self.wanted >> t & 1 == 1) {
                let own = sets[target];
                let others = sets[..target].iter().chain(&sets[target + 1..]).fold(0, |read, set| read | set);
                for equation in self.equations {
                    if self.sum_of(others | (own ^ equation)) < cost {
                        return Some((target, own ^ equation));
                    }
                }
            }
            None
        }

        /// Swaps until none lowers the sum or 1,024 are made: the sum, and whether none does.
        fn settle(&self, sets: &mut [u64; 64], symbols: usize) -> (f64, bool) {
            let mut cost = self.sum_of(sets.iter().fold(0, |read, set| read | set));
            let (mut swaps, mut from) = (0, 0);
            while let Some((target, set)) = self.among(sets, cost, from..symbols).or_else(|| self.among(sets, cost, 0..from)) {
                if swaps == 1024 {
                    return (cost, false);
                }
                sets[target] = set;
                cost = self.sum_of(sets.iter().fold(0, |read, set| read | set));
                (swaps, from) = (swaps + 1, target);
            }
            (cost, true)
        }
    }

    /// Planning at prices by the same method: the plan of ordinary planning with the away disks lost too, then the same swaps.
    #[inline(never)]
    pub fn priced(sheet: &[u8], disks: &[u8], list: &[u8], states: &super::States, buffer: &mut [u8]) -> super::Priced {
        let refused = |answer: u64| super::Priced { answer, sum: 0.0, settled: false };
        let Asked { code, lost, wanted } = match asked(sheet, disks, list, buffer.len()) {
            Ok(asked) => asked,
            Err(number) => return refused(number),
        };
        let states = match states_of(states, code.n) {
            Ok(states) => states,
            Err(number) => return refused(number),
        };
        let symbols = code.n * code.r;
        let lost = lost | code.strips((0..code.n).filter(|&disk| matches!(states[disk], DiskState::Away)));
        let rows = code.rows_of(code.all() & !lost);
        let eliminated = eliminate(&rows[..symbols], code.k);
        let Some(mut sets) = sets_from(&code, &rows, &eliminated, wanted) else { return refused(999) };
        let (mut equations, mut count) = ([0; 64], 0);
        for s in elements(code.all() & !lost, symbols).filter(|&s| eliminated.0[s] == 0) {
            equations[count] = subset_for(&eliminated.0, &rows[..symbols], rows[s]) ^ 1 << s;
            count += 1;
        }
        let mut strips = [0; 64];
        for (disk, strip) in strips[..code.n].iter_mut().enumerate() {
            *strip = code.strips([disk].into_iter());
        }
        let swaps = Swaps { strips: &strips[..code.n], states: &states, wanted, equations: &equations[..count] };
        let (sum, settled) = swaps.settle(&mut sets, symbols);
        let lost_disks: Vec<u8> = (0..code.n).filter(|&disk| lost & strips[disk] != 0).map(|disk| disk as u8).collect();
        let list: Vec<u8> = elements(wanted, symbols).map(|s| s as u8).collect();
        super::Priced { answer: write(&code, &lost_disks, &list, wanted, &sets, buffer), sum, settled }
    }

    /// The test by the same equations, with one pass over the bytes for each symbol of an equation.
    #[inline(never)]
    pub fn test(sheet: &[u8], disks: &[u8], size: usize, stripe: &[u8]) -> u64 {
        let code = match read(sheet) {
            Ok(code) => code,
            Err(number) => return number,
        };
        if disks.iter().any(|&disk| disk as usize >= code.n) {
            return 7;
        }
        if disks.is_empty() || disks.len() > code.n || disks.windows(2).any(|pair| pair[0] >= pair[1]) {
            return 24;
        }
        if size == 0 || size > 65536 {
            return 31;
        }
        let symbols = code.n * code.r;
        if stripe.len() != symbols * size {
            return 32;
        }
        let mut rows = code.rows;
        for &disk in disks {
            rows[disk as usize * code.r..(disk as usize + 1) * code.r].fill(0);
        }
        let (pivots, _) = eliminate(&rows[..symbols], code.k);
        let (mut sum, mut lowest) = (vec![0u8; size], size);
        for s in (0..symbols).filter(|s| !disks.contains(&((s / code.r) as u8))) {
            // Of a row with a pivot the equation is empty.
            if pivots[s] != 0 {
                continue;
            }
            let equation = subset_for(&pivots, &rows[..symbols], rows[s]) ^ 1 << s;
            sum.fill(0);
            for t in (0..symbols).filter(|t| equation >> t & 1 == 1) {
                for (a, b) in sum.iter_mut().zip(&stripe[t * size..(t + 1) * size]) {
                    *a ^= *b;
                }
            }
            if super::union_of(&sum[..lowest]) != 0 {
                lowest = sum.iter().position(|&byte| byte != 0).unwrap_or(lowest);
            }
        }
        if lowest < size {
            2000 + lowest as u64
        } else {
            1000
        }
    }

    #[inline(never)]
    pub fn rebuild(sheet: &[u8], disk: usize, plan: &[u8], size: usize, stripe: &mut [u8]) -> u64 {
        let answer = check(sheet, disk, plan);
        if answer < 1000 {
            return answer;
        }
        if size == 0 || size > 65536 {
            return 31;
        }
        if stripe.len() != plan[2] as usize * plan[3] as usize * size {
            return 32;
        }
        for step in plan[9..].chunks_exact(3) {
            let (target, source) = (step[1] as usize * size, step[2] as usize * size);
            match step[0] {
                0 => stripe[target..target + size].fill(0),
                1 => stripe.copy_within(source..source + size, target),
                _ => {
                    for i in 0..size {
                        stripe[target + i] ^= stripe[source + i];
                    }
                }
            }
        }
        0
    }
}

/// Bytes read once: their union.
#[inline(never)]
fn union_of(bytes: &[u8]) -> u8 {
    bytes.iter().fold(0, |all, byte| all | byte)
}

/// The rows of Liberation with k data disks.
fn liberation_rows(w: usize, k: usize) -> Vec<u64> {
    let mut rows: Vec<u64> = (0..k * w).map(|t| 1 << t).collect();
    rows.extend((0..w).map(|i| (0..k).map(|c| 1u64 << (c * w + i)).sum::<u64>()));
    for i in 0..w {
        let mut row = 0;
        for c in 0..k {
            row ^= 1u64 << (c * w + (i + c) % w);
            let y = c * (w - 1) / 2 % w;
            if c > 0 && y == i {
                row ^= 1u64 << (c * w + (y + c - 1) % w);
            }
        }
        rows.push(row);
    }
    rows
}

/// A code sheet: n, r, K and the rows.
fn code_sheet(n: usize, r: usize, k: usize, rows: &[u64]) -> Vec<u8> {
    let mut sheet = vec![4, 1, n as u8, r as u8, k as u8, rows.len() as u8];
    sheet.extend(rows.iter().flat_map(|row| row.to_le_bytes()));
    sheet
}

/// The sheet of Liberation.
fn liberation_sheet(w: usize, k: usize) -> Vec<u8> {
    code_sheet(k + 2, w, k * w, &liberation_rows(w, k))
}

/// The sheet of single parity with disks of one row.
fn parity_sheet(k: usize) -> Vec<u8> {
    let rows: Vec<u64> = (0..k).map(|t| 1 << t).chain([(1 << k) - 1]).collect();
    code_sheet(k + 1, 1, k, &rows)
}

/// The sheet of row-diagonal: the diagonals of Q go over the data disks and P.
fn row_diagonal_sheet(p: usize) -> Vec<u8> {
    let r = p - 1;
    let mut rows: Vec<u64> = (0..r * r).map(|t| 1 << t).collect();
    rows.extend((0..r).map(|i| (0..r).fold(0, |row, c| row | 1 << (c * r + i))));
    let on_diagonal = |s: usize, i: usize| (s / r + s % r) % p == i;
    let diagonals: Vec<u64> = (0..r).map(|i| (0..p * r).filter(|&s| on_diagonal(s, i)).fold(0, |row, s| row ^ rows[s])).collect();
    rows.extend(diagonals);
    code_sheet(p + 1, r, r * r, &rows)
}

/// Numbers in which all bits are random.
fn random_numbers(seed: u64) -> impl FnMut() -> u64 {
    let mut state = seed;
    move || {
        state = state.wrapping_mul(6364136223846793005).wrapping_add(1442695040888963407);
        (state ^ state >> 29).wrapping_mul(0x2545F4914F6CDD1D)
    }
}

/// The sheet of a random code on two disks of 16 rows, each of them the sum of some of so many random ones.
fn random_sheet(k: usize, rank: usize, seed: u64) -> Vec<u8> {
    let mut next = random_numbers(seed);
    let basis: Vec<u64> = (0..rank).map(|_| next() >> (64 - k)).collect();
    let mut sum = || {
        let chosen = next() >> (64 - rank);
        (0..rank).filter(|i| chosen >> i & 1 == 1).fold(0, |sum, i| sum ^ basis[i])
    };
    let rows: Vec<u64> = (0..32).map(|_| sum()).collect();
    code_sheet(2, 16, k, &rows)
}

/// The sheet of a random code with K 16 on 64 disks of one row. With 16 disks lost there are 32 equations.
fn wide_sheet(seed: u64) -> Vec<u8> {
    let mut next = random_numbers(seed);
    let rows: Vec<u64> = (0..64).map(|_| next() >> 48).collect();
    code_sheet(64, 1, 16, &rows)
}

/// A code on 64 disks of one row, and prices, for which the search for cheaper sets counts down from 2,047 one by one, so that it is stopped. Disk 0 is the sum
/// of eleven, at the prices 1, 2, 4 and so on; eleven more, at the price 0, are the sum of the first, of the first two and so on. Those between disk 0 and
/// these are zero, so that each is an equation, which is tried before each swap in vain.
fn counting_sheet() -> (Vec<u8>, Vec<f64>) {
    let (units, sums) = ((0..11).map(|i| 1 << i), (0..11).map(|j| (2 << j) - 1));
    let rows: Vec<u64> = [2047].into_iter().chain([0; 41]).chain(units.clone()).chain(sums).collect();
    let prices = [1.0; 42].into_iter().chain(units.map(|price| price as f64)).chain([0.0; 11]).collect();
    (code_sheet(64, 1, 11, &rows), prices)
}

/// Of so many random codes the one for which the search branches most often: its number and its sheet.
fn hardest_random_sheet(k: usize, rank: usize, codes: u64) -> (u64, Vec<u8>) {
    let hardest = (0..codes).max_by_key(|&seed| simple::branchings(&random_sheet(k, rank, seed))).unwrap_or(0);
    (hardest, random_sheet(k, rank, hardest))
}

/// The sheet of a code with K 64 on two disks of 32 rows: every row has about half its bits, so that elimination has most to do.
fn dense_sheet() -> Vec<u8> {
    let mut state = 1u64;
    let mut sheet = vec![4, 1, 2, 32, 64, 64];
    for _ in 0..64 {
        state = state.wrapping_mul(6364136223846793005).wrapping_add(1442695040888963407);
        sheet.extend((state ^ state >> 29).to_le_bytes());
    }
    sheet
}

/// The sheet of a code with N 64, K 64 whose disk 0 can be rebuilt: 32 rows of disk 1 with about half their bits, and on disk 0 sums of them.
fn dense_plannable_sheet() -> Vec<u8> {
    let mut sheet = dense_sheet();
    let row = |sheet: &[u8], s: usize| u64::from_le_bytes(sheet[6 + 8 * s..14 + 8 * s].try_into().unwrap());
    for s in 0..32 {
        let chosen = row(&sheet, s);
        let sum = (0..32).filter(|b| chosen >> b & 1 == 1).fold(0, |sum, b| sum ^ row(&sheet, 32 + b));
        sheet[6 + 8 * s..14 + 8 * s].copy_from_slice(&sum.to_le_bytes());
    }
    sheet
}

/// The plan for disk 0 of w 5, k 5: rows 0 and 1 from P, rows 2 to 4 from Q. It reads 20 symbols in 28 steps.
fn plan_with_20_reads() -> Vec<u8> {
    let rows = liberation_rows(5, 5);
    let mut steps = Vec::new();
    for lost in 0..5 {
        let parity = if lost < 2 { 25 + lost } else { 30 + lost };
        steps.extend([1, lost as u8, parity as u8]);
        for t in (0..25).filter(|&t| t != lost && rows[parity] >> t & 1 == 1) {
            steps.extend([2, lost as u8, t as u8]);
        }
    }
    let mut plan = vec![6, 1, 7, 5, 25, 0, 20, (steps.len() / 3) as u8, 0];
    plan.extend(steps);
    plan
}

/// Two calls in turn: the median of each, in nanoseconds a call.
fn interleaved(calls: usize, mut ours: impl FnMut() -> u64, mut theirs: impl FnMut() -> u64) -> (f64, f64) {
    let time = |call: &mut dyn FnMut() -> u64| {
        let begun = Instant::now();
        for _ in 0..calls {
            black_box(call());
        }
        begun.elapsed().as_nanos() as f64 / calls as f64
    };
    let (mut a, mut b) = (Vec::new(), Vec::new());
    for _ in 0..101 {
        a.push(time(&mut ours));
        b.push(time(&mut theirs));
    }
    let median = |times: &mut Vec<f64>| {
        times.sort_by(f64::total_cmp);
        times[times.len() / 2]
    };
    (median(&mut a), median(&mut b))
}

/// One line of the table: microseconds of both sides, and the ratio, which it answers.
fn row(what: &str, other: &str, (ours, theirs): (f64, f64)) -> f64 {
    println!("| {what} | {other} | {:.1} | {:.1} | {:.2} |", ours / 1000.0, theirs / 1000.0, ours / theirs);
    ours / theirs
}

/// A stripe that begins at a multiple of 64, as ISA-L asks.
struct Aligned {
    bytes: Vec<u8>,
    start: usize,
    length: usize,
}

impl Aligned {
    fn of(stripe: &[u8]) -> Aligned {
        let mut bytes = vec![0; stripe.len() + 64];
        let start = bytes.as_ptr().align_offset(64);
        bytes[start..start + stripe.len()].copy_from_slice(stripe);
        Aligned { bytes, start, length: stripe.len() }
    }

    fn stripe(&mut self) -> &mut [u8] {
        &mut self.bytes[self.start..self.start + self.length]
    }
}

/// The line of encoding, and its ratio to simple Rust.
fn encoding(sheet: &[u8], size: usize) -> f64 {
    let contents: Vec<u8> = (0..25 * size).map(|i| (i * 7 + i / 251) as u8).collect();
    let (mut ours, mut theirs) = (vec![1u8; 35 * size], vec![2u8; 35 * size]);
    assert_eq!(proved::encode(sheet, size, &contents, &mut ours), 0);
    assert_eq!(simple::encode(sheet, size, &contents, &mut theirs), 0);
    assert!(ours == theirs, "the two encoders disagree");
    let calls = (2_000_000 / (size * 60 + 2000)).max(1);
    let times = interleaved(
        calls,
        || proved::encode(sheet, size, &contents, &mut ours),
        || simple::encode(sheet, size, &contents, &mut theirs),
    );
    row(&format!("encode, L {size}"), "simple Rust", times)
}

fn planning(what: &str, sheet: &[u8], answer: u64) {
    let (mut ours, mut theirs) = (vec![1u8; 3081], vec![1u8; 3081]);
    assert_eq!(proved::plan(sheet, 0, &mut ours), answer);
    assert_eq!(simple::plan(sheet, 0, &mut theirs), answer);
    assert!(ours == theirs, "the two planners disagree");
    let theirs = || simple::plan(sheet, 0, &mut theirs);
    row(&format!("plan, {what}"), "simple Rust", interleaved(100, || proved::plan(sheet, 0, &mut ours), theirs));
}

/// The line of planning with the fewest reads: its ratio to simple Rust, and the time of a call of ours in milliseconds.
fn planning_fewest(what: &str, sheet: &[u8], disks: &[u8]) -> (f64, f64) {
    let (mut ours, mut theirs) = (vec![1u8; 3210], vec![1u8; 3210]);
    let answer = proved::fewest(sheet, disks, &[], &mut ours);
    assert!(answer >= 1000 && simple::fewest(sheet, disks, &[], &mut theirs) == answer && ours == theirs, "the two planners disagree");
    let time = Instant::now();
    proved::fewest(sheet, disks, &[], &mut ours);
    let calls = (1_000_000 / time.elapsed().as_nanos().max(1000)) as usize + 1;
    let theirs = || simple::fewest(sheet, disks, &[], &mut theirs);
    let times = interleaved(calls, || proved::fewest(sheet, disks, &[], &mut ours), theirs);
    (row(&format!("fewest, {what}"), "simple Rust", times), times.0 / 1_000_000.0)
}

/// The lines of planning with the fewest reads: each ratio to simple Rust, and the longest time of ours in milliseconds. Of a random code disk 0 is
/// lost: 16 symbols are wanted, and 16 survive.
fn fewest() -> (Vec<(String, f64)>, f64) {
    let ((small, small_sheet), (large, large_sheet)) = (hardest_random_sheet(8, 8, 1000), hardest_random_sheet(64, 9, 100));
    let lines = [
        ("Liberation w 5, k 2, disk 0".to_string(), liberation_sheet(5, 2), &[0][..]),
        ("single parity, 17 disks, disk 0".to_string(), parity_sheet(16), &[0]),
        ("row-diagonal p 5, disks 0 and 1".to_string(), row_diagonal_sheet(5), &[0, 1]),
        (format!("random code {small} of 1,000, K 8"), small_sheet, &[0]),
        (format!("random code {large} of 100, K 64, rank 9"), large_sheet, &[0]),
    ];
    let mut longest = 0f64;
    let ratios = lines.iter().map(|(what, sheet, disks)| {
        let (ratio, time) = planning_fewest(what, sheet, disks);
        longest = longest.max(time);
        (format!("fewest, {what}"), ratio)
    });
    (ratios.collect(), longest)
}

/// A line that is held to a bound: what was measured, against what, the ratio and the bound.
struct Held {
    what: String,
    other: &'static str,
    ratio: f64,
    bound: f64,
}

/// The line of planning at prices: its ratio to simple Rust, and the time of a call of ours in milliseconds.
fn planning_priced(what: &str, sheet: &[u8], disks: &[u8], states: &States) -> (Held, f64) {
    let (mut ours, mut theirs) = (vec![1u8; 3210], vec![1u8; 3210]);
    let answer = proved::priced(sheet, disks, &[], states, &mut ours);
    assert!(answer.answer >= 1000, "{what}: {answer:?}");
    assert_eq!(simple::priced(sheet, disks, &[], states, &mut theirs), answer, "{what}");
    assert!(ours == theirs, "the two planners disagree: {what}");
    let time = Instant::now();
    proved::priced(sheet, disks, &[], states, &mut ours);
    let calls = (1_000_000 / time.elapsed().as_nanos().max(1000)) as usize + 1;
    let theirs = || simple::priced(sheet, disks, &[], states, &mut theirs).answer;
    let times = interleaved(calls, || proved::priced(sheet, disks, &[], states, &mut ours).answer, theirs);
    let (what, other) = (format!("priced, {what}"), "simple Rust");
    (Held { ratio: row(&what, other, times), what, other, bound: 1.3 }, times.0 / 1_000_000.0)
}

/// The line of planning at prices beside ordinary planning for the same disks.
fn beside_planning(what: &str, sheet: &[u8], disks: &[u8], states: &States) -> Held {
    let (mut ours, mut theirs) = (vec![1u8; 3210], vec![1u8; 3210]);
    let ordinary = || proved::plan_disks(sheet, disks, &[], &mut theirs);
    let times = interleaved(100, || proved::priced(sheet, disks, &[], states, &mut ours).answer, ordinary);
    let (what, other) = (format!("priced, {what}"), "ordinary planning");
    Held { ratio: row(&what, other, times), what, other, bound: 10.0 }
}

/// Disks that are idle at a price each.
fn idle(prices: Vec<f64>) -> States {
    States { kinds: vec![1; prices.len()], prices, factors: Vec::new() }
}

/// The lines of planning at prices: ratios with their bounds, and the longest time of ours in milliseconds, but for the search that is made to be long.
fn priced() -> (Vec<Held>, f64) {
    let (what, liberation, ones) = ("Liberation w 7, k 7, disk 0, every price 1", liberation_sheet(7, 7), idle(vec![1.0; 9]));
    let mut held = vec![beside_planning(what, &liberation, &[0], &ones)];
    let (wide, lost, mut next) = (wide_sheet(1), Vec::from_iter(0..16), random_numbers(2));
    let any = idle((0..64).map(|_| (1 + next() % 100) as f64).collect());
    let mut longest = 0f64;
    for (what, sheet, disks, states) in [
        (what, &liberation, &[0][..], ones),
        ("random code, N 64, 16 lost, every price 1", &wide, &lost, idle(vec![1.0; 64])),
        ("random code, N 64, 16 lost, prices 1 to 100", &wide, &lost, any),
    ] {
        let (line, time) = planning_priced(what, sheet, disks, &states);
        held.push(line);
        longest = longest.max(time);
    }
    let (counting, prices) = counting_sheet();
    held.push(planning_priced("N 64, stopped after 1,024 swaps", &counting, &[0], &idle(prices)).0);
    (held, longest)
}

/// The lines of rebuilding, and its ratio to simple Rust.
fn rebuilding(sheet: &[u8], plan: &[u8], size: usize) -> f64 {
    let contents: Vec<u8> = (0..25 * size).map(|i| (i * 11 + i / 239) as u8).collect();
    let mut stripe = vec![0u8; 35 * size];
    assert_eq!(simple::encode(sheet, size, &contents, &mut stripe), 0);
    let mut ruined = stripe.clone();
    ruined[..5 * size].fill(0xff);
    let calls = (2_000_000 / (size * 30 + 1000)).max(1);
    let what = format!("rebuild, L {size}");
    let against = |other: &str, work: &mut dyn FnMut(&mut [u8]) -> u64| {
        let (mut ours, mut theirs) = (Aligned::of(&ruined), Aligned::of(&ruined));
        assert_eq!((proved::rebuild(sheet, 0, plan, size, ours.stripe()), work(theirs.stripe())), (0, 0));
        assert!(ours.stripe() == stripe && theirs.stripe() == stripe, "a rebuild is wrong: {other}");
        let times = interleaved(calls, || proved::rebuild(sheet, 0, plan, size, ours.stripe()), || work(theirs.stripe()));
        row(&what, other, times)
    };
    let ratio = against("simple Rust", &mut |stripe| simple::rebuild(sheet, 0, plan, size, stripe));
    #[cfg(jerasure)]
    if size % 8 == 0 {
        let decoder = jerasure::Decoder::new();
        against("Jerasure, cached schedule, no test", &mut |stripe| decoder.rebuild(size, stripe));
    }
    let sums = sums(plan);
    #[cfg(isal)]
    if size % 32 == 0 {
        against("ISA-L xor_gen, no test", &mut |stripe| isal::rebuild(&sums, size, stripe));
    }
    against("one pass a lost symbol in C, gcc -O3, SSE2, no test", &mut |stripe| kernel::rebuild(&sums, size, stripe));
    ratio
}

/// The lines of the test of survivors, with one disk lost, and its ratio to simple Rust.
fn testing(sheet: &[u8], lost: u8, size: usize) -> f64 {
    let contents: Vec<u8> = (0..25 * size).map(|i| (i * 13 + i / 241) as u8).collect();
    let mut stripe = vec![0u8; 35 * size];
    assert_eq!(simple::encode(sheet, size, &contents, &mut stripe), 0);
    let strip = lost as usize * 5 * size..(lost as usize + 1) * 5 * size;
    stripe[strip.clone()].fill(0xdb);
    let mut damaged = stripe.clone();
    damaged[15 * size + size / 2] ^= 1;
    for (given, answer) in [(&stripe, 1000), (&damaged, 2000 + size as u64 / 2)] {
        assert_eq!((proved::test(sheet, &[lost], size, given), simple::test(sheet, &[lost], size, given)), (answer, answer));
    }
    let calls = (2_000_000 / (size * 40 + 3000)).max(1);
    let what = format!("test, disk {lost} lost, L {size}");
    let against = |other: &str, work: &mut dyn FnMut() -> u64| row(&what, other, interleaved(calls, || proved::test(sheet, &[lost], size, &stripe), work));
    let ratio = against("simple Rust", &mut || simple::test(sheet, &[lost], size, &stripe));
    if lost == 6 {
        let mut again = vec![0u8; 35 * size];
        against("encoding and comparing", &mut || {
            let refused = proved::encode(sheet, size, &stripe[..25 * size], &mut again);
            refused + u64::from(again[..strip.start] != stripe[..strip.start])
        });
    }
    against("reading the survivors once", &mut || (union_of(&stripe[..strip.start]) | union_of(&stripe[strip.end..])).into());
    ratio
}

/// The loops over bytes are fast only where the compiler makes one of its own for each number of sources. It says nothing where it doesn't, so
/// this does: the lines at L 4,096, those of planning with the fewest reads and at prices, and whether all are within their bounds.
fn check(sheet: &[u8], plan: &[u8]) -> bool {
    let beside_simple = |what: &str, ratio: f64, bound: f64| Held { what: what.to_string(), other: "simple Rust", ratio, bound };
    let mut held = vec![
        beside_simple("encode, L 4096", encoding(sheet, 4096), 0.9),
        beside_simple("rebuild, L 4096", rebuilding(sheet, plan, 4096), 0.8),
        beside_simple("test, disk 0 lost, L 4096", testing(sheet, 0, 4096), 0.9),
        beside_simple("test, disk 6 lost, L 4096", testing(sheet, 6, 4096), 0.9),
    ];
    let (of_fewest, longest_fewest) = fewest();
    held.extend(of_fewest.into_iter().map(|(what, ratio)| beside_simple(&what, ratio, 1.3)));
    let (of_priced, longest_priced) = priced();
    held.extend(of_priced);
    let longest = [("fewest", longest_fewest, LONGEST_FEWEST), ("priced", longest_priced, LONGEST_PRICED)];
    let is_within = |measured: f64, bound: f64| if measured <= bound { "within" } else { "ABOVE" };
    for Held { what, other, ratio, bound } in &held {
        println!("{what}: {ratio:.2} of {other}, {} {bound}", is_within(*ratio, *bound));
    }
    for (what, time, bound) in longest {
        println!("{what}, the longest call: {time:.2} ms, {} {bound}", is_within(time, bound));
    }
    held.iter().all(|held| held.ratio <= held.bound) && longest.iter().all(|(_, time, bound)| time <= bound)
}

/// So many milliseconds planning with the fewest reads may take.
const LONGEST_FEWEST: f64 = 20.0;

/// So many milliseconds planning at prices may take.
const LONGEST_PRICED: f64 = 5.0;

fn main() {
    if std::env::args().any(|word| word == "--reads") {
        return reads::table();
    }
    let (sheet, plan) = (liberation_sheet(5, 5), plan_with_20_reads());
    assert_eq!((proved::check(&sheet, 0, &plan), simple::check(&sheet, 0, &plan)), (1020, 1020));
    let sizes = [1usize, 64, 1024, 4096, 65536];
    println!("| call | against | proved, µs | other, µs | ratio |");
    println!("|---|---|---|---|---|");
    if std::env::args().any(|word| word == "--check") {
        std::process::exit(i32::from(!check(&sheet, &plan)));
    }
    for size in sizes {
        encoding(&sheet, size);
    }
    planning("N 64, K 64", &dense_plannable_sheet(), 1032);
    planning("N 64, K 64, none exists", &dense_sheet(), 999);
    planning("Liberation w 7, k 7", &liberation_sheet(7, 7), 1049);
    fewest();
    priced();
    let times = interleaved(1000, || proved::check(&sheet, 0, black_box(&plan)), || simple::check(&sheet, 0, black_box(&plan)));
    row("check, 28 steps", "simple Rust", times);
    for size in sizes {
        rebuilding(&sheet, &plan, size);
    }
    for (lost, size) in [0, 6].into_iter().flat_map(|lost| sizes.map(|size| (lost, size))) {
        testing(&sheet, lost, size);
    }
}
