//! The proved calls across C's calling convention, each behind a safe function. This is the crate's only `unsafe` code.
//!
//! Why every call is sound: a slice goes over as its own pointer and length, so the callee sees memory that is valid for
//! that length for the whole call; a `&mut` slice is borrowed mutably, so nothing else reads or writes it meanwhile, and no
//! two arguments overlap; the callee is proved to stay within its slices, to end and to keep no pointer; answers are
//! structs of plain numbers, which have no invalid value.
#![allow(unsafe_code)]

/// Number and place of a refusal; number 0 where nothing was refused.
#[repr(C)]
#[derive(Clone, Copy)]
pub struct Verdict {
    pub number: u64,
    pub place: u64,
}

/// A code that was read: n, r, K and N.
#[repr(C)]
#[derive(Clone, Copy)]
pub struct Code {
    pub number: u64,
    pub place: u64,
    pub disks: u64,
    pub rows: u64,
    pub data_symbols: u64,
    pub symbols: u64,
}

/// A sheet that was written.
#[repr(C)]
#[derive(Clone, Copy)]
pub struct Sheet {
    pub number: u64,
    pub place: u64,
    pub length: u64,
}

/// A plan that was checked.
#[repr(C)]
#[derive(Clone, Copy)]
pub struct Checked {
    pub number: u64,
    pub place: u64,
    pub reads: u64,
}

/// Disks that were planned for: with a length a plan, with patterns none.
#[repr(C)]
#[derive(Clone, Copy)]
pub struct Planned {
    pub number: u64,
    pub place: u64,
    pub length: u64,
    pub reads: u64,
    pub pattern: u64,
    pub pattern_high: u64,
    pub patterns: u64,
}

/// Disks that were planned for at prices: as above, with whether no swap lowers the sum, 1 or 0, and the sum.
#[repr(C)]
#[derive(Clone, Copy)]
pub struct Priced {
    pub number: u64,
    pub place: u64,
    pub length: u64,
    pub reads: u64,
    pub settled: u64,
    pub sum: f64,
    pub pattern: u64,
    pub pattern_high: u64,
    pub patterns: u64,
}

/// A set of data symbols, or of symbols: the low 64 and the high 64 of 128 bits.
#[repr(C)]
#[derive(Clone, Copy)]
pub struct Set {
    pub number: u64,
    pub place: u64,
    pub low: u64,
    pub high: u64,
}

/// How many equations there are.
#[repr(C)]
#[derive(Clone, Copy)]
pub struct Count {
    pub number: u64,
    pub place: u64,
    pub count: u64,
}

/// Survivors that were tested: sound is 1, or it is 0, with the lowest column that shows it.
#[repr(C)]
#[derive(Clone, Copy)]
pub struct Tested {
    pub number: u64,
    pub place: u64,
    pub sound: u64,
    pub column: u64,
}

/// A part of the stripe (slice 0) or of the spare strip (slice 1).
#[repr(C)]
#[derive(Clone, Copy)]
pub struct Part {
    pub slice: u64,
    pub start: u64,
    pub length: u64,
}

type Bytes = *const u8;
type BytesMut = *mut u8;
type Floats = *const f64;

extern "C" {
    fn navorzim_read_code(sheet: Bytes, sheet_length: usize) -> Code;
    fn navorzim_single_parity(data_disks: u64, rows: u64, buffer: BytesMut, buffer_length: usize) -> Sheet;
    fn navorzim_liberation(w: u64, data_disks: u64, buffer: BytesMut, buffer_length: usize) -> Sheet;
    fn navorzim_row_diagonal(p: u64, buffer: BytesMut, buffer_length: usize) -> Sheet;
    fn navorzim_evenodd(p: u64, buffer: BytesMut, buffer_length: usize) -> Sheet;
    fn navorzim_encode(
        sheet: Bytes,
        sheet_length: usize,
        size: u64,
        contents: Bytes,
        contents_length: usize,
        stripe: BytesMut,
        stripe_length: usize,
    ) -> Verdict;
    fn navorzim_check(sheet: Bytes, sheet_length: usize, disk: u64, plan: Bytes, plan_length: usize) -> Checked;
    fn navorzim_check_disks(
        sheet: Bytes,
        sheet_length: usize,
        disks: Bytes,
        disks_length: usize,
        plan: Bytes,
        plan_length: usize,
    ) -> Checked;
    fn navorzim_plan(sheet: Bytes, sheet_length: usize, disk: u64, buffer: BytesMut, buffer_length: usize) -> Planned;
    fn navorzim_plan_wanted(
        sheet: Bytes,
        sheet_length: usize,
        disk: u64,
        wanted: Bytes,
        wanted_length: usize,
        buffer: BytesMut,
        buffer_length: usize,
    ) -> Planned;
    fn navorzim_plan_disks(
        sheet: Bytes,
        sheet_length: usize,
        disks: Bytes,
        disks_length: usize,
        wanted: Bytes,
        wanted_length: usize,
        buffer: BytesMut,
        buffer_length: usize,
    ) -> Planned;
    fn navorzim_plan_fewest(
        sheet: Bytes,
        sheet_length: usize,
        disks: Bytes,
        disks_length: usize,
        wanted: Bytes,
        wanted_length: usize,
        buffer: BytesMut,
        buffer_length: usize,
    ) -> Planned;
    fn navorzim_plan_priced(
        sheet: Bytes,
        sheet_length: usize,
        disks: Bytes,
        disks_length: usize,
        wanted: Bytes,
        wanted_length: usize,
        kinds: Bytes,
        kinds_length: usize,
        prices: Floats,
        prices_length: usize,
        factors: Floats,
        factors_length: usize,
        buffer: BytesMut,
        buffer_length: usize,
    ) -> Priced;
    fn navorzim_lost_pattern(
        sheet: Bytes,
        sheet_length: usize,
        disks: Bytes,
        disks_length: usize,
        wanted: Bytes,
        wanted_length: usize,
        index: u64,
    ) -> Set;
    fn navorzim_rebuild(
        sheet: Bytes,
        sheet_length: usize,
        disk: u64,
        plan: Bytes,
        plan_length: usize,
        size: u64,
        stripe: BytesMut,
        stripe_length: usize,
    ) -> Verdict;
    fn navorzim_rebuild_disks(
        sheet: Bytes,
        sheet_length: usize,
        disks: Bytes,
        disks_length: usize,
        plan: Bytes,
        plan_length: usize,
        size: u64,
        stripe: BytesMut,
        stripe_length: usize,
    ) -> Verdict;
    fn navorzim_equations(sheet: Bytes, sheet_length: usize, disks: Bytes, disks_length: usize) -> Count;
    fn navorzim_equation(sheet: Bytes, sheet_length: usize, disks: Bytes, disks_length: usize, index: u64) -> Set;
    fn navorzim_test_survivors(
        sheet: Bytes,
        sheet_length: usize,
        disks: Bytes,
        disks_length: usize,
        size: u64,
        stripe: Bytes,
        stripe_length: usize,
    ) -> Tested;
    fn navorzim_strip(
        sheet: Bytes,
        sheet_length: usize,
        disk: u64,
        size: u64,
        stripe: Bytes,
        stripe_length: usize,
    ) -> Part;
    fn navorzim_strip_verdict(
        sheet: Bytes,
        sheet_length: usize,
        disk: u64,
        size: u64,
        stripe: Bytes,
        stripe_length: usize,
    ) -> Verdict;
    fn navorzim_look_up(
        sheet: Bytes,
        sheet_length: usize,
        disk: u64,
        size: u64,
        stripe: Bytes,
        stripe_length: usize,
        spare: Bytes,
        spare_length: usize,
        symbol: u64,
    ) -> Part;
    fn navorzim_look_up_verdict(
        sheet: Bytes,
        sheet_length: usize,
        disk: u64,
        size: u64,
        stripe: Bytes,
        stripe_length: usize,
        spare: Bytes,
        spare_length: usize,
        symbol: u64,
    ) -> Verdict;
}

// SAFETY, for each function below: as the module's comment says.

pub fn read_code(sheet: &[u8]) -> Code {
    unsafe { navorzim_read_code(sheet.as_ptr(), sheet.len()) }
}

pub fn single_parity(data_disks: u64, rows: u64, buffer: &mut [u8]) -> Sheet {
    unsafe { navorzim_single_parity(data_disks, rows, buffer.as_mut_ptr(), buffer.len()) }
}

pub fn liberation(w: u64, data_disks: u64, buffer: &mut [u8]) -> Sheet {
    unsafe { navorzim_liberation(w, data_disks, buffer.as_mut_ptr(), buffer.len()) }
}

pub fn row_diagonal(p: u64, buffer: &mut [u8]) -> Sheet {
    unsafe { navorzim_row_diagonal(p, buffer.as_mut_ptr(), buffer.len()) }
}

pub fn evenodd(p: u64, buffer: &mut [u8]) -> Sheet {
    unsafe { navorzim_evenodd(p, buffer.as_mut_ptr(), buffer.len()) }
}

pub fn encode(sheet: &[u8], size: u64, contents: &[u8], stripe: &mut [u8]) -> Verdict {
    unsafe {
        navorzim_encode(
            sheet.as_ptr(),
            sheet.len(),
            size,
            contents.as_ptr(),
            contents.len(),
            stripe.as_mut_ptr(),
            stripe.len(),
        )
    }
}

pub fn check(sheet: &[u8], disk: u64, plan: &[u8]) -> Checked {
    unsafe { navorzim_check(sheet.as_ptr(), sheet.len(), disk, plan.as_ptr(), plan.len()) }
}

pub fn check_disks(sheet: &[u8], disks: &[u8], plan: &[u8]) -> Checked {
    unsafe { navorzim_check_disks(sheet.as_ptr(), sheet.len(), disks.as_ptr(), disks.len(), plan.as_ptr(), plan.len()) }
}

pub fn plan(sheet: &[u8], disk: u64, buffer: &mut [u8]) -> Planned {
    unsafe { navorzim_plan(sheet.as_ptr(), sheet.len(), disk, buffer.as_mut_ptr(), buffer.len()) }
}

pub fn plan_wanted(sheet: &[u8], disk: u64, wanted: &[u8], buffer: &mut [u8]) -> Planned {
    unsafe {
        navorzim_plan_wanted(
            sheet.as_ptr(),
            sheet.len(),
            disk,
            wanted.as_ptr(),
            wanted.len(),
            buffer.as_mut_ptr(),
            buffer.len(),
        )
    }
}

pub fn plan_disks(sheet: &[u8], disks: &[u8], wanted: &[u8], buffer: &mut [u8]) -> Planned {
    unsafe {
        navorzim_plan_disks(
            sheet.as_ptr(),
            sheet.len(),
            disks.as_ptr(),
            disks.len(),
            wanted.as_ptr(),
            wanted.len(),
            buffer.as_mut_ptr(),
            buffer.len(),
        )
    }
}

pub fn plan_fewest(sheet: &[u8], disks: &[u8], wanted: &[u8], buffer: &mut [u8]) -> Planned {
    unsafe {
        navorzim_plan_fewest(
            sheet.as_ptr(),
            sheet.len(),
            disks.as_ptr(),
            disks.len(),
            wanted.as_ptr(),
            wanted.len(),
            buffer.as_mut_ptr(),
            buffer.len(),
        )
    }
}

pub fn plan_priced(
    sheet: &[u8],
    disks: &[u8],
    wanted: &[u8],
    kinds: &[u8],
    prices: &[f64],
    factors: &[f64],
    buffer: &mut [u8],
) -> Priced {
    unsafe {
        navorzim_plan_priced(
            sheet.as_ptr(),
            sheet.len(),
            disks.as_ptr(),
            disks.len(),
            wanted.as_ptr(),
            wanted.len(),
            kinds.as_ptr(),
            kinds.len(),
            prices.as_ptr(),
            prices.len(),
            factors.as_ptr(),
            factors.len(),
            buffer.as_mut_ptr(),
            buffer.len(),
        )
    }
}

pub fn lost_pattern(sheet: &[u8], disks: &[u8], wanted: &[u8], index: u64) -> Set {
    unsafe {
        navorzim_lost_pattern(
            sheet.as_ptr(),
            sheet.len(),
            disks.as_ptr(),
            disks.len(),
            wanted.as_ptr(),
            wanted.len(),
            index,
        )
    }
}

pub fn rebuild(sheet: &[u8], disk: u64, plan: &[u8], size: u64, stripe: &mut [u8]) -> Verdict {
    unsafe {
        navorzim_rebuild(
            sheet.as_ptr(),
            sheet.len(),
            disk,
            plan.as_ptr(),
            plan.len(),
            size,
            stripe.as_mut_ptr(),
            stripe.len(),
        )
    }
}

pub fn rebuild_disks(sheet: &[u8], disks: &[u8], plan: &[u8], size: u64, stripe: &mut [u8]) -> Verdict {
    unsafe {
        navorzim_rebuild_disks(
            sheet.as_ptr(),
            sheet.len(),
            disks.as_ptr(),
            disks.len(),
            plan.as_ptr(),
            plan.len(),
            size,
            stripe.as_mut_ptr(),
            stripe.len(),
        )
    }
}

pub fn equations(sheet: &[u8], disks: &[u8]) -> Count {
    unsafe { navorzim_equations(sheet.as_ptr(), sheet.len(), disks.as_ptr(), disks.len()) }
}

pub fn equation(sheet: &[u8], disks: &[u8], index: u64) -> Set {
    unsafe { navorzim_equation(sheet.as_ptr(), sheet.len(), disks.as_ptr(), disks.len(), index) }
}

pub fn test_survivors(sheet: &[u8], disks: &[u8], size: u64, stripe: &[u8]) -> Tested {
    unsafe {
        navorzim_test_survivors(
            sheet.as_ptr(),
            sheet.len(),
            disks.as_ptr(),
            disks.len(),
            size,
            stripe.as_ptr(),
            stripe.len(),
        )
    }
}

pub fn strip(sheet: &[u8], disk: u64, size: u64, stripe: &[u8]) -> Part {
    unsafe { navorzim_strip(sheet.as_ptr(), sheet.len(), disk, size, stripe.as_ptr(), stripe.len()) }
}

pub fn strip_verdict(sheet: &[u8], disk: u64, size: u64, stripe: &[u8]) -> Verdict {
    unsafe { navorzim_strip_verdict(sheet.as_ptr(), sheet.len(), disk, size, stripe.as_ptr(), stripe.len()) }
}

pub fn look_up(sheet: &[u8], disk: u64, size: u64, stripe: &[u8], spare: &[u8], symbol: u64) -> Part {
    unsafe {
        navorzim_look_up(
            sheet.as_ptr(),
            sheet.len(),
            disk,
            size,
            stripe.as_ptr(),
            stripe.len(),
            spare.as_ptr(),
            spare.len(),
            symbol,
        )
    }
}

pub fn look_up_verdict(sheet: &[u8], disk: u64, size: u64, stripe: &[u8], spare: &[u8], symbol: u64) -> Verdict {
    unsafe {
        navorzim_look_up_verdict(
            sheet.as_ptr(),
            sheet.len(),
            disk,
            size,
            stripe.as_ptr(),
            stripe.len(),
            spare.as_ptr(),
            spare.len(),
            symbol,
        )
    }
}
