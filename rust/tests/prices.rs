//! Planning at prices against the model: random, special and damaged inputs, every answer and every lent byte compared, sums to the bit,
//! every plan run, and every swap tried. Each test prints its seed and how many calls it made.
mod model;

use model::prices::{self, Charges};
use model::random::{self, calls, Random};
use model::{head, steps_within_the_bound, told, Asked, Code};
use navorzim::{DiskState, Equation, Family, Planning, PricedPlanned, PricedPlanning, Search};

/// What an answer came to.
#[derive(Clone, Debug, PartialEq)]
enum Came {
    Refused(u64),
    /// a plan, how many symbols it reads, what it costs, what planning's own costs, and how the search ended
    Plan {
        reads: u64,
        sum: f64,
        start: f64,
        search: Search,
    },
    /// no plan, and as many patterns
    Gone(usize),
}

/// What is asked: a sheet, disks, a list and states.
#[derive(Clone, Debug)]
struct Question {
    sheet: Vec<u8>,
    disks: Vec<u8>,
    list: Vec<u8>,
    states: Vec<DiskState>,
}

impl Question {
    /// For all symbols of some disks.
    fn new(sheet: &[u8], disks: &[u8], states: &[DiskState]) -> Question {
        Question { sheet: sheet.to_vec(), disks: disks.to_vec(), list: Vec::new(), states: states.to_vec() }
    }

    /// Plans into a buffer that held `before`, and holds the answer and every byte to the rules.
    fn judged(&self, random: &mut Random, before: &[u8]) -> Came {
        let Question { sheet, disks, list, states } = self;
        let mut buffer = before.to_vec();
        let answer = told(navorzim::plan_priced_into(sheet, disks, list, states, &mut buffer));
        let context = || format!("{self:?} {}", before.len());
        let (code, lost, wanted) = match prices::refusal(sheet, disks, list, states, before.len()) {
            Err(no) => {
                assert_eq!((answer, &buffer[..]), (Err(no), before), "{}", context());
                return Came::Refused(no.0);
            }
            Ok(asked) => asked,
        };
        let answer = answer.expect("nothing is refused");
        let asked = Lost { code, disks: lost, wanted };
        self.owned_is_the_same(&asked, &answer, &buffer);
        let usual = navorzim::plan_disks(sheet, &asked.disks, &asked.symbols()).expect("nothing is refused");
        match (answer, usual) {
            (PricedPlanned::Plan { length, reads, sum, search }, Planning::Plan { plan: start, .. }) => {
                assert_eq!(buffer[length..], before[length..], "{}", context());
                asked.is_accepted(random, &buffer[..length], reads);
                let charges = Charges::new(&asked.code, states);
                let start = asked.follows(&charges, &start, &buffer[..length], sum, search);
                Came::Plan { reads, sum, start, search }
            }
            (PricedPlanned::NoPlan { patterns }, Planning::NoPlan { patterns: usual }) => {
                assert_eq!((&patterns, &buffer[..]), (&usual, before), "{}", context());
                assert_eq!(patterns.len(), model::gone(&asked.code, &asked.disks, &asked.wanted), "{}", context());
                Came::Gone(patterns.len())
            }
            (answer, usual) => panic!("{answer:?}, but planning answers {usual:?}: {}", context()),
        }
    }

    /// The call with a buffer of its own answers the same, with the lost disks.
    fn owned_is_the_same(&self, asked: &Lost, answer: &PricedPlanned, buffer: &[u8]) {
        let expected = match answer.clone() {
            PricedPlanned::Plan { length, reads, sum, search } => {
                let (plan, lost) = (buffer[..length].to_vec(), asked.disks.clone());
                PricedPlanning::Plan { plan, lost, reads, sum, search }
            }
            PricedPlanned::NoPlan { patterns } => PricedPlanning::NoPlan { patterns },
        };
        let Question { sheet, disks, list, states } = self;
        assert_eq!(navorzim::plan_priced(sheet, disks, list, states), Ok(expected), "{self:?}");
    }
}

/// What a plan is for: a code, the lost disks, those that are away among them, and the wanted symbols.
struct Lost {
    code: Code,
    disks: Vec<u8>,
    wanted: Vec<usize>,
}

impl Lost {
    /// The wanted symbols one by one.
    fn symbols(&self) -> Vec<u8> {
        self.wanted.iter().map(|&s| s as u8).collect()
    }

    /// A plan lists the lost disks and the wanted symbols one by one, is accepted when the checkers are asked about these disks, keeps the
    /// bound on steps, and runs.
    fn is_accepted(&self, random: &mut Random, plan: &[u8], reads: u64) {
        let Lost { code, disks, wanted } = self;
        let head = head(code, Asked::Disks(disks, &self.symbols()), reads as u8);
        assert_eq!(plan[..head.len()], head, "{code:?} {disks:?} {wanted:?}");
        let sheet = code.sheet();
        let checked = (model::check_disks(&sheet, disks, plan), told(navorzim::check_disks(&sheet, disks, plan)));
        assert_eq!(checked, (Ok(reads), Ok(reads)), "{code:?} {disks:?} {plan:?}");
        steps_within_the_bound(code, disks, &self.read(plan));
        model::rebuilds(random, code, disks, wanted, plan);
    }

    fn read(&self, plan: &[u8]) -> model::Plan {
        model::read_plan(&self.code, &self.disks, plan).expect("a whole sheet")
    }

    /// A plan comes from another one by swaps: its sets differ from the other's by sums of equations, it reads what they have and nothing
    /// else, its sum is right to the bit and not above the other's, which is answered, and it is settled exactly if no swap lowers the sum.
    fn follows(&self, charges: &Charges, start: &[u8], plan: &[u8], sum: f64, search: Search) -> f64 {
        let Lost { code, disks, .. } = self;
        let (first, first_read) = prices::sets_of(code, disks, &self.read(start));
        let (last, read) = prices::sets_of(code, disks, &self.read(plan));
        let context = || format!("{code:?} {disks:?} {first:?} {last:?} {sum:e} {search:?}");
        let equations = navorzim::equations(&code.sheet(), disks).expect("good");
        let equations: Vec<u128> = equations.into_iter().map(|Equation(set)| set).collect();
        let added: Vec<u128> = first.iter().zip(&last).map(|(before, after)| before ^ after).collect();
        assert!(spanned(&equations, &added), "{}", context());
        assert_eq!(prices::union(&last), read, "{}", context());
        assert_eq!(charges.sum(read).to_bits(), sum.to_bits(), "{}", context());
        let before = charges.sum(first_read);
        assert!(sum < before || sum == before && first == last, "{before:e} {}", context());
        let settled = !charges.some_swap_lowers(&last, &equations);
        assert_eq!(search == Search::Settled, settled, "{}", context());
        before
    }
}

/// Whether each of some sets is a sum of equations: they don't add to the rank.
fn spanned(equations: &[u128], sets: &[u128]) -> bool {
    let row = |set: &u128| (0..128).map(|s| set >> s & 1 == 1).collect();
    let rank = |sets: &mut dyn Iterator<Item = &u128>| model::rank(&sets.map(row).collect::<Vec<_>>());
    rank(&mut equations.iter()) == rank(&mut equations.iter().chain(sets))
}

/// The float whose bits are so many above another's.
fn near(x: f64, apart: i64) -> f64 {
    f64::from_bits(x.to_bits().wrapping_add_signed(apart))
}

const MOST: f64 = 1_000_000.0;

/// A price: at an end, subnormal, a small number, a power of two, or any.
fn price(random: &mut Random) -> f64 {
    match random.below(9) {
        0 => random.pick(&[0.0, -0.0, MOST, near(MOST, -1), f64::MIN_POSITIVE, near(0.0, 1)]),
        1 => f64::from_bits(random.next() % (1 << 53)),
        2 => f64::from_bits(random.next() % (MOST.to_bits() + 1)),
        3 => f64::from_bits(1 << 52 | (1023 << 52) ^ random.next() >> 12),
        4 => (random.below(1 << 20) as f64 / 1024.0).min(MOST),
        5 => f64::from_bits((1023 - random.below(60) as u64) << 52),
        6 => random.below(10) as f64 / 10.0,
        _ => random.below(10) as f64,
    }
}

/// A factor: at an end, beside one, or any.
fn factor(random: &mut Random) -> f64 {
    match random.below(3) {
        0 => random.pick(&[1.0, 64.0, near(1.0, 1), near(64.0, -1)]),
        1 => (1 + random.below(64)) as f64,
        _ => f64::from_bits(1f64.to_bits() + random.next() % (64f64.to_bits() - 1f64.to_bits())),
    }
}

/// What no price is, and no factor.
const NEITHER: [f64; 8] =
    [f64::NAN, f64::INFINITY, f64::NEG_INFINITY, -1.0, -f64::MIN_POSITIVE, f64::MIN, f64::MAX, -1e-310];

fn bad_price(random: &mut Random) -> f64 {
    match random.below(3) {
        0 => random.pick(&[near(MOST, 1), near(-0.0, 1), -MOST]),
        _ => random.pick(&NEITHER),
    }
}

fn bad_factor(random: &mut Random) -> f64 {
    match random.below(3) {
        0 => random.pick(&[near(1.0, -1), near(64.0, 1), 0.0, -0.0, -64.0, 65.0]),
        _ => random.pick(&NEITHER),
    }
}

/// A state in which a disk can be, away once in so many times.
fn state(random: &mut Random, away: usize) -> DiskState {
    match random.below(2) {
        _ if random.one_in(away) => DiskState::Away,
        0 => DiskState::Idle { price: price(random) },
        _ => DiskState::Busy { price: price(random), factor: factor(random) },
    }
}

/// A state in which no disk can be.
fn bad_state(random: &mut Random) -> DiskState {
    match random.below(4) {
        0 => DiskState::Idle { price: bad_price(random) },
        1 => DiskState::Busy { price: bad_price(random), factor: factor(random) },
        2 => DiskState::Busy { price: bad_price(random), factor: bad_factor(random) },
        _ => DiskState::Busy { price: price(random), factor: bad_factor(random) },
    }
}

/// States for so many disks, and more than that at times, which then may be bad.
fn states(random: &mut Random, disks: usize) -> Vec<DiskState> {
    let away = random.pick(&[3, 8, 8, 1000, 1000, 1000]);
    let mut states: Vec<DiskState> = match random.below(8) {
        0 => vec![DiskState::Idle { price: 1.0 }; disks],
        1 => vec![state(random, away); disks],
        _ => (0..disks).map(|_| state(random, away)).collect(),
    };
    for _ in 0..random.pick(&[0, 0, 1, 70]) {
        states.push(if random.one_in(2) { bad_state(random) } else { state(random, 2) });
    }
    states
}

/// A question with up to two things wrong, so that orders are seen, and a buffer for it.
fn question(random: &mut Random) -> (Question, Vec<u8>) {
    let code = random::code(random);
    let disks = random::disks(random, &code);
    let list = if random.one_in(2) { Vec::new() } else { random::list(random, &code, &disks) };
    let mut asked = Question { sheet: code.sheet(), disks, list, states: states(random, code.disks) };
    let mut before = random::buffer(random);
    for _ in 0..if random.one_in(3) { 2 } else { 0 } {
        match random.below(8) {
            0 => asked.sheet = random::damaged(random, &asked.sheet),
            1 if !asked.disks.is_empty() => asked.disks = random::damaged_disks(random, &code, &asked.disks),
            2 if !asked.list.is_empty() => asked.list = random::damaged_list(random, &code, &asked.list),
            3 => before.truncate(random.pick(&[0, 3081, 3114, 3209])),
            4 => asked.states.truncate(random.below(code.disks + 1)),
            _ if asked.states.is_empty() => {}
            _ => {
                let at = random.below(asked.states.len().min(code.disks));
                asked.states[at] = bad_state(random);
            }
        }
    }
    (asked, before)
}

#[test]
fn planning() {
    let mut random = Random::new(51);
    let (mut refused, mut plans, mut cheaper, mut gone, mut with_away, mut asked_away) = ([0; 43], 0, 0, 0, 0, 0);
    for _ in 0..calls(12_000) {
        let (asked, before) = question(&mut random);
        let is_away = |disk: usize| asked.states.get(disk) == Some(&DiskState::Away);
        match asked.judged(&mut random, &before) {
            Came::Refused(number) => refused[number as usize] += 1,
            Came::Plan { sum, start, search, .. } => {
                assert_eq!(search, Search::Settled, "no random search is that long");
                plans += 1;
                cheaper += (sum < start) as u32;
                let is_asked = |disk: usize| asked.disks.contains(&(disk as u8));
                with_away += (0..asked.sheet[2] as usize).any(|disk| is_away(disk) && !is_asked(disk)) as u32;
                asked_away += (0..asked.sheet[2] as usize).any(|disk| is_away(disk) && is_asked(disk)) as u32;
            }
            Came::Gone(_) => gone += 1,
        }
    }
    println!("{plans} plans, {cheaper} of them cheaper than planning's own; {gone} without");
    println!(
        "{with_away} plans with disks away, {asked_away} where one asked about is; refused, by number: {refused:?}"
    );
    assert!(plans > 2_000 && cheaper > 400 && gone > 2_000, "{plans} {cheaper} {gone}");
    assert!(with_away > 200 && asked_away > 200, "{with_away} {asked_away}");
    let numbers = [1, 2, 3, 4, 5, 6, 7, 23, 24, 34, 42];
    assert!(numbers.iter().all(|&number| refused[number] > 2), "{refused:?}");
}

/// Each disk of every family, and two of them, with the same price everywhere, with random states, and with one more disk away.
#[test]
fn families() {
    let mut random = Random::new(52);
    let single = [(1, 1), (1, 32), (4, 3), (31, 2), (63, 1)].map(|(k, r)| ("single parity", k, r)).into_iter();
    let liberation = [3, 5, 7].into_iter().flat_map(|w| (2..=w).map(move |k| ("liberation", w, k)));
    let diagonal = ["row-diagonal", "evenodd"].into_iter().flat_map(|name| [3, 5, 7].map(|p| (name, p, 0)));
    let (mut plans, mut fewer, mut cheaper, mut gone) = (0, 0, 0, 0);
    for (name, a, b) in single.chain(liberation).chain(diagonal) {
        let sheet = model::family(name, a, b).expect("listed");
        let (n, before) = (sheet[2], random::buffer(&mut random));
        for disk in 0..n {
            let ones = vec![DiskState::Idle { price: 1.0 }; n.into()];
            let mut one_away = ones.clone();
            one_away[random.below(n.into())] = DiskState::Away;
            let any = states(&mut random, n.into());
            let both = [disk.min((disk + 1) % n), disk.max((disk + 1) % n)];
            for (disks, states) in [(&[disk][..], &ones), (&[disk], &one_away), (&[disk], &any), (&both, &any)] {
                match Question::new(&sheet, disks, states).judged(&mut random, &before) {
                    Came::Plan { reads, sum, start, search } => {
                        assert_eq!(search, Search::Settled, "{name} {a} {b} {disks:?}");
                        assert!(states != &ones || sum == reads as f64, "{name} {a} {b} {disks:?}");
                        plans += 1;
                        fewer += (states == &ones && sum < start) as u32;
                        cheaper += (sum < start) as u32;
                    }
                    Came::Gone(_) => gone += 1,
                    Came::Refused(number) => panic!("refused {number}: {name} {a} {b} {disks:?}"),
                }
            }
        }
    }
    calls(plans as usize + gone);
    println!("{plans} plans, {cheaper} cheaper than planning's own, {fewer} with fewer reads; {gone} without");
    assert!(plans > 300 && cheaper > 100 && fewer > 60 && gone > 100, "{plans} {cheaper} {fewer} {gone}");
}

/// A code whose search counts down one by one: symbol 0, which is lost, is the sum of the symbols 1 + i for the bits i of a number below
/// 2^11, each at the price 2^i; symbol 12 + j, for nothing, is the sum of the symbols 1 to 1 + j. So equation j takes symbol 1 + j and
/// those before it, and of those that lower the sum the first takes 1 from it. Which swaps are made is the library's own choice.
fn counting(number: u64) -> Question {
    let row = |bits: u64| (0..11).map(|bit| bits >> bit & 1 == 1).collect();
    let (units, sums) = ((0..11).map(|i| 1 << i), (0..11).map(|j| (2 << j) - 1));
    let code =
        Code { disks: 23, height: 1, data: 11, rows: [number].into_iter().chain(units).chain(sums).map(row).collect() };
    let price = |symbol: u32| DiskState::Idle { price: if symbol > 11 { 0.0 } else { 2f64.powi(symbol as i32 - 1) } };
    Question::new(&code.sheet(), &[0], &(0..23).map(price).collect::<Vec<_>>())
}

/// 1,024 swaps are made and no more. After the last of them it is tested once more whether another lowers the sum.
#[test]
fn after_1024_swaps() {
    let mut random = Random::new(53);
    let before = random::buffer(&mut random);
    for (number, sum, search) in [
        (0, 0.0, Search::Settled),
        (1, 0.0, Search::Settled),
        (1023, 0.0, Search::Settled),
        (1024, 0.0, Search::Settled),
        (1025, 1.0, Search::Stopped),
        (1026, 2.0, Search::Stopped),
        (2047, 1023.0, Search::Stopped),
    ] {
        match counting(number).judged(&mut random, &before) {
            Came::Plan { sum: came, start, search: ended, .. } => {
                assert_eq!((start, came, ended), (number as f64, sum, search), "{number}");
            }
            came => panic!("{number}: {came:?}"),
        }
    }
}

/// Refusals in their order: the code sheet's, 7, 24, 23, 34, 42, whether or not there is a plan.
#[test]
fn refusals() {
    let sheet = Family::SingleParity { data_disks: 3, rows: 2 }.sheet().expect("listed");
    let other_edition = [&[4, 9][..], &sheet[2..]].concat();
    let (room, none) = (navorzim::PLAN_BUFFER, &[][..]);
    let (fine, busy) = (DiskState::Idle { price: 1.0 }, |factor: f64| DiskState::Busy { price: 1.0, factor });
    let (idle, away) = (|price: f64| DiskState::Idle { price }, DiskState::Away);
    let bad = idle(f64::NAN);
    for (sheet, disks, list, length, states, no) in [
        (&sheet[..9], &[9, 0][..], &[99][..], 0, none, (1, 0)),
        (&other_edition, &[9, 0], &[99], 0, none, (4, 0)),
        (&sheet, &[1, 0, 4], &[99], 0, none, (7, 0)),
        (&sheet, &[], &[99], 0, none, (24, 0)),
        (&sheet, &[1, 0], &[99], 0, none, (24, 1)),
        (&sheet, &[0], &[2], 0, none, (23, 0)),
        (&sheet, &[0], &[], room - 1, none, (34, 0)),
        (&sheet, &[0], &[], room, none, (42, 0)),
        (&sheet, &[0], &[], room, &[fine, fine, fine], (42, 3)),
        // The lowest one, asked about or not; and where no plan can be.
        (&sheet, &[0], &[], room, &[bad, bad, fine, fine], (42, 0)),
        (&sheet, &[2], &[], room, &[fine, fine, bad, fine], (42, 2)),
        (&sheet, &[2], &[], room, &[fine, bad, bad], (42, 1)),
        (&sheet, &[0, 1], &[], room, &[away, away, away, bad], (42, 3)),
        // Each bound, from beyond it.
        (&sheet, &[0], &[], room, &[fine, idle(near(MOST, 1)), fine, fine], (42, 1)),
        (&sheet, &[0], &[], room, &[fine, idle(-f64::MIN_POSITIVE), fine, fine], (42, 1)),
        (&sheet, &[0], &[], room, &[fine, fine, busy(near(1.0, -1)), fine], (42, 2)),
        (&sheet, &[0], &[], room, &[fine, fine, busy(near(64.0, 1)), fine], (42, 2)),
        (&sheet, &[0], &[], room, &[fine, fine, fine, busy(0.0)], (42, 3)),
        (&sheet, &[0], &[], room, &[fine, fine, fine, idle(f64::INFINITY)], (42, 3)),
        (&sheet, &[0], &[], room, &[fine, fine, fine, busy(f64::NAN)], (42, 3)),
    ] {
        let before = vec![0xab; length];
        let mut buffer = before.clone();
        let answer = told(navorzim::plan_priced_into(sheet, disks, list, states, &mut buffer));
        assert_eq!((answer, buffer), (Err(no), before), "{disks:?} {list:?} {length} {states:?}");
        assert_eq!(prices::refusal(sheet, disks, list, states, length).err(), Some(no), "the model");
    }
    let mut random = Random::new(54);
    let before = random::buffer(&mut random);
    for states in [
        [fine, idle(MOST), idle(-0.0), idle(near(0.0, 1))],
        [busy(1.0), busy(64.0), busy(near(1.0, 1)), busy(near(64.0, -1))],
    ] {
        let bad_beyond = [&states[..], &[bad; 99]].concat();
        for states in [&states[..], &bad_beyond] {
            let came = Question::new(&sheet, &[0], states).judged(&mut random, &before);
            assert!(matches!(came, Came::Plan { .. }), "{came:?}");
        }
    }
}

/// Worked cases: copies of a disk, the order of the roundings and of the sums, zeros, disks away.
#[test]
fn worked_cases() {
    let mut random = Random::new(55);
    let before = random::buffer(&mut random);
    let idle = |price: f64| DiskState::Idle { price };
    let busy = |price: f64, factor: f64| DiskState::Busy { price, factor };
    let code = |disks: usize, height: usize, data: usize, rows: &[u64]| {
        let rows = rows.iter().map(|row| (0..data).map(|t| row >> t & 1 == 1).collect()).collect();
        Code { disks, height, data, rows }.sheet()
    };
    let mut sum = |sheet: &[u8], disks: &[u8], states: &[DiskState]| match Question::new(sheet, disks, states)
        .judged(&mut random, &before)
    {
        Came::Plan { sum, .. } => Some(sum.to_bits()),
        Came::Gone(_) => None,
        Came::Refused(number) => panic!("refused {number}: {states:?}"),
    };
    // Three disks with the same symbol: the cheaper of the two that are left is read, and where they cost the same, either.
    let copies = code(3, 1, 1, &[1, 1, 1]);
    for (one, other, least) in [
        (idle(2.0), idle(1.0), 1.0),
        (idle(1.0), idle(2.0), 1.0),
        (busy(1.0, 3.0), idle(2.0), 2.0),
        (busy(1.0, 1.0), idle(1.0), 1.0),
        (idle(near(1.0, 1)), idle(1.0), 1.0),
        (idle(MOST), DiskState::Away, MOST),
        (DiskState::Away, busy(MOST, 64.0), 64.0 * MOST),
        (idle(-0.0), idle(near(0.0, 1)), 0.0),
    ] {
        assert_eq!(sum(&copies, &[0], &[DiskState::Away, one, other]), Some(least.to_bits()), "{one:?} {other:?}");
    }
    assert_eq!(sum(&copies, &[0], &[DiskState::Away; 3]), None);
    // Two disks of three symbols, all of which are read: 3 × 0.1 is rounded, then its product with 10. Any other way gives 3.
    let mirror = code(2, 3, 3, &[1, 2, 4, 1, 2, 4]);
    assert_eq!(sum(&mirror, &[0], &[idle(0.0), busy(0.1, 10.0)]), Some(near(3.0, 1).to_bits()));
    // Three disks that are all read: from the first disk on, the two small charges are lost one by one; together they would count.
    let parity = code(4, 1, 3, &[7, 1, 2, 4]);
    let small = idle(2f64.powi(-53));
    assert_eq!(sum(&parity, &[0], &[idle(9.0), idle(1.0), small, small]), Some(1f64.to_bits()));
    assert_eq!(sum(&parity, &[0], &[idle(9.0), small, small, idle(1.0)]), Some(near(1.0, 1).to_bits()));
    // Nothing is read of a disk of zeros. The sum is 0, not the negative zero.
    let zeros = code(2, 1, 1, &[0, 1]);
    assert_eq!(sum(&zeros, &[0], &[idle(-0.0), idle(-0.0)]), Some(0));
    assert_eq!(sum(&zeros, &[0], &[DiskState::Away; 2]), Some(0));
    assert_eq!(sum(&copies, &[0], &[idle(-0.0); 3]), Some(0));
}

/// A disk that is away and not asked about is listed as lost, and nothing of it is wanted; what is wanted is listed one by one.
#[test]
fn disks_away() {
    let sheet = Family::Liberation { w: 3, data_disks: 2 }.sheet().expect("listed");
    let idle = DiskState::Idle { price: 1.0 };
    for (disks, list, away, lost, wanted) in [
        (&[0][..], &[][..], &[][..], &[0][..], &[0, 1, 2][..]),
        (&[0], &[], &[0], &[0], &[0, 1, 2]),
        (&[0], &[], &[2], &[0, 2], &[0, 1, 2]),
        (&[2], &[], &[0], &[0, 2], &[6, 7, 8]),
        (&[2], &[7], &[1, 2], &[1, 2], &[7]),
        (&[1, 3], &[4, 9], &[3], &[1, 3], &[4, 9]),
    ] {
        let states: Vec<DiskState> = (0..4).map(|d| if away.contains(&d) { DiskState::Away } else { idle }).collect();
        let Ok(PricedPlanning::Plan { plan, lost: came, .. }) = navorzim::plan_priced(&sheet, disks, list, &states)
        else {
            panic!("no plan for {disks:?} with {away:?} away");
        };
        let lists = [&[lost.len() as u8], lost, &[wanted.len() as u8], wanted].concat();
        assert_eq!((&came[..], &plan[6..6 + lists.len()]), (lost, &lists[..]), "{disks:?} {away:?}");
        let asked_alone = told(navorzim::check_disks(&sheet, disks, &plan));
        assert_eq!(asked_alone.is_ok(), disks == lost, "{asked_alone:?}");
    }
}

/// The model's roundings are those of the processor.
#[test]
fn roundings() {
    let mut random = Random::new(56);
    let mut unequal = 0;
    for _ in 0..calls(200_000) {
        let (x, y, z) = (price(&mut random).abs(), price(&mut random).abs(), factor(&mut random));
        assert_eq!(prices::times(x, z).to_bits(), (x * z).to_bits(), "{x:e} × {z:e}");
        assert_eq!(prices::plus(x, y).to_bits(), (x + y).to_bits(), "{x:e} + {y:e}");
        unequal += (prices::plus(x, y) - x != y) as u32;
    }
    println!("{unequal} sums were rounded");
    assert!(unequal > 1_000, "{unequal}");
}
