//! Planning with the fewest reads against the model, which tries every set of survivors: random, special and damaged inputs, every answer
//! and every lent byte compared, every plan run. Each test prints its seed and how many calls it made.
mod model;

use model::random::{self, calls, Random};
use model::{head, steps_within_the_bound, told, Asked, Code};
use navorzim::{Family, Pattern, Planned, Planning};

/// What an answer came to.
#[derive(Clone, Copy, Debug, PartialEq, Eq)]
enum Came {
    Refused(u64),
    /// a plan, how many symbols it reads, and how many planning's own does
    Plan {
        reads: u64,
        usual: u64,
    },
    /// no plan, and as many patterns
    Gone(usize),
}

/// Plans into a buffer that held `before`, and holds the answer and every byte to the rules.
fn judged(random: &mut Random, sheet: &[u8], disks: &[u8], list: &[u8], before: &[u8]) -> Came {
    let mut buffer = before.to_vec();
    let answer = told(navorzim::plan_fewest_into(sheet, disks, list, &mut buffer));
    let context = || format!("{sheet:?} {disks:?} {list:?} {}", before.len());
    let (code, wanted) = match model::fewest_refusal(sheet, disks, list, before.len()) {
        Err(no) => {
            assert_eq!((answer, &buffer[..]), (Err(no), before), "{}", context());
            return Came::Refused(no.0);
        }
        Ok(asked) => asked,
    };
    let usual = navorzim::plan_disks(sheet, disks, list).expect("nothing is refused");
    match (answer.expect("nothing is refused"), usual) {
        (Planned::Plan { length, reads }, Planning::Plan { reads: usual, .. }) => {
            assert_eq!(model::fewest(&code, disks, &wanted), Some(reads), "{}", context());
            let (plan, after) = buffer.split_at(length);
            assert_eq!(after, &before[length..], "{}", context());
            let head = head(&code, Asked::Disks(disks, list), reads as u8);
            assert_eq!(plan[..head.len()], head, "{}", context());
            assert_eq!(model::check_disks(sheet, disks, plan), Ok(reads), "{}", context());
            steps_within_the_bound(&code, disks, &model::read_plan(&code, disks, plan).expect("a whole sheet"));
            model::rebuilds(random, &code, disks, &wanted, plan);
            Came::Plan { reads, usual }
        }
        (Planned::NoPlan { patterns }, Planning::NoPlan { patterns: usual }) => {
            assert_eq!((&patterns, &buffer[..]), (&usual, before), "{}", context());
            assert_eq!(patterns.len(), model::gone(&code, disks, &wanted), "{}", context());
            Came::Gone(patterns.len())
        }
        (answer, usual) => panic!("{answer:?}, but planning answers {usual:?}: {}", context()),
    }
}

/// A code, and disks of it without which 0 to 18 symbols survive.
fn small(random: &mut Random) -> (Code, Vec<u8>) {
    let height = 1 + random.below(6);
    let surviving = random.below(18 / height + 1);
    let lost = 1 + random.below(3);
    let disks = (surviving + lost).max(2);
    let mut numbers: Vec<u8> = (0..disks as u8).collect();
    while numbers.len() > disks - surviving {
        numbers.remove(random.below(numbers.len()));
    }
    let (symbols, survivors) = (disks * height, surviving * height);
    let data = match random.below(4) {
        0 => 1 + random.below(symbols),
        1 => survivors.max(1),
        _ => 1 + random.below(10),
    };
    (Code { disks, height, data, rows: random::rows(random, symbols, data) }, numbers)
}

#[test]
fn planning() {
    let mut random = Random::new(41);
    let (mut refused, mut of_survivors, mut fewer, mut gone) = ([0; 42], [0; 17], 0, 0);
    for _ in 0..calls(8_000) {
        let (code, mut disks) = small(&mut random);
        let mut sheet = code.sheet();
        let mut list = if random.one_in(2) { Vec::new() } else { random::list(&mut random, &code, &disks) };
        let survivors = code.survivors(&disks).len();
        let mut before = random::buffer(&mut random);
        // Up to two things are wrong, so that orders are seen.
        for _ in 0..if random.one_in(3) { 2 } else { 0 } {
            match random.below(5) {
                0 => sheet = random::damaged(&mut random, &sheet),
                1 if !disks.is_empty() => disks = random::damaged_disks(&mut random, &code, &disks),
                2 if !list.is_empty() => list = random::damaged_list(&mut random, &code, &list),
                3 => before.truncate(random.pick(&[0, 3081, 3114, 3209])),
                _ => {}
            }
        }
        match judged(&mut random, &sheet, &disks, &list, &before) {
            Came::Refused(number) => refused[number as usize] += 1,
            Came::Plan { reads, usual } => {
                assert!(reads <= usual, "{reads} {usual}");
                fewer += (reads < usual) as u32;
                of_survivors[survivors.min(16)] += 1;
            }
            Came::Gone(patterns) => gone += (patterns > 0) as u32,
        }
    }
    println!(
        "plans, by survivors: {of_survivors:?}, {fewer} of them read less than planning's own; {gone} without a plan"
    );
    println!("refused, by number: {refused:?}");
    assert!(
        of_survivors.iter().all(|&plans| plans > 10) && fewer > 200 && gone > 1_000,
        "{of_survivors:?} {fewer} {gone}"
    );
    let numbers = [1, 2, 3, 4, 5, 6, 7, 23, 24, 34, 41];
    assert!(numbers.iter().all(|&number| refused[number] > 10), "{refused:?}");
}

/// Every set of up to nine disks of every family; of more disks each by itself, all but one, and all.
#[test]
fn families() {
    let mut random = Random::new(42);
    let single = (1..64).flat_map(|k| (1..=32).map(move |r| ("single parity", k, r)));
    let liberation = [3, 5, 7].into_iter().flat_map(|w| (2..=w).map(move |k| ("liberation", w, k)));
    let diagonal = ["row-diagonal", "evenodd"].into_iter().flat_map(|name| [3, 5, 7].map(|p| (name, p, 0)));
    let (mut plans, mut fewer, mut gone, mut beyond) = (0, 0, 0, 0);
    for (name, a, b) in single.chain(liberation).chain(diagonal) {
        let Ok(sheet) = model::family(name, a, b) else { continue };
        let n = sheet[2];
        let any = |choice: u32| (0..n).filter(|disk| choice >> disk & 1 == 1).collect();
        let sets: Vec<Vec<u8>> = match n {
            ..=9 => (1..1 << n).map(any).collect(),
            _ => {
                let without = |one: u8| (0..n).filter(|&disk| disk != one).collect();
                (0..n).map(|disk| vec![disk]).chain((0..n).map(without)).chain([(0..n).collect()]).collect()
            }
        };
        let before = random::buffer(&mut random);
        for disks in sets {
            match judged(&mut random, &sheet, &disks, &[], &before) {
                Came::Plan { reads, usual } => {
                    plans += 1;
                    fewer += (reads < usual) as u32;
                    // Of as many lost disks as the family bears, every survivor is needed.
                    let borne = if name == "single parity" { 1 } else { 2 };
                    assert!(disks.len() < borne || reads == sheet[4].into(), "{name} {a} {b} {disks:?}: {reads}");
                }
                Came::Gone(_) => gone += 1,
                Came::Refused(number) => {
                    assert_eq!(number, 41, "{name} {a} {b} {disks:?}");
                    beyond += 1;
                }
            }
        }
    }
    calls(plans as usize + gone + beyond);
    println!("{plans} plans, {fewer} of them read less than planning's own; {gone} without, {beyond} with too many survivors");
    assert!(plans > 150 && fewer > 15 && gone > 3_000 && beyond > 1_000, "{plans} {fewer} {gone} {beyond}");
}

/// Small codes: the fewest reads are held to plans of every length.
#[test]
fn no_plan_of_any_length_reads_fewer() {
    let mut random = Random::new(43);
    let mut of_reads = [0; 5];
    for _ in 0..calls(1_500) {
        let (disks, data) = (2 + random.below(5), 1 + random.below(3));
        let rows = (0..disks).map(|_| (0..data).map(|_| random.one_in(2)).collect()).collect();
        let code = Code { disks, height: 1, data, rows };
        let mut lost = random::disks(&mut random, &code);
        lost.truncate(2);
        let wanted = code.strips(&lost);
        let expected = model::fewest_by_plans(&code, &lost, &wanted);
        assert_eq!(model::fewest(&code, &lost, &wanted), expected, "{code:?} {lost:?}");
        let answer = match navorzim::plan_fewest(&code.sheet(), &lost, &[]).expect("small") {
            Planning::Plan { reads, .. } => Some(reads),
            Planning::NoPlan { .. } => None,
        };
        assert_eq!(answer, expected, "{code:?} {lost:?}");
        of_reads[expected.map_or(4, |reads| reads as usize)] += 1;
    }
    println!("plans by reads, and codes without one: {of_reads:?}");
    assert!(of_reads.iter().all(|&count| count > 10), "{of_reads:?}");
}

/// Refusals in their order: the code sheet's, 7, 24, 23, 34, 41, whether or not there is a plan; 16 survivors are taken.
#[test]
fn refusals() {
    let parity = |data_disks: u64, rows: u64| Family::SingleParity { data_disks, rows }.sheet().expect("listed");
    let (in_range, beyond) = (parity(16, 1), parity(17, 1));
    let other_edition = [&[4, 9][..], &beyond[2..]].concat();
    let room = navorzim::PLAN_BUFFER;
    for (sheet, disks, list, length, no) in [
        (&beyond[..9], &[99, 0][..], &[99][..], 0, (1, 0)),
        (&other_edition, &[99, 0], &[99], 0, (4, 0)),
        (&beyond, &[1, 0, 18], &[99], 0, (7, 0)),
        (&beyond, &[], &[99], 0, (24, 0)),
        (&beyond, &[1, 0], &[99], 0, (24, 1)),
        (&beyond, &[0], &[0, 0], 0, (23, 0)),
        (&beyond, &[0, 1], &[1, 1], 0, (23, 1)),
        (&beyond, &[0], &[1], 0, (23, 0)),
        (&beyond, &[0], &[], room - 1, (34, 0)),
        (&in_range, &[0], &[], room - 1, (34, 0)),
        (&in_range, &[0, 1], &[], 0, (34, 0)),
        (&beyond, &[0], &[], room, (41, 17)),
        (&beyond, &[0], &[0], room + 9, (41, 17)),
        // No plan can be.
        (&parity(18, 1), &[0, 1], &[], room, (41, 17)),
        (&parity(63, 1), &[0, 1], &[1], room, (41, 62)),
        (&parity(1, 32), &[1], &[], room, (41, 32)),
        (&parity(2, 17), &[0, 2], &[], room, (41, 17)),
    ] {
        let before = vec![0xab; length];
        let mut buffer = before.clone();
        let answer = told(navorzim::plan_fewest_into(sheet, disks, list, &mut buffer));
        assert_eq!((answer, buffer), (Err(no), before), "{disks:?} {list:?} {length}");
        assert_eq!(model::fewest_refusal(sheet, disks, list, length).err(), Some(no), "the model");
    }
    let mut random = Random::new(44);
    let before = random::buffer(&mut random);
    for (sheet, disks, came) in [
        (&in_range, &[16][..], Came::Plan { reads: 16, usual: 16 }),
        (&in_range, &[0, 1], Came::Gone(1)),
        (&beyond, &[0, 17], Came::Gone(1)),
        (&parity(1, 16), &[0], Came::Plan { reads: 16, usual: 16 }),
        (&parity(3, 16), &[0, 1, 3], Came::Gone(32)),
        (&parity(1, 1), &[0, 1], Came::Gone(1)),
    ] {
        assert_eq!(judged(&mut random, sheet, disks, &[], &before), came, "{disks:?}");
    }
}

/// Worked cases: the square code, a disk out of reach, a disk of zeros, nothing that survives.
#[test]
fn worked_cases() {
    let mut random = Random::new(45);
    let before = random::buffer(&mut random);
    let code = |disks: usize, height: usize, data: usize, rows: &[u64]| {
        let rows = rows.iter().map(|row| (0..data).map(|t| row >> t & 1 == 1).collect()).collect();
        Code { disks, height, data, rows }.sheet()
    };
    let square = code(4, 2, 4, &[1, 2, 4, 8, 5, 10, 9, 6]);
    for (disk, fewest) in [(0, 3), (1, 3), (2, 4), (3, 4)] {
        let came = judged(&mut random, &square, &[disk], &[], &before);
        assert!(matches!(came, Came::Plan { reads, .. } if reads == fewest), "disk {disk}: {came:?}");
    }
    let row_1 = judged(&mut random, &square, &[0], &[1], &before);
    assert!(matches!(row_1, Came::Plan { reads: 2, .. }), "{row_1:?}");

    let apart = code(2, 1, 2, &[1, 2]);
    assert_eq!(navorzim::plan_fewest(&apart, &[0], &[]), Ok(Planning::NoPlan { patterns: vec![Pattern(1)] }));
    // A clear, and the read count 0, also where nothing survives.
    let zero = code(2, 1, 1, &[0, 1]);
    let cleared = vec![5, 3, 2, 1, 1, 0, 1, 0, 0, 1, 0, 0, 0, 0];
    assert_eq!(navorzim::plan_fewest(&zero, &[0], &[]), Ok(Planning::Plan { plan: cleared, reads: 0 }));
    let cleared = vec![5, 3, 2, 1, 1, 0, 2, 0, 1, 1, 0, 1, 0, 0, 0, 0];
    assert_eq!(navorzim::plan_fewest(&zero, &[0, 1], &[0]), Ok(Planning::Plan { plan: cleared, reads: 0 }));
    assert_eq!(judged(&mut random, &zero, &[0, 1], &[], &before), Came::Gone(1));
    // Survivors that say the same: one of them is enough.
    let copies = code(17, 1, 1, &[1; 17]);
    let came = judged(&mut random, &copies, &[8], &[], &before);
    assert!(matches!(came, Came::Plan { reads: 1, .. }), "{came:?}");
}
