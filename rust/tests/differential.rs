//! The proved library against an independent reading of the rules (`model`): random, special and damaged inputs, every answer and every
//! lent byte compared. Each test prints its seed and how many calls it made: together they are more than 800,000.
mod model;

use model::random::{self, calls, sheet, Random};
use model::{head, steps_within_the_bound, told, Asked, No};
use navorzim::{Family, Pattern, Planned, Planning, Refusal};

/// The library's planning.
fn planned(sheet: &[u8], asked: Asked, buffer: &mut [u8]) -> Result<Planned, Refusal> {
    match asked {
        Asked::Disk(disk) => navorzim::plan_into(sheet, disk, buffer),
        Asked::Wanted(disk, list) => navorzim::plan_wanted_into(sheet, disk, list, buffer),
        Asked::Disks(disks, list) => navorzim::plan_disks_into(sheet, disks, list, buffer),
    }
}

/// The bytes before a sheet's steps.
fn head_length(asked: Asked) -> usize {
    match asked {
        Asked::Disk(_) => 9,
        Asked::Wanted(_, list) => 10 + list.len(),
        Asked::Disks(disks, list) => 10 + disks.len() + list.len(),
    }
}

/// A plan sheet that clears what it wants.
fn clears(code: &model::Code, asked: Asked) -> Vec<u8> {
    let all = |disks: &[u8]| code.strips(disks).into_iter().map(|s| s as u8).collect();
    let wanted: Vec<u8> = match asked {
        Asked::Disk(disk) => all(&[disk as u8]),
        Asked::Disks(disks, []) => all(disks),
        Asked::Wanted(_, list) | Asked::Disks(_, list) => list.to_vec(),
    };
    let mut plan = head(code, asked, 0);
    plan.extend((wanted.len() as u16).to_le_bytes());
    plan.extend(wanted.iter().flat_map(|&s| [0, s, 0]));
    plan
}

/// A plan for disks, of any edition that can be for them: the library's own where there is one, else clears; one in two damaged.
fn plan(random: &mut Random, code: &model::Code, disks: &[u8]) -> Vec<u8> {
    let list = random::list(random, code, disks);
    let asked = match (disks, random.below(4)) {
        (&[disk], 0) => Asked::Disk(disk.into()),
        (&[disk], 1) => Asked::Wanted(disk.into(), &list),
        (_, 2) => Asked::Disks(disks, &list),
        _ => Asked::Disks(disks, &[]),
    };
    let mut buffer = vec![0; navorzim::PLAN_BUFFER];
    let mut plan = match planned(&code.sheet(), asked, &mut buffer) {
        Ok(Planned::Plan { length, .. }) => buffer[..length].to_vec(),
        _ => clears(code, asked),
    };
    let head = head_length(asked);
    match random.below(12) {
        0 => plan = random::damaged(random, &plan),
        1 => {
            let reads = if plan[0] == 5 { 5 } else { 6 };
            plan[reads] = random.next() as u8;
        }
        2 | 3 if plan.len() > head => {
            // One byte of one step.
            let at = head + random.below(plan.len() - head);
            let (symbol, lost) = (random.below(code.symbols()) as u8, random.pick(&code.strips(disks)) as u8);
            plan[at] = random.pick(&[0, 1, 2, 3, code.symbols() as u8, symbol, lost]);
        }
        4 if plan.len() > head + 3 => change_step(random, &mut plan, head),
        5 | 6 => change_lists(random, code, disks, head, &mut plan),
        7 => plan[random.below(2)] = random.pick(&[0, 1, 2, 3, 4, 5, 6, 7]),
        _ => {}
    }
    plan
}

/// A step left out, or given twice.
fn change_step(random: &mut Random, plan: &mut Vec<u8>, head: usize) {
    let step = head + 3 * random.below((plan.len() - head) / 3);
    if random.one_in(2) {
        plan.drain(step..step + 3);
    } else {
        let again = plan[step..step + 3].to_vec();
        plan.extend(again);
    }
    let steps = (plan.len() - head) / 3;
    plan[head - 2..head].copy_from_slice(&(steps as u16).to_le_bytes());
}

/// The same steps with other lists: good ones, bad ones, or some whose count lies; at times with too many steps besides.
fn change_lists(random: &mut Random, code: &model::Code, disks: &[u8], head_length: usize, plan: &mut Vec<u8>) {
    let (mut steps, reads) = (plan.split_off(head_length - 2), if plan[0] == 5 { plan[5] } else { plan[6] });
    if random.one_in(6) {
        steps[..2].copy_from_slice(&random.pick(&[1025u16, 1024, 65535, 0]).to_le_bytes());
    }
    let mut list = random::list(random, code, disks);
    if random.one_in(2) {
        list = random::damaged_list(random, code, &list);
    }
    list.truncate(255);
    let mut other = disks.to_vec();
    if random.one_in(2) {
        other = random::damaged_disks(random, code, disks);
    }
    other.truncate(255);
    let asked = match (disks, random.one_in(2)) {
        (&[disk], true) => Asked::Wanted(disk.into(), &list),
        _ => Asked::Disks(&other, &list),
    };
    *plan = head(code, asked, reads);
    if random.one_in(6) {
        let counts = [if plan[0] == 5 { 6 } else { 7 }, plan.len() - list.len() - 1];
        plan[random.pick(&counts)] = random.next() as u8;
    }
    plan.extend(steps);
}

#[test]
fn families() {
    let mut random = Random::new(1);
    let mut parameters: Vec<(u64, u64)> = (0..70).flat_map(|a| (0..40).map(move |b| (a, b))).collect();
    parameters.extend([
        (u64::MAX, 1),
        (1, u64::MAX),
        (1 << 63, 2),
        (u64::MAX, u64::MAX),
        (5, 1 << 32),
        ((1 << 32) + 3, 0),
    ]);
    calls(4 * parameters.len());
    for (a, b) in parameters {
        for (name, family) in [
            ("single parity", Family::SingleParity { data_disks: a, rows: b }),
            ("liberation", Family::Liberation { w: a, data_disks: b }),
            ("row-diagonal", Family::RowDiagonal { p: a }),
            ("evenodd", Family::EvenOdd { p: a }),
        ] {
            let expected = model::family(name, a, b);
            let right = expected.as_ref().map_or(0, Vec::len);
            let length = random.pick(&[0, right.saturating_sub(1), right, right + 9, 600]);
            let before = random.bytes(length);
            let mut buffer = before.clone();
            let answer = told(family.write_sheet(&mut buffer));
            match expected {
                Err(no) => assert_eq!((answer, &buffer), (Err(no), &before), "{family:?}"),
                Ok(_) if length < right => assert_eq!((answer, &buffer), (Err((37, 0)), &before), "{family:?}"),
                Ok(sheet) => {
                    assert_eq!(answer, Ok(right), "{family:?}");
                    assert_eq!((&buffer[..right], &buffer[right..]), (&sheet[..], &before[right..]), "{family:?}");
                }
            }
        }
    }
}

#[test]
fn reading() {
    let mut random = Random::new(9);
    let mut refused = [0; 7];
    for _ in 0..calls(40_000) {
        let (_, sheet) = sheet(&mut random);
        let answer = told(navorzim::read_code(&sheet));
        match model::read_code(&sheet) {
            Err(no) => {
                refused[no.0 as usize] += 1;
                assert_eq!(answer, Err(no), "{sheet:?}");
            }
            Ok(code) => {
                let shape = answer.unwrap_or_else(|no| panic!("refused {no:?} {sheet:?}"));
                let numbers = [shape.disks, shape.rows, shape.data_symbols, shape.symbols];
                assert_eq!(numbers, [code.disks, code.height, code.data, code.symbols()], "{sheet:?}");
            }
        }
    }
    println!("refused, by number: {refused:?}");
    assert!(refused[1..].iter().all(|&count| count > 20), "{refused:?}");
}

#[test]
fn encoding() {
    let mut random = Random::new(2);
    for _ in 0..calls(30_000) {
        let (code, sheet) = sheet(&mut random);
        let size = random::size(&mut random);
        let data_length = random::length(&mut random, code.data, size);
        let data = random.bytes(data_length);
        let stripe_length = random::length(&mut random, code.symbols(), size);
        let before = random.bytes(stripe_length);
        let mut stripe = before.clone();
        let answer = told(navorzim::encode(&sheet, size, &data, &mut stripe));
        match model::encode(&sheet, size, &data, stripe_length) {
            Ok(expected) => assert_eq!((answer, stripe), (Ok(()), expected), "{sheet:?} {size}"),
            Err(no) => assert_eq!((answer, stripe), (Err(no), before), "{sheet:?} {size}"),
        }
    }
}

/// How many plans of each edition were accepted, and how many refused by each number.
#[derive(Default)]
struct Judged {
    accepted: [u32; 4],
    refused: [[u32; 26]; 4],
}

impl Judged {
    fn count(&mut self, plan: &[u8], answer: Result<u64, No>) {
        let edition = match plan {
            [6, edition @ (1 | 2), ..] | [5, edition @ 3, ..] => *edition as usize,
            _ => 0,
        };
        match answer {
            Ok(_) => self.accepted[edition] += 1,
            Err((number, _)) => self.refused[edition][number as usize] += 1,
        }
    }

    /// Prints them, and asks for so many accepted plans of an edition and more than 50 refused by each of these numbers.
    fn enough(&self, edition: usize, accepted: u32, numbers: &[usize]) {
        let refused = &self.refused[edition];
        println!("edition {edition}: accepted {}, refused, by number: {refused:?}", self.accepted[edition]);
        assert!(self.accepted[edition] >= accepted, "only {} plans of edition {edition}", self.accepted[edition]);
        assert!(numbers.iter().all(|&number| refused[number] > 50), "edition {edition}: {refused:?}");
    }
}

#[test]
fn checking() {
    let mut random = Random::new(3);
    let mut judged = Judged::default();
    for _ in 0..calls(120_000) {
        let (code, sheet) = sheet(&mut random);
        let disk = random.below(code.disks) as u8;
        let plan = plan(&mut random, &code, &[disk]);
        let asked = if random.one_in(6) { random::index(&mut random, code.disks) } else { disk.into() };
        let expected = model::check(&sheet, asked, &plan);
        judged.count(&plan, expected);
        assert_eq!(told(navorzim::check(&sheet, asked, &plan)), expected, "{sheet:?} {asked} {plan:?}");
    }
    judged.enough(0, 0, &[13, 14]);
    judged.enough(1, 5_000, &[7, 15, 16, 17, 18, 19, 20, 21, 22, 25]);
    judged.enough(2, 5_000, &[7, 11, 12, 13, 15, 16, 17, 18, 19, 20, 21, 22, 23, 25]);
    judged.enough(3, 5_000, &[7, 11, 12, 13, 15, 16, 17, 18, 19, 20, 21, 22, 23, 24, 25]);
}

#[test]
fn checking_for_a_list_of_disks() {
    let mut random = Random::new(13);
    let mut judged = Judged::default();
    for _ in 0..calls(120_000) {
        let (code, sheet) = sheet(&mut random);
        let disks = random::disks(&mut random, &code);
        let plan = plan(&mut random, &code, &disks);
        let mut asked = disks;
        if random.one_in(6) {
            asked = random::damaged_disks(&mut random, &code, &asked);
        }
        let expected = model::check_disks(&sheet, &asked, &plan);
        judged.count(&plan, expected);
        assert_eq!(told(navorzim::check_disks(&sheet, &asked, &plan)), expected, "{sheet:?} {asked:?} {plan:?}");
    }
    judged.enough(1, 1_000, &[7, 16, 21, 24]);
    judged.enough(2, 1_000, &[7, 16, 21, 23, 24]);
    judged.enough(3, 5_000, &[7, 11, 12, 13, 15, 16, 17, 18, 19, 20, 21, 22, 23, 24, 25]);
}

/// Plans into a buffer that held `before`, and holds the answer and every byte to the rules. If nothing is refused, answers how much is
/// gone, which is 0 where there is a plan.
fn judged_planning(sheet: &[u8], asked: Asked, before: &[u8]) -> Option<usize> {
    let mut buffer = before.to_vec();
    let answer = told(planned(sheet, asked, &mut buffer));
    let context = || format!("{sheet:?} {asked:?}");
    match (model::plan_refusal(sheet, asked, before.len()), answer) {
        (Err(no), answer) => {
            assert_eq!((answer, &buffer[..]), (Err(no), before), "{}", context());
            None
        }
        (Ok((code, disks, wanted)), Ok(Planned::Plan { length, reads })) => {
            assert_eq!(model::gone(&code, &disks, &wanted), 0, "{}", context());
            let head = head(&code, asked, reads as u8);
            assert_eq!(buffer[..head.len()], head, "{}", context());
            let written = model::read_plan(&code, &disks, &buffer[..length]).expect("a whole sheet");
            steps_within_the_bound(&code, &disks, &written);
            assert_eq!(written.wanted, wanted, "{}", context());
            assert_eq!(model::check_disks(sheet, &disks, &buffer[..length]), Ok(reads), "{}", context());
            assert_eq!(&buffer[length..], &before[length..], "{}", context());
            Some(0)
        }
        (Ok((code, disks, wanted)), Ok(Planned::NoPlan { patterns })) => {
            let bits: Vec<u128> = patterns.iter().map(|pattern| pattern.0).collect();
            let size = 1 + wanted.len() % 3;
            assert!(!bits.is_empty(), "{}", context());
            assert!(model::tell_what_is_gone(&code, &disks, &wanted, &bits, size), "{} {bits:?}", context());
            assert_eq!(buffer, before, "{}", context());
            Some(bits.len())
        }
        (Ok(_), Err(no)) => panic!("refused {no:?} {}", context()),
    }
}

#[test]
fn planning() {
    let mut random = Random::new(4);
    let (mut plans, mut patterns) = (0, 0);
    for _ in 0..calls(60_000) {
        let (code, sheet) = sheet(&mut random);
        let disk = random::index(&mut random, code.disks);
        let length = if random.one_in(8) { random.pick(&[0, 9, 3080]) } else { 3081 + random.pick(&[0, 0, 0, 1, 50]) };
        let before = random.bytes(length);
        let answer = judged_planning(&sheet, Asked::Disk(disk), &before);
        plans += (answer == Some(0)) as u32;
        patterns += (answer > Some(0)) as u32;
    }
    assert!(plans > 10_000 && patterns > 5_000, "{plans} plans, {patterns} patterns");
}

#[test]
fn planning_with_a_list() {
    let mut random = Random::new(8);
    let (mut plans, mut patterns, mut rescued) = (0, 0, 0);
    for _ in 0..calls(80_000) {
        let (code, sheet) = sheet(&mut random);
        let disk = random.below(code.disks) as u8;
        let mut list = random::list(&mut random, &code, &[disk]);
        if random.one_in(4) {
            list = random::damaged_list(&mut random, &code, &list);
        }
        let asked = if random.one_in(8) { random::index(&mut random, code.disks) } else { disk.into() };
        let length =
            if random.one_in(8) { random.pick(&[0, 3081, 3113]) } else { 3114 + random.pick(&[0, 0, 0, 1, 50]) };
        let before = random.bytes(length);
        let answer = judged_planning(&sheet, Asked::Wanted(asked, &list), &before);
        plans += (answer == Some(0)) as u32;
        patterns += (answer > Some(0)) as u32;
        // Some symbols of a disk that as a whole has no plan.
        let rescue = answer == Some(0) && list.len() < code.height;
        rescued += (rescue && judged_planning(&sheet, Asked::Disk(asked), &before) > Some(0)) as u32;
    }
    println!("{plans} plans, {patterns} patterns, {rescued} plans for symbols of a disk that has none");
    assert!(plans > 20_000 && patterns > 5_000 && rescued > 500, "{plans} {patterns} {rescued}");
}

#[test]
fn planning_for_a_list_of_disks() {
    let mut random = Random::new(18);
    let (mut plans, mut patterns, mut rescued) = ([0; 3], [0; 3], 0);
    for _ in 0..calls(80_000) {
        let (code, sheet) = sheet(&mut random);
        let mut disks = random::disks(&mut random, &code);
        let mut list = if random.one_in(2) { Vec::new() } else { random::list(&mut random, &code, &disks) };
        if !list.is_empty() && random.one_in(4) {
            list = random::damaged_list(&mut random, &code, &list);
        }
        if random.one_in(6) {
            disks = random::damaged_disks(&mut random, &code, &disks);
        }
        let length =
            if random.one_in(8) { random.pick(&[0, 3081, 3114, 3209]) } else { 3210 + random.pick(&[0, 0, 0, 1, 50]) };
        let before = random.bytes(length);
        let answer = judged_planning(&sheet, Asked::Disks(&disks, &list), &before);
        let several = disks.len().min(2);
        plans[several] += (answer == Some(0)) as u32;
        patterns[several] += (answer > Some(0)) as u32;
        let rescue = answer == Some(0) && !list.is_empty();
        rescued += (rescue && judged_planning(&sheet, Asked::Disks(&disks, &[]), &before) > Some(0)) as u32;
    }
    println!("plans {plans:?}, patterns {patterns:?} for one disk and for several, {rescued} plans for symbols of disks that have none");
    assert!(plans[2] > 8_000 && patterns[2] > 8_000 && rescued > 500, "{plans:?} {patterns:?} {rescued}");
}

/// Each pattern by its index: those that planning answered, in this order, and none from their number on.
#[test]
fn patterns_by_index() {
    let mut random = Random::new(24);
    let (mut refused, mut found, mut beyond, mut most) = ([0; 25], 0, 0, 0);
    for _ in 0..calls(80_000) {
        let (code, sheet) = sheet(&mut random);
        let mut disks = random::disks(&mut random, &code);
        let mut list = if random.one_in(2) { Vec::new() } else { random::list(&mut random, &code, &disks) };
        if !list.is_empty() && random.one_in(6) {
            list = random::damaged_list(&mut random, &code, &list);
        }
        if random.one_in(8) {
            disks = random::damaged_disks(&mut random, &code, &disks);
        }
        let patterns = match told(navorzim::plan_disks(&sheet, &disks, &list)) {
            Ok(Planning::NoPlan { patterns }) => Ok(patterns),
            Ok(Planning::Plan { .. }) => Ok(vec![]),
            Err(no) => Err(no),
        };
        let gone = patterns.as_ref().map_or(0, Vec::len);
        let near = [0, gone.saturating_sub(1), gone, gone + 1, random.below(gone)];
        let index = random.pick(&[&near.map(|index| index as u64)[..], &[63, 64, 65, 128, 1 << 32, u64::MAX]].concat());
        let expected = patterns.map(|patterns| patterns.get(index.min(1000) as usize).copied());
        let answer = told(navorzim::lost_pattern(&sheet, &disks, &list, index));
        assert_eq!(answer, expected, "{sheet:?} {disks:?} {list:?} {index}");
        match model::plan_refusal(&sheet, Asked::Disks(&disks, &list), navorzim::PLAN_BUFFER) {
            Err(no) => {
                refused[no.0 as usize] += 1;
                assert_eq!(answer, Err(no), "{sheet:?} {disks:?} {list:?} {index}");
            }
            Ok(_) => {
                most = most.max(gone);
                found += matches!(answer, Ok(Some(_))) as u32;
                beyond += matches!(answer, Ok(None)) as u32;
            }
        }
    }
    println!("{found} patterns, {beyond} beyond the last, at most {most} of an array; refused, by number: {refused:?}");
    assert!(found > 5_000 && beyond > 20_000 && most > 40, "{found} {beyond} {most}");
    assert!([1, 2, 3, 4, 5, 6, 7, 23, 24].iter().all(|&number| refused[number] > 20), "{refused:?}");
}

/// Refusals in their order: the code sheet's, 7, 24, 23. A plan, or an index that is too large, hides none of them.
#[test]
fn refusals_of_a_pattern() {
    let sheet = Family::SingleParity { data_disks: 3, rows: 4 }.sheet().expect("listed");
    for index in [0, 3, 4, 64, u64::MAX] {
        for (sheet, disks, list, no) in [
            (&sheet[..9], &[9, 0][..], &[99][..], (1, 0)),
            (&with(&sheet, 1, 9), &[9, 0], &[99], (4, 0)),
            (&sheet, &[1, 0, 4], &[99], (7, 0)),
            (&sheet, &[0, 0, 0, 0, 0], &[99], (24, 0)),
            (&sheet, &[], &[99], (24, 0)),
            (&sheet, &[1, 0], &[99], (24, 1)),
            (&sheet, &[0, 1], &[99], (23, 0)),
            (&sheet, &[0, 1], &[0, 4, 8], (23, 2)),
            (&sheet, &[0], &[0, 1, 2, 3, 3], (23, 0)),
        ] {
            assert_eq!(told(navorzim::lost_pattern(sheet, disks, list, index)), Err(no), "{disks:?} {list:?} {index}");
        }
        // One disk has a plan; of two disks the four rows are gone, each a pattern.
        assert_eq!(navorzim::lost_pattern(&sheet, &[0], &[], index), Ok(None));
        assert_eq!(navorzim::lost_pattern(&sheet, &[0, 1], &[], index).map(|found| found.is_some()), Ok(index < 4));
    }
}

/// Small codes, and every list of the disks' symbols: what the patterns say is held to all data that there can be.
#[test]
fn how_much_is_gone_by_trying() {
    let mut random = Random::new(25);
    let mut of_gone = [0; 7];
    for _ in 0..1_500 {
        let (disks, height, data) = (2 + random.below(3), 1 + random.below(2), 1 + random.below(6));
        let rows = (0..disks * height).map(|_| (0..data).map(|_| random.one_in(3)).collect()).collect();
        let code = model::Code { disks, height, data, rows };
        let lost = random::disks(&mut random, &code);
        let list = if random.one_in(3) { Vec::new() } else { random::list(&mut random, &code, &lost) };
        let wanted = model::wanted_list(&code, &lost, &list, 0).expect("good");
        let patterns = match navorzim::plan_disks(&code.sheet(), &lost, &list).expect("good") {
            Planning::Plan { .. } => Vec::new(),
            Planning::NoPlan { patterns } => patterns.iter().map(|pattern| pattern.0).collect(),
        };
        let told = model::tell_what_is_gone_by_trying(&code, &lost, &wanted, &patterns);
        assert!(told, "{code:?} {lost:?} {list:?} {patterns:?}");
        of_gone[patterns.len()] += 1;
    }
    println!("arrays, by how much is gone: {of_gone:?}");
    assert!(of_gone[..4].iter().all(|&count| count > 10), "{of_gone:?}");
}

/// The model itself: answers that may stand, and wrong ones, are told apart by ranks as by trying all data.
#[test]
fn wrong_patterns_are_caught() {
    // Three data disks of two rows, d0 to d5, and parity. Disks 0 and 1 are lost, symbols 0 to 3: d0 and d2 could be others, d1 and d3 too.
    let sheet = Family::SingleParity { data_disks: 3, rows: 2 }.sheet().expect("listed");
    let code = model::read_code(&sheet).expect("good");
    let (row_0, row_1) = (0b0101, 0b1010);
    for (wanted, patterns, right) in [
        (&[0, 1, 2, 3][..], &[row_0, row_1][..], true),
        (&[0, 1, 2, 3], &[row_0 ^ row_1, row_1], true),
        (&[0], &[row_0], true),
        (&[0], &[row_0 ^ row_1], true),
        // One short, none at all, one too many, one twice.
        (&[0, 1, 2, 3], &[row_0], false),
        (&[0, 1, 2, 3], &[], false),
        (&[0, 1, 2, 3], &[row_0, row_1, row_0 ^ row_1], false),
        (&[0, 1, 2, 3], &[row_0, row_0], false),
        // Independent on the lost symbols, not on the wanted ones.
        (&[0, 2], &[row_0, row_0 ^ row_1], false),
        (&[0, 2], &[row_0, row_1], false),
        // The first shows on no wanted symbol.
        (&[0], &[row_1], false),
        (&[0, 1, 2, 3], &[0, row_1], false),
        // One shows on a survivor, or has a bit at K.
        (&[0, 1, 2, 3], &[row_0, row_1 ^ 0b10000], false),
        (&[0, 1, 2, 3], &[row_0, row_1 ^ 0b1000000], false),
    ] {
        assert_eq!(model::tell_what_is_gone(&code, &[0, 1], wanted, patterns, 2), right, "{wanted:?} {patterns:?}");
        let by_trying = model::tell_what_is_gone_by_trying(&code, &[0, 1], wanted, patterns);
        assert_eq!(by_trying, right, "by trying: {wanted:?} {patterns:?}");
    }
}

/// What a pattern says of itself: its data symbols, and the symbols that it shows on.
#[test]
fn what_a_pattern_shows_on() {
    let mut random = Random::new(26);
    for _ in 0..calls(20_000) {
        let (_, sheet) = sheet(&mut random);
        let bits = u128::from(random.next()) << random.pick(&[0, 40, 64]) >> random.below(100);
        let pattern = Pattern(bits);
        assert_eq!(pattern.data_symbols().fold(0, |sum, t| sum | 1 << t), bits);
        assert!([128, usize::MAX].iter().all(|&beyond| !pattern.has(beyond)));
        let expected = model::read_code(&sheet).map(|code| {
            let data: Vec<u8> = (0..code.data).map(|t| (bits >> t & 1) as u8).collect();
            let stripe = model::scatter(&code, 1, &data);
            (0..code.symbols() as u8).filter(|&s| stripe[s as usize] == 1).collect::<Vec<u8>>()
        });
        assert_eq!(told(pattern.shows_on(&sheet)), expected, "{sheet:?} {bits}");
    }
}

/// A stripe for a rebuild: a valid one with its lost strips ruined, and what it was, or any bytes.
fn stripe(random: &mut Random, code: &model::Code, disks: &[u8], size: u64) -> (Vec<u8>, Option<Vec<u8>>) {
    let length = random::length(random, code.symbols(), size);
    if !(1..=4096).contains(&size) || length != code.symbols() * size as usize || random.one_in(2) {
        return (random.bytes(length), None);
    }
    let size = size as usize;
    let data = random.bytes(code.data * size);
    let whole = model::scatter(code, size, &data);
    let mut ruined = whole.clone();
    ruin(random, code, disks, size, &mut ruined);
    (ruined, Some(whole))
}

/// Other bytes in the lost strips.
fn ruin(random: &mut Random, code: &model::Code, disks: &[u8], size: usize, stripe: &mut [u8]) {
    for s in code.strips(disks) {
        let bytes = random.bytes(size);
        stripe[s * size..(s + 1) * size].copy_from_slice(&bytes);
    }
}

/// A rebuild of one disk through the call for it, at times, else through the call for a list.
fn rebuilt(sheet: &[u8], disks: &[u8], plan: &[u8], size: u64, stripe: &mut [u8]) -> Result<(), No> {
    told(match disks {
        &[disk] if size % 2 == 1 => navorzim::rebuild(sheet, disk.into(), plan, size, stripe),
        _ => navorzim::rebuild_disks(sheet, disks, plan, size, stripe),
    })
}

/// How many rebuilds gave valid stripes back, and how many left lost symbols that weren't wanted.
#[derive(Default)]
struct Rebuilt {
    restored: u32,
    kept: u32,
}

/// Rebuilds a stripe and holds the answer and every byte to the rules.
fn judged_rebuild(random: &mut Random, (code, sheet): (&model::Code, &[u8]), disks: &[u8], counts: &mut Rebuilt) {
    let plan = plan(random, code, disks);
    let size = random::size(random);
    let (before, whole) = stripe(random, code, disks, size);
    let mut after = before.clone();
    let answer = rebuilt(sheet, disks, &plan, size, &mut after);
    let context = || format!("{sheet:?} {disks:?} {plan:?} {size}");
    let expected = match model::rebuild_disks(sheet, disks, &plan, size, &before) {
        Err(no) => return assert_eq!((answer, after), (Err(no), before), "{}", context()),
        Ok(expected) => expected,
    };
    assert_eq!((answer, &after), (Ok(()), &expected), "{}", context());
    // The sheet that was read may be a damaged one: it says where things are.
    let (intact, code) = (sheet == code.sheet(), model::read_code(sheet).expect("it was taken"));
    let unwanted = unwanted(&code, disks, &plan);
    counts.kept += (!unwanted.is_empty()) as u32;
    symbols_agree(&before, &after, size as usize, &unwanted, "an unwanted symbol changed");
    let mut other = before;
    ruin(random, &code, disks, size as usize, &mut other);
    assert_eq!(rebuilt(sheet, disks, &plan, size, &mut other), Ok(()));
    let rest: Vec<usize> = (0..code.symbols()).filter(|s| !unwanted.contains(s)).collect();
    symbols_agree(&after, &other, size as usize, &rest, "the result depends on the lost strips");
    if let (Some(whole), true) = (whole, intact) {
        counts.restored += 1;
        symbols_agree(&after, &whole, size as usize, &rest, "a wanted symbol isn't back");
    }
}

#[test]
fn rebuilding() {
    let mut random = Random::new(5);
    let mut counts = Rebuilt::default();
    for _ in 0..calls(60_000) {
        let (code, sheet) = sheet(&mut random);
        let disk = random.below(code.disks) as u8;
        judged_rebuild(&mut random, (&code, &sheet), &[disk], &mut counts);
    }
    let Rebuilt { restored, kept } = counts;
    println!("{restored} valid stripes restored, {kept} rebuilds with unwanted symbols");
    assert!(restored > 2_000 && kept > 1_000, "{restored} restored, {kept} with unwanted symbols");
}

#[test]
fn rebuilding_for_a_list_of_disks() {
    let mut random = Random::new(15);
    let mut counts = Rebuilt::default();
    for _ in 0..calls(60_000) {
        let (code, sheet) = sheet(&mut random);
        let disks = random::disks(&mut random, &code);
        judged_rebuild(&mut random, (&code, &sheet), &disks, &mut counts);
    }
    let Rebuilt { restored, kept } = counts;
    println!("{restored} valid stripes restored, {kept} rebuilds with unwanted symbols");
    assert!(restored > 2_000 && kept > 500, "{restored} restored, {kept} with unwanted symbols");
}

/// The lost symbols that a plan doesn't want.
fn unwanted(code: &model::Code, disks: &[u8], plan: &[u8]) -> Vec<usize> {
    let plan = model::read_plan(code, disks, plan).expect("a whole sheet");
    code.strips(disks).into_iter().filter(|s| !plan.wanted.contains(s)).collect()
}

fn symbols_agree(one: &[u8], other: &[u8], size: usize, symbols: &[usize], otherwise: &str) {
    for s in symbols {
        assert_eq!(one[s * size..(s + 1) * size], other[s * size..(s + 1) * size], "{otherwise}: {s}");
    }
}

#[test]
fn views() {
    let mut random = Random::new(6);
    let mut shown = 0;
    for _ in 0..calls(80_000) / 2 {
        let (code, sheet) = sheet(&mut random);
        let disk = random::index(&mut random, code.disks);
        let size = random::size(&mut random);
        let stripe_length = random::length(&mut random, code.symbols(), size);
        let spare_length = random::length(&mut random, code.height, size);
        let (stripe, spare) = (random.bytes(stripe_length), random.bytes(spare_length));
        let expected = model::strip(&sheet, disk, size, stripe.len()).map(|(start, end)| &stripe[start..end]);
        let strip = told(navorzim::strip(&sheet, disk, size, &stripe));
        assert_eq!(strip, expected, "{sheet:?} {disk} {size}");
        if let (Ok(strip), Ok(expected)) = (strip, expected) {
            assert_eq!(strip.as_ptr(), expected.as_ptr(), "a copy, not a part");
        }
        let symbol = random::index(&mut random, code.symbols());
        let expected = model::look_up(&sheet, disk, size, stripe.len(), spare.len(), symbol)
            .map(|(in_spare, start, end)| if in_spare { &spare[start..end] } else { &stripe[start..end] });
        let part = told(navorzim::look_up(&sheet, disk, size, &stripe, &spare, symbol));
        assert_eq!(part, expected, "{sheet:?} {disk} {size} {symbol}");
        if let (Ok(part), Ok(expected)) = (part, expected) {
            shown += 1;
            assert_eq!(part.as_ptr(), expected.as_ptr(), "a copy, not a part");
        }
    }
    assert!(shown > 5_000, "only {shown} symbols were shown");
}

/// Good sheets cut at every byte, and with each byte of a plan and of a code sheet's head at every value.
#[test]
fn sheets_at_every_byte() {
    let sheet = Family::Liberation { w: 3, data_disks: 2 }.sheet().expect("listed");
    let one = [Asked::Disk(1), Asked::Wanted(1, &[3]), Asked::Wanted(1, &[5]), Asked::Wanted(1, &[3, 5])];
    let listed = [Asked::Wanted(1, &[3, 4, 5]), Asked::Disks(&[1], &[]), Asked::Disks(&[1], &[4])];
    let several = [Asked::Disks(&[0, 2], &[]), Asked::Disks(&[1, 3], &[3, 5, 9]), Asked::Disks(&[0, 1], &[0])];
    for asked in one.into_iter().chain(listed).chain(several) {
        let disks = if let Asked::Disks(disks, _) = asked { disks } else { &[1] };
        let judge = |sheet: &[u8], plan: &[u8]| {
            let expected = model::check_disks(sheet, disks, plan);
            assert_eq!(told(navorzim::check_disks(sheet, disks, plan)), expected, "{sheet:?} {disks:?} {plan:?}");
            assert_eq!(told(navorzim::check(sheet, 1, plan)), model::check(sheet, 1, plan), "{sheet:?} {plan:?}");
        };
        let mut plan = vec![0; navorzim::PLAN_BUFFER];
        let Ok(Planned::Plan { length, .. }) = planned(&sheet, asked, &mut plan) else { panic!("no plan") };
        plan.truncate(length);
        (0..=sheet.len()).for_each(|cut| judge(&sheet[..cut], &plan));
        (0..=plan.len()).for_each(|cut| judge(&sheet, &plan[..cut]));
        for value in 0..=255 {
            (0..14).for_each(|at| judge(&with(&sheet, at, value), &plan));
            (0..plan.len()).for_each(|at| judge(&sheet, &with(&plan, at, value)));
        }
        // 1,024 and 1,025 steps.
        for steps in [1024usize, 1025] {
            let mut long = plan[..head_length(asked) - 2].to_vec();
            long.extend((steps as u16).to_le_bytes());
            long.extend([0, 3, 0].repeat(steps));
            judge(&sheet, &long);
        }
    }
}

/// A sheet with one byte changed.
fn with(sheet: &[u8], at: usize, value: u8) -> Vec<u8> {
    let mut changed = sheet.to_vec();
    changed[at] = value;
    changed
}

/// Every entry of a list at every value, given to planning and in a sheet.
#[test]
fn lists_at_every_position() {
    let sheet = Family::SingleParity { data_disks: 3, rows: 4 }.sheet().expect("listed");
    let code = model::read_code(&sheet).expect("good");
    let judge = |asked: Asked| {
        judged_planning(&sheet, asked, &[7; 3210]);
        let (plan, disks) = (clears(&code, asked), if let Asked::Disks(disks, _) = asked { disks } else { &[1] });
        let expected = model::check_disks(&sheet, disks, &plan);
        assert_eq!(told(navorzim::check_disks(&sheet, disks, &plan)), expected, "{plan:?}");
        assert_eq!(told(navorzim::check(&sheet, 1, &plan)), model::check(&sheet, 1, &plan), "{plan:?}");
    };
    let lists: [&[u8]; 7] = [&[4], &[7], &[4, 7], &[5, 6], &[4, 5, 6], &[5, 6, 7], &[4, 5, 6, 7]];
    for list in lists {
        for (at, value) in (0..list.len()).flat_map(|at| (0..=255).map(move |value| (at, value))) {
            judge(Asked::Wanted(1, &with(list, at, value)));
            judge(Asked::Disks(&[1], &with(list, at, value)));
            judge(Asked::Disks(&[0, 1], &with(list, at, value)));
        }
    }
    let lists: [&[u8]; 6] = [&[1], &[3], &[0, 3], &[1, 2], &[0, 1, 3], &[0, 1, 2, 3]];
    for list in lists {
        for (at, value) in (0..list.len()).flat_map(|at| (0..=255).map(move |value| (at, value))) {
            judge(Asked::Disks(&with(list, at, value), &[]));
            judge(Asked::Disks(&with(list, at, value), &[12]));
        }
    }
    // What is only read may overlap: lists out of the sheet itself.
    for (start, end) in (0..=sheet.len()).flat_map(|start| (start..=sheet.len()).map(move |end| (start, end))) {
        judged_planning(&sheet, Asked::Wanted(1, &sheet[start..end]), &[7; 3114]);
        judged_planning(&sheet, Asked::Disks(&sheet[start..end], &sheet[..end - start]), &[7; 3210]);
    }
    for (length, start) in (0..600).flat_map(|length| [0, 4, 255].map(|start| (length, start))) {
        let list: Vec<u8> = (0..length).map(|i| (start + i) as u8).collect();
        judged_planning(&sheet, Asked::Wanted(1, &list), &[7; 3114]);
        judged_planning(&sheet, Asked::Disks(&[1, 2], &list), &[7; 3210]);
        judged_planning(&sheet, Asked::Disks(&list, &[]), &[7; 3210]);
    }
}

/// The bytes of a plan sheet after its head, in parts, and its answer.
type Case<'a> = (&'a [&'a [u8]], Result<u64, No>);

/// Judges plans of edition 2 for disk 1, symbols 4 to 7, of a single parity array; their heads fit.
fn judged_lists(cases: &[Case]) {
    let sheet = Family::SingleParity { data_disks: 3, rows: 4 }.sheet().expect("listed");
    for (parts, expected) in cases {
        let plan = [&[6, 2, 4, 4, 12, 1, 3], &parts.concat()[..]].concat();
        assert_eq!(model::check(&sheet, 1, &plan), *expected, "the model: {plan:?}");
        assert_eq!(told(navorzim::check(&sheet, 1, &plan)), *expected, "{plan:?}");
    }
}

/// Row 2 of disk 1, symbol 6, from the other disks' row 2: the step count and the steps.
const ROW_2: [u8; 11] = [3, 0, 1, 6, 2, 2, 6, 10, 2, 6, 14];

/// Edition 2's order up to the steps, each answer written out.
#[test]
fn lists_in_the_order_of_the_rules() {
    judged_lists(&[
        (&[&[1, 6], &ROW_2], Ok(3)),
        (&[&[1, 6], &ROW_2[..0]], Err((11, 0))),
        (&[&[1, 6], &ROW_2[..1]], Err((11, 0))),
        (&[&[1, 6], &ROW_2[..10]], Err((11, 0))),
        (&[&[1, 6], &ROW_2, &[0]], Err((12, 0))),
        // Nine bytes of edition 2, whatever they say, and a count that runs past the end.
        (&[&[0, 0]], Err((11, 0))),
        (&[&[255], &ROW_2], Err((11, 0))),
        (&[&[255], &[4; 256]], Err((11, 0))),
        (&[&[255], &[4; 257]], Err((13, 0))),
        (&[&[255], &[0; 257]], Err((23, 0))),
        // The step limit goes before the list, and the list before the length.
        (&[&[1, 9], &[1, 4]], Err((13, 0))),
        (&[&[0], &[1, 4]], Err((13, 0))),
        (&[&[0], &[0, 4]], Err((23, 0))),
        (&[&[1, 9], &[0, 4]], Err((23, 0))),
        (&[&[2, 6, 6], &ROW_2[..10]], Err((23, 1))),
        (&[&[2, 6, 5], &ROW_2, &[0]], Err((23, 1))),
    ]);
}

/// What makes a list bad and where, and what the steps are held to, each answer written out.
#[test]
fn lists_and_their_steps() {
    judged_lists(&[
        // The count goes before the entries.
        (&[&[0], &ROW_2], Err((23, 0))),
        (&[&[5, 4, 5, 6, 7, 8], &ROW_2], Err((23, 0))),
        (&[&[5, 4, 4, 4, 4, 4], &ROW_2], Err((23, 0))),
        (&[&[4, 4, 5, 6, 8], &ROW_2], Err((23, 3))),
        (&[&[4, 4, 5, 7, 6], &ROW_2], Err((23, 3))),
        (&[&[2, 3, 5], &ROW_2], Err((23, 0))),
        (&[&[2, 4, 16], &ROW_2], Err((23, 1))),
        (&[&[2, 4, 255], &ROW_2], Err((23, 1))),
        // A target that isn't wanted is 18, an unwanted lost place as a source 19; 20 and 21 name the row, not the position.
        (&[&[1, 7], &ROW_2], Err((18, 0))),
        (&[&[1, 6], &[1, 0, 1, 6, 7]], Err((19, 0))),
        (&[&[2, 6, 7], &ROW_2], Err((20, 3))),
        (&[&[1, 6], &[1, 0, 1, 6, 2]], Err((21, 2 * 64 + 2))),
        (&[&[1, 6], &[4, 0, 0, 6, 0], &ROW_2[2..]], Ok(3)),
    ]);
}

/// Judges plans of edition 3 for some disks of a single parity array of four disks of four rows; n, r and K fit.
fn judged_disk_lists(disks: &[u8], cases: &[Case]) {
    let sheet = Family::SingleParity { data_disks: 3, rows: 4 }.sheet().expect("listed");
    for (parts, expected) in cases {
        let plan = [&[5, 3, 4, 4, 12], &parts.concat()[..]].concat();
        assert_eq!(model::check_disks(&sheet, disks, &plan), *expected, "the model: {disks:?} {plan:?}");
        assert_eq!(told(navorzim::check_disks(&sheet, disks, &plan)), *expected, "{disks:?} {plan:?}");
        if let &[disk] = disks {
            assert_eq!(told(navorzim::check(&sheet, disk.into(), &plan)), *expected, "{disk} {plan:?}");
        }
    }
}

/// Edition 3's order up to the steps, each answer written out. The parts are the read count, the disks and the wanted symbols after their
/// counts, and the steps.
#[test]
fn disk_lists_in_the_order_of_the_rules() {
    judged_disk_lists(
        &[1],
        &[
            (&[&[3], &[1, 1], &[1, 6], &ROW_2], Ok(3)),
            (&[&[3], &[1, 1], &[1, 6], &ROW_2[..0]], Err((11, 0))),
            (&[&[3], &[1, 1], &[1, 6], &ROW_2[..1]], Err((11, 0))),
            (&[&[3], &[1, 1], &[1, 6], &ROW_2[..10]], Err((11, 0))),
            (&[&[3], &[1, 1], &[1, 6], &ROW_2, &[0]], Err((12, 0))),
            // Nine bytes, whatever they say, and counts that run past the end.
            (&[&[3], &[0, 0, 0]], Err((11, 0))),
            (&[&[3], &[0], &[0], &[0, 0]], Err((24, 0))),
            (&[&[3], &[255], &[1, 6], &ROW_2], Err((11, 0))),
            (&[&[3], &[1, 1], &[255], &ROW_2], Err((11, 0))),
            (&[&[3], &[255], &[1; 255], &[255], &[6; 255], &[0]], Err((11, 0))),
            (&[&[3], &[255], &[1; 255], &[255], &[6; 255], &[1, 4]], Err((13, 0))),
            (&[&[3], &[255], &[1; 255], &[255], &[6; 255], &[0, 4]], Err((24, 0))),
            // The step limit goes before the disks: 7 over the whole list, then 24, then 16, then 23, then the length.
            (&[&[3], &[2, 9, 9], &[1, 9], &[1, 4]], Err((13, 0))),
            (&[&[3], &[3, 0, 0, 4], &[1, 9], &[0, 4]], Err((7, 0))),
            (&[&[3], &[5, 0, 1, 2, 3, 4], &[0], &[0, 4]], Err((7, 0))),
            (&[&[3], &[2, 255, 1], &[0], &[0, 4]], Err((7, 0))),
            (&[&[3], &[5, 0, 1, 2, 3, 3], &[0], &[0, 4]], Err((24, 0))),
            (&[&[3], &[4, 0, 1, 2, 2], &[0], &[0, 4]], Err((24, 3))),
            (&[&[3], &[2, 1, 1], &[1, 9], &[0, 4]], Err((24, 1))),
            (&[&[3], &[2, 1, 0], &[1, 9], &[0, 4]], Err((24, 1))),
            (&[&[3], &[0], &[1, 9], &[0, 4]], Err((24, 0))),
            (&[&[3], &[2, 0, 1], &[1, 3, 3], &[0, 4]], Err((16, 0))),
            (&[&[3], &[1, 2], &[1, 3], &[0, 4]], Err((16, 0))),
            (&[&[3], &[1, 1], &[1, 9], &[0, 4]], Err((23, 0))),
            (&[&[3], &[1, 1], &[2, 6, 6], &ROW_2[..10]], Err((23, 1))),
            (&[&[3], &[1, 1], &[5, 4, 5, 6, 7, 7], &ROW_2], Err((23, 0))),
        ],
    );
}

/// What is asked about, and what the head says besides the lists.
#[test]
fn sets_that_are_asked_about() {
    let sheet = Family::SingleParity { data_disks: 3, rows: 4 }.sheet().expect("listed");
    let whole = [&[5, 3, 4, 4, 12, 3, 1, 1, 1, 6], &ROW_2[..]].concat();
    let judge = |disks: &[u8], plan: &[u8], expected: Result<u64, No>| {
        assert_eq!(model::check_disks(&sheet, disks, plan), expected, "the model: {disks:?} {plan:?}");
        assert_eq!(told(navorzim::check_disks(&sheet, disks, plan)), expected, "{disks:?} {plan:?}");
        let mut stripe = [7; 16];
        let rebuilt = told(navorzim::rebuild_disks(&sheet, disks, plan, 1, &mut stripe));
        assert_eq!(rebuilt, expected.map(|_| ()), "{disks:?} {plan:?}");
    };
    for (disks, expected) in [
        (&[1][..], Ok(3)),
        (&[], Err((24, 0))),
        (&[4], Err((7, 0))),
        (&[1, 1], Err((24, 1))),
        (&[3, 1], Err((24, 1))),
        (&[1, 0, 4], Err((7, 0))),
        (&[0, 1, 2, 3, 3], Err((24, 0))),
        (&[0, 1, 2, 3, 4], Err((7, 0))),
        (&[0], Err((16, 0))),
        (&[0, 1], Err((16, 0))),
        (&[0, 1, 2, 3], Err((16, 0))),
        (&[1; 255], Err((24, 0))),
        (&[1; 257], Err((24, 0))),
    ] {
        judge(disks, &whole, expected);
        // Editions 1 and 2 are for the one disk that they name.
        let Ok(Planning::Plan { plan, .. }) = navorzim::plan_wanted(&sheet, 1, &[6]) else { panic!("no plan") };
        judge(disks, &plan, expected);
        let Ok(Planning::Plan { plan, reads }) = navorzim::plan(&sheet, 1) else { panic!("no plan") };
        judge(disks, &plan, expected.map(|_| reads));
    }
    // First count and edition, and then n, r and K, go before the lists and before 16.
    for (at, value, expected) in [
        (0, 6, (14, 0)),
        (0, 4, (13, 0)),
        (1, 1, (14, 0)),
        (1, 2, (14, 0)),
        (1, 4, (14, 0)),
        (2, 5, (15, 0)),
        (4, 13, (15, 0)),
        (5, 4, (22, 3)),
        (6, 0, (24, 0)),
    ] {
        judge(&[1], &with(&whole, at, value), Err(expected));
    }
}

/// What makes a list of wanted symbols of several disks bad, and what the steps are held to: places are symbol numbers.
#[test]
fn disk_lists_and_their_steps() {
    // Disks 1 and 3, symbols 4 to 7 and 12 to 15: a row of both can't be rebuilt, but disk 1 is zero where data are.
    judged_disk_lists(
        &[1, 3],
        &[
            (&[&[0], &[2, 1, 3], &[0], &[0, 0]], Err((20, 4))),
            (&[&[0], &[2, 1, 3], &[1, 13], &[0, 0]], Err((20, 13))),
            (&[&[0], &[2, 1, 3], &[2, 5, 12], &[1, 0, 0, 5, 0]], Err((20, 12))),
            (&[&[0], &[2, 1, 3], &[1, 13], &[1, 0, 0, 13, 0]], Err((21, 13 * 64 + 1))),
            (&[&[1], &[2, 1, 3], &[1, 13], &[1, 0, 1, 13, 1]], Err((21, 13 * 64 + 5))),
            (&[&[0], &[2, 1, 3], &[2, 7, 8], &[0, 0]], Err((23, 1))),
            (&[&[0], &[2, 1, 3], &[2, 12, 7], &[0, 0]], Err((23, 1))),
            (&[&[0], &[2, 1, 3], &[1, 16], &[0, 0]], Err((23, 0))),
            (&[&[0], &[2, 1, 3], &[9, 4, 5, 6, 7, 12, 13, 14, 15, 15], &[0, 0]], Err((23, 0))),
            (&[&[0], &[2, 1, 3], &[8, 4, 5, 6, 7, 12, 13, 14, 15], &[0, 0]], Err((20, 4))),
            (&[&[0], &[2, 1, 3], &[0], &[1, 0, 1, 4, 12]], Err((19, 0))),
            (&[&[0], &[2, 1, 3], &[0], &[1, 0, 1, 0, 4]], Err((18, 0))),
            (&[&[0], &[2, 1, 3], &[0], &[1, 0, 1, 4, 4]], Err((25, 0))),
            (&[&[0], &[2, 1, 3], &[0], &[1, 0, 1, 4, 16]], Err((17, 0))),
            (&[&[0], &[2, 1, 3], &[1, 13], &[1, 0, 1, 12, 0]], Err((18, 0))),
            (&[&[0], &[2, 1, 3], &[1, 13], &[1, 0, 1, 13, 12]], Err((19, 0))),
        ],
    );
    // One disk in edition 3: still symbol numbers.
    judged_disk_lists(
        &[1],
        &[
            (&[&[0], &[1, 1], &[0], &[0, 0]], Err((20, 4))),
            (&[&[0], &[1, 1], &[1, 7], &[0, 0]], Err((20, 7))),
            (&[&[1], &[1, 1], &[1, 6], &[1, 0, 1, 6, 2]], Err((21, 6 * 64 + 2))),
            (&[&[4], &[1, 1], &[1, 6], &ROW_2], Err((22, 3))),
        ],
    );
}

/// All disks lost: what is zero can be made again, by clears alone, and nothing else can.
#[test]
fn all_disks_lost() {
    let zero_but_one = |one: usize| {
        let rows = (0..64).map(|s| vec![s == one]).collect();
        model::Code { disks: 64, height: 1, data: 1, rows }.sheet()
    };
    let all: Vec<u8> = (0..64).collect();
    let (zero, one) = (zero_but_one(64), zero_but_one(63));
    assert_eq!(judged_planning(&zero, Asked::Disks(&all, &[]), &[1; 3210]), Some(0));
    assert_eq!(judged_planning(&zero, Asked::Disks(&all, &all), &[1; 3210]), Some(0));
    assert_eq!(judged_planning(&one, Asked::Disks(&all, &[]), &[1; 3210]), Some(1));
    assert_eq!(judged_planning(&one, Asked::Disks(&all, &all[..63]), &[1; 3210]), Some(0));
    assert_eq!(judged_planning(&one, Asked::Disks(&all, &[63]), &[1; 3210]), Some(1));
    // The longest sheet of all: every disk, every symbol, and 1,024 steps.
    let mut plan = [&[5, 3, 64, 1, 1, 0, 64][..], &all, &[64], &all, &[0, 4]].concat();
    plan.extend((0..16).flat_map(|_| all.iter().flat_map(|&s| [0, s, 0])));
    assert_eq!((plan.len(), told(navorzim::check_disks(&zero, &all, &plan))), (navorzim::PLAN_BUFFER, Ok(0)));
    assert_eq!(told(navorzim::check_disks(&one, &all, &plan)), Err((21, 63 * 64)));
    let mut stripe = [9; 64];
    assert_eq!(told(navorzim::rebuild_disks(&zero, &all, &plan, 1, &mut stripe)), Ok(()));
    assert_eq!(stripe, [0; 64]);
    plan.push(0);
    assert_eq!(told(navorzim::check_disks(&zero, &all, &plan)), Err((12, 0)));
}

/// Two disks of every code that is made to bear it have a plan, and rebuilding by it gives any stripe back.
#[test]
fn any_two_disks() {
    let mut random = Random::new(22);
    let liberation = [3, 5, 7].into_iter().flat_map(|w| (2..=w).map(move |k| ("liberation", w, k)));
    let diagonal = ["row-diagonal", "evenodd"].into_iter().flat_map(|name| [3, 5, 7].map(|p| (name, p, 0)));
    for (name, a, b) in liberation.chain(diagonal) {
        let sheet = model::family(name, a, b).expect("listed");
        let code = model::read_code(&sheet).expect("good");
        let whole = model::scatter(&code, 3, &random.bytes(code.data * 3));
        for (one, two) in (0..code.disks as u8).flat_map(|two| (0..two).map(move |one| (one, two))) {
            let Ok(Planning::Plan { plan, reads }) = navorzim::plan_disks(&sheet, &[one, two], &[]) else {
                panic!("{name} {a} {b} has no plan for disks {one} and {two}")
            };
            assert_eq!(model::check_disks(&sheet, &[one, two], &plan), Ok(reads));
            let mut stripe = whole.clone();
            ruin(&mut random, &code, &[one, two], 3, &mut stripe);
            assert_eq!(told(navorzim::rebuild_disks(&sheet, &[one, two], &plan, 3, &mut stripe)), Ok(()));
            assert!(stripe == whole, "{name} {a} {b}, disks {one} and {two}");
        }
    }
}

/// A disk that can't be rebuilt, with a row that can: three data disks of two rows and a parity disk whose row 1 leaves disk 1 out.
#[test]
fn a_row_of_a_disk_beyond_help() {
    let code = [[0u8].as_slice(), &[1], &[2], &[3], &[4], &[5], &[0, 2, 4], &[1, 5]];
    let rows = code.iter().map(|sum| (0..6).map(|t| sum.contains(&t)).collect()).collect();
    let sheet = model::Code { disks: 4, height: 2, data: 6, rows }.sheet();
    let before = [9; 3210];
    let judge = |asked: Asked| judged_planning(&sheet, asked, &before);
    assert_eq!(judge(Asked::Disk(1)), Some(1));
    assert_eq!(judge(Asked::Disks(&[1], &[])), Some(1));
    for (list, gone) in [(&[2, 3][..], 1), (&[3], 1), (&[2], 0)] {
        assert_eq!(judge(Asked::Wanted(1, list)), Some(gone));
        assert_eq!(judge(Asked::Disks(&[1], list)), Some(gone));
    }
    // With the parity disk gone too, only disk 0's row 1 has an equation left, and none of disk 1.
    assert_eq!(judge(Asked::Disks(&[1, 3], &[2])), Some(1));
    assert_eq!(judge(Asked::Disks(&[0, 1], &[1])), Some(0));
    assert_eq!(navorzim::plan_wanted(&sheet, 1, &[3]), Ok(Planning::NoPlan { patterns: vec![Pattern(8)] }));

    let Ok(Planning::Plan { plan, reads: 3 }) = navorzim::plan_wanted(&sheet, 1, &[2]) else { panic!("no plan") };
    let whole = [1, 2, 3, 4, 5, 6, 1 ^ 3 ^ 5, 2 ^ 6];
    for (lost, kept) in [([0, 0], 0), ([255, 7], 7)] {
        let mut stripe = whole;
        stripe[2..4].copy_from_slice(&lost);
        assert_eq!(navorzim::rebuild(&sheet, 1, &plan, 1, &mut stripe), Ok(()));
        assert_eq!(stripe, [1, 2, 3, kept, 5, 6, 1 ^ 3 ^ 5, 2 ^ 6]);
    }
}

/// The longest sheet for one disk: 32 wanted symbols, each the sum of 32 survivors.
#[test]
fn the_longest_plan() {
    let rows = (0..64).map(|s| (0..32).map(|t| s < 32 || t + 32 == s).collect()).collect();
    let sheet = model::Code { disks: 2, height: 32, data: 32, rows }.sheet();
    let list: Vec<u8> = (0..32).collect();
    let mut buffer = vec![1; 3114];
    let answer = navorzim::plan_wanted_into(&sheet, 0, &list, &mut buffer);
    assert_eq!(answer, Ok(Planned::Plan { length: 3114, reads: 32 }));
    assert_eq!(navorzim::check(&sheet, 0, &buffer), Ok(32));
    assert_eq!(model::check(&sheet, 0, &buffer), Ok(32));
    for length in [3081, 3113] {
        assert_eq!(told(navorzim::plan_wanted_into(&sheet, 0, &list, &mut vec![1; length])), Err((34, 0)));
    }
    buffer.push(0);
    assert_eq!(told(navorzim::check(&sheet, 0, &buffer)), Err((12, 0)));
    assert_eq!(navorzim::plan_into(&sheet, 0, &mut buffer[..3081]), Ok(Planned::Plan { length: 3081, reads: 32 }));
}

/// The five ways in which `sums_of_every_length` brings its lost symbols back: the steps for symbol m, the sum of the first m data symbols.
/// The survivors are 21 to 40, the data symbols, and 41, which is zero.
fn ways_to_sum() -> Vec<Vec<[u8; 3]>> {
    let adds = |m: u8, from: u8| (from..m).map(move |t| [2, m, 21 + t]);
    let copies = (0..21).flat_map(|m| [if m == 0 { [0, 0, 0] } else { [1, m, 21] }].into_iter().chain(adds(m, 1)));
    let clears = (0..21).flat_map(|m| [[0, m, 0]].into_iter().chain(adds(m, 0)));
    let zeros = (0..21).flat_map(|m| [[1, m, 41]].into_iter().chain(adds(m, 0)));
    let one_by_one = (0..21).map(|m| [0, m, 0]).chain((0..20).flat_map(|t| (t + 1..21).map(move |m| [2, m, 21 + t])));
    let from_each_other = (0..21).flat_map(|m| {
        if m == 0 {
            vec![[0, 0, 0]]
        } else {
            vec![[1, m, m - 1], [2, m, 20 + m], [2, m, 41], [2, m, 0]]
        }
    });
    vec![copies.collect(), clears.collect(), zeros.collect(), one_by_one.collect(), from_each_other.collect()]
}

/// Sums of 0 to 20 symbols, encoded and rebuilt: begun by a clear, a copy or an add, in one run or broken by steps of other targets, at
/// lengths around those that a processor takes in one go.
#[test]
fn sums_of_every_length() {
    let rows = (0..42).map(|s| (0..20).map(|t| if s < 21 { t < s } else { t + 21 == s }).collect()).collect();
    let code = model::Code { disks: 2, height: 21, data: 20, rows };
    let (sheet, mut random) = (code.sheet(), Random::new(9));
    let plans = ways_to_sum().into_iter().map(|steps| {
        let read: std::collections::BTreeSet<u8> =
            steps.iter().filter(|step| step[0] > 0 && step[2] >= 21).map(|step| step[2]).collect();
        let mut plan = vec![6, 1, 2, 21, 20, 0, read.len() as u8];
        plan.extend((steps.len() as u16).to_le_bytes());
        plan.extend(steps.concat());
        plan
    });
    let plans: Vec<Vec<u8>> = plans.collect();
    for size in (1..70).chain(126..131).chain([255, 256, 257, 1023, 1024, 1025, 4095, 4096, 4097]) {
        let data = random.bytes(20 * size);
        let whole = model::scatter(&code, size, &data);
        let mut stripe = random.bytes(42 * size);
        assert_eq!(navorzim::encode(&sheet, size as u64, &data, &mut stripe), Ok(()));
        assert!(stripe == whole, "encoded, L {size}");
        for (way, plan) in plans.iter().enumerate() {
            stripe[..21 * size].copy_from_slice(&random.bytes(21 * size));
            assert_eq!(told(navorzim::rebuild(&sheet, 0, plan, size as u64, &mut stripe)), Ok(()), "way {way}");
            assert!(stripe == whole, "way {way}, L {size}");
        }
    }
}

/// The limits' far ends: N 64, K 64, r 32, n 64, L 65,536.
#[test]
fn limits() {
    let mut random = Random::new(7);
    for (disks, height, data) in [(2, 32, 64), (64, 1, 64), (64, 1, 1), (32, 2, 64), (8, 8, 63)] {
        let rows = (0..disks * height).map(|_| (0..data).map(|_| random.one_in(2)).collect()).collect();
        let code = model::Code { disks, height, data, rows };
        let sheet = code.sheet();
        for size in [1u64, 65536] {
            let data = random.bytes(code.data * size as usize);
            let mut stripe = vec![0xAA; code.symbols() * size as usize];
            assert_eq!(told(navorzim::encode(&sheet, size, &data, &mut stripe)), Ok(()));
            assert!(stripe == model::scatter(&code, size as usize, &data), "n {disks}, r {height}, L {size}");
        }
        for disk in 0..disks as u8 {
            assert!(judged_planning(&sheet, Asked::Disk(disk.into()), &[0; 3081]).is_some());
            let list = random::list(&mut random, &code, &[disk]);
            assert!(judged_planning(&sheet, Asked::Wanted(disk.into(), &list), &[0; 3114]).is_some());
            let lost: Vec<u8> = (0..=disk).collect();
            let list = random::list(&mut random, &code, &lost);
            assert!(judged_planning(&sheet, Asked::Disks(&lost, &[]), &[0; 3210]).is_some());
            assert!(judged_planning(&sheet, Asked::Disks(&lost, &list), &[0; 3210]).is_some());
            assert!(judged_planning(&sheet, Asked::Disks(&lost, &list), &[0; 3209]).is_none());
        }
    }
}
