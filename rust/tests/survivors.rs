//! The test of the survivors, and the equations among them, against the model: random, special and damaged inputs, every answer compared.
//! Each test prints its seed and how many calls it made.
mod model;

use model::random::{self, calls, sheet, Random};
use model::{told, No};
use navorzim::{Equation, Family, Soundness};

/// The library's test, as the model gives it.
fn tested(sheet: &[u8], disks: &[u8], size: u64, stripe: &[u8]) -> Result<Option<usize>, No> {
    told(navorzim::test_survivors(sheet, disks, size, stripe)).map(|soundness| match soundness {
        Soundness::Sound => None,
        Soundness::Unsound { column } => Some(column as usize),
    })
}

/// The library's equations.
fn listed(sheet: &[u8], disks: &[u8]) -> Result<Vec<u128>, No> {
    told(navorzim::equations(sheet, disks)).map(|equations| equations.iter().map(|equation| equation.0).collect())
}

/// Disks of a code, one list in eight damaged.
fn any_disks(random: &mut Random, code: &model::Code) -> Vec<u8> {
    let disks = random::disks(random, code);
    match random.one_in(8) {
        true => random::damaged_disks(random, code, &disks),
        false => disks,
    }
}

/// A valid stripe with up to two bytes changed, or any bytes; at times of another length.
fn any_stripe(random: &mut Random, code: &model::Code, size: u64) -> Vec<u8> {
    let length = random::length(random, code.symbols(), size);
    let fits = (1..=65536).contains(&size) && length == code.symbols() * size as usize;
    if !fits || random.one_in(5) {
        return random.bytes(length);
    }
    let data = random.bytes(code.data * size as usize);
    let mut stripe = model::scatter(code, size as usize, &data);
    for _ in 0..random.below(3) {
        stripe[random.below(length)] ^= 1 + random.below(255) as u8;
    }
    stripe
}

#[test]
fn testing() {
    let mut random = Random::new(31);
    let (mut refused, mut sound, mut unsound, mut beyond_0) = ([0; 33], 0, 0, 0);
    for _ in 0..calls(80_000) {
        let (code, sheet) = sheet(&mut random);
        let disks = any_disks(&mut random, &code);
        let size = random::size(&mut random);
        let stripe = any_stripe(&mut random, &code, size);
        let expected = model::test_survivors(&sheet, &disks, size, &stripe);
        assert_eq!(tested(&sheet, &disks, size, &stripe), expected, "{sheet:?} {disks:?} {size} {stripe:?}");
        match expected {
            Err((number, _)) => refused[number as usize] += 1,
            Ok(None) => sound += 1,
            Ok(Some(column)) => {
                unsound += 1;
                beyond_0 += (column > 0) as u32;
            }
        }
    }
    println!("{sound} sound, {unsound} not, {beyond_0} of these beyond column 0; refused, by number: {refused:?}");
    assert!(sound > 10_000 && unsound > 10_000 && beyond_0 > 3_000, "{sound} {unsound} {beyond_0}");
    assert!([1, 2, 3, 4, 5, 6, 7, 24, 31, 32].iter().all(|&number| refused[number] > 20), "{refused:?}");
}

#[test]
fn listing_equations() {
    let mut random = Random::new(32);
    let (mut refused, mut some, mut none, mut most) = ([0; 25], 0, 0, 0);
    for _ in 0..calls(40_000) {
        let (code, sheet) = sheet(&mut random);
        let disks = any_disks(&mut random, &code);
        match (model::equations_refusal(&sheet, &disks), listed(&sheet, &disks)) {
            (Err(no), answer) => {
                refused[no.0 as usize] += 1;
                assert_eq!(answer, Err(no), "{sheet:?} {disks:?}");
            }
            (Ok(code), Ok(equations)) => {
                assert!(model::good_equations(&code, &disks, &equations), "{sheet:?} {disks:?} {equations:?}");
                some += !equations.is_empty() as u32;
                none += equations.is_empty() as u32;
                most = most.max(equations.len());
            }
            (Ok(_), Err(no)) => panic!("refused {no:?} {sheet:?} {disks:?}"),
        }
    }
    println!("{some} lists, {none} empty ones, at most {most} equations; refused, by number: {refused:?}");
    assert!(some > 10_000 && none > 1_000 && most > 50, "{some} {none} {most}");
    assert!([1, 2, 3, 4, 5, 6, 7, 24].iter().all(|&number| refused[number] > 20), "{refused:?}");
}

/// Small codes, every list of disks: the equations are held to all bits that survivors can have, and the test to all data.
#[test]
fn small_codes_by_trying() {
    let mut random = Random::new(33);
    let mut of_count = [0; 7];
    for _ in 0..1_500 {
        let (disks, height, data) = (2 + random.below(3), 1 + random.below(2), 1 + random.below(5));
        let rows = (0..disks * height).map(|_| (0..data).map(|_| random.one_in(3)).collect()).collect();
        let code = model::Code { disks, height, data, rows };
        let lost = random::disks(&mut random, &code);
        let equations = listed(&code.sheet(), &lost).expect("good");
        assert!(model::good_equations_by_trying(&code, &lost, &equations), "{code:?} {lost:?} {equations:?}");
        of_count[equations.len()] += 1;
        let stripe: Vec<u8> = (0..code.symbols()).map(|_| random.one_in(2) as u8).collect();
        let agrees = |data: u32| {
            let data: Vec<u8> = (0..code.data).map(|t| (data >> t & 1) as u8).collect();
            let valid = model::scatter(&code, 1, &data);
            code.survivors(&lost).into_iter().all(|s| valid[s] == stripe[s])
        };
        let expected = if (0..1 << code.data).any(agrees) { None } else { Some(0) };
        assert_eq!(tested(&code.sheet(), &lost, 1, &stripe), Ok(expected), "{code:?} {lost:?} {stripe:?}");
    }
    println!("arrays, by number of equations: {of_count:?}");
    assert!(of_count[..5].iter().all(|&count| count > 10), "{of_count:?}");
}

/// The model itself: lists that may stand, and wrong ones, are told apart by ranks as by trying all bits.
#[test]
fn wrong_lists_are_caught() {
    // Row-diagonal parity: symbols 2 to 7 survive disk 0, with rows d2, d3, d0 + d2, d1 + d3, d0 + d1 + d3, d1 + d2.
    let sheet = Family::RowDiagonal { p: 3 }.sheet().expect("listed");
    let code = model::read_code(&sheet).expect("good");
    let symbols = |list: &[u32]| list.iter().fold(0u128, |set, s| set | 1 << s);
    let (one, other) = (symbols(&[2, 3, 5, 7]), symbols(&[2, 4, 5, 6]));
    for (equations, right) in [
        (&[one, other][..], true),
        (&[one, one ^ other], true),
        (&[one, other, one ^ other], true),
        // One left out, none, one twice, an empty one in its place.
        (&[one], false),
        (&[other], false),
        (&[], false),
        (&[one, one], false),
        (&[one, 0], false),
        // One whose rows don't sum to zero, and one of a lost symbol.
        (&[one, other ^ 1 << 3], false),
        (&[one, other, symbols(&[0, 2, 4])], false),
        (&[one, symbols(&[0, 1, 6, 5])], false),
        (&[one, other, 1 << 8], false),
    ] {
        assert_eq!(model::good_equations(&code, &[0], equations), right, "{equations:?}");
        assert_eq!(model::good_equations_by_trying(&code, &[0], equations), right, "by trying: {equations:?}");
    }
}

/// Every single byte of a stripe of each family, with every disk lost, and with some two: found where an equation has its symbol, in its own
/// column; in a lost strip nowhere.
#[test]
fn every_damaged_byte() {
    let mut random = Random::new(34);
    let liberation = [3, 5, 7].into_iter().flat_map(|w| (2..=w).map(move |k| ("liberation", w, k)));
    let diagonal = ["row-diagonal", "evenodd"].into_iter().flat_map(|name| [3, 5, 7].map(|p| (name, p, 0)));
    let parity = [("single parity", 4, 3), ("single parity", 1, 32)];
    let size = 3;
    let (mut found, mut unseen) = (0, 0);
    for (name, a, b) in liberation.chain(diagonal).chain(parity) {
        let sheet = model::family(name, a, b).expect("listed");
        let code = model::read_code(&sheet).expect("good");
        let whole = model::scatter(&code, size, &random.bytes(code.data * size));
        for disks in (0..code.disks as u8).flat_map(|disk| [vec![disk], (0..=disk).rev().take(2).rev().collect()]) {
            let seen = listed(&sheet, &disks).expect("good").iter().fold(0, |seen, equation| seen | equation);
            assert_eq!(tested(&sheet, &disks, size as u64, &whole), Ok(None), "{name} {a} {b}, disks {disks:?}");
            for at in 0..whole.len() {
                let mut stripe = whole.clone();
                stripe[at] ^= 1 + random.below(255) as u8;
                let expected = Equation(seen).has(at / size).then_some(at % size);
                assert_eq!(tested(&sheet, &disks, size as u64, &stripe), Ok(expected), "{name} {a} {b} {disks:?} {at}");
                found += expected.is_some() as usize;
                unseen += expected.is_none() as usize;
            }
        }
    }
    calls(found + unseen);
    println!("{found} damaged bytes found, {unseen} that no equation sees");
    assert!(found > 10_000 && unseen > 10_000, "{found} {unseen}");
}

/// Refusals in their order: the code sheet's, 7, 24, 31, 32.
#[test]
fn refusals() {
    let sheet = Family::SingleParity { data_disks: 3, rows: 4 }.sheet().expect("listed");
    let other_edition = [&[4, 9][..], &sheet[2..]].concat();
    for (sheet, disks, size, length, no) in [
        (&sheet[..9], &[9, 0][..], 0, 1, (1, 0)),
        (&other_edition, &[9, 0], 0, 1, (4, 0)),
        (&sheet, &[1, 0, 4], 0, 1, (7, 0)),
        (&sheet, &[0, 0, 0, 0, 0], 0, 1, (24, 0)),
        (&sheet, &[], 0, 1, (24, 0)),
        (&sheet, &[1, 0], 0, 1, (24, 1)),
        (&sheet, &[1], 0, 1, (31, 0)),
        (&sheet, &[1], 65537, 16, (31, 0)),
        (&sheet, &[1], u64::MAX, 16, (31, 0)),
        (&sheet, &[1], 1, 15, (32, 0)),
        (&sheet, &[1], 1, 17, (32, 0)),
        (&sheet, &[1], 2, 16, (32, 0)),
    ] {
        assert_eq!(tested(sheet, disks, size, &vec![7; length]), Err(no), "{disks:?} {size} {length}");
        if no.0 < 31 {
            assert_eq!(listed(sheet, disks), Err(no), "{disks:?}");
        }
    }
}

/// Worked cases: the square code, zero rows, all disks lost.
#[test]
fn worked_cases() {
    let rows = [1, 2, 4, 8, 5, 10, 9, 6].map(|row: u8| (0..4).map(|t| row >> t & 1 == 1).collect()).to_vec();
    let square = model::Code { disks: 4, height: 2, data: 4, rows }.sheet();
    let p1 = [0x11, 0x22, 0x44, 0x88, 0x55, 0xaa, 0x99, 0x66];
    assert_eq!(tested(&square, &[0], 1, &p1), Ok(None));
    let mut damaged = p1;
    damaged[4] ^= 1;
    assert_eq!(tested(&square, &[0], 1, &damaged), Ok(Some(0)));
    assert_eq!(tested(&square, &[0, 1, 2, 3], 1, &[1, 2, 3, 4, 5, 6, 7, 9]), Ok(None));
    assert_eq!(navorzim::equations(&square, &[0, 1, 2, 3]), Ok(vec![]));

    // Two disks of one symbol, one of them zero.
    let zero = model::Code { disks: 2, height: 1, data: 1, rows: vec![vec![false], vec![true]] }.sheet();
    assert_eq!(navorzim::equations(&zero, &[1]), Ok(vec![Equation(1)]));
    assert_eq!(navorzim::equations(&zero, &[0]), Ok(vec![]));
    assert_eq!(tested(&zero, &[1], 3, &[0, 0, 0, 7, 7, 7]), Ok(None));
    assert_eq!(tested(&zero, &[1], 3, &[0, 9, 9, 7, 7, 7]), Ok(Some(1)));
    assert_eq!(tested(&zero, &[0], 3, &[0, 9, 9, 7, 7, 7]), Ok(None));
    assert_eq!(Equation(5).symbols().collect::<Vec<_>>(), [0, 2]);
}

/// N 64 with L 65,536, and the lengths around those that are worked on at once: each column of a damaged byte, the lower one of two.
#[test]
fn long_symbols() {
    let mut random = Random::new(35);
    let copies = |disks: usize, height: usize, data: usize| {
        let rows = (0..disks * height).map(|s| (0..data).map(|t| s % data == t).collect()).collect();
        model::Code { disks, height, data, rows }
    };
    for (code, sizes) in [
        (copies(64, 1, 2), &[1, 15, 16, 17, 4095, 4096, 4097, 65535, 65536][..]),
        (copies(2, 32, 5), &[1, 63, 64, 65, 65536]),
        (copies(2, 1, 1), &[1, 2, 65536]),
    ] {
        let (sheet, last) = (code.sheet(), code.symbols() - 1);
        for &size in sizes {
            let data = random.bytes(code.data * size);
            let mut stripe = model::scatter(&code, size, &data);
            let test = |stripe: &[u8]| tested(&sheet, &[0], size as u64, stripe);
            assert_eq!(test(&stripe), Ok(None), "L {size}");
            for column in [0, size / 2, size - 1, random.below(size)] {
                let seen = code.disks > 2 || code.height > code.data;
                stripe[last * size + column] ^= 0x80;
                assert_eq!(test(&stripe), Ok(seen.then_some(column)), "L {size}");
                stripe[(last - 1) * size + size - 1] ^= 1;
                let lower = model::test_survivors(&sheet, &[0], size as u64, &stripe);
                assert_eq!(test(&stripe), lower, "L {size}, two bytes");
                stripe[(last - 1) * size + size - 1] ^= 1;
                stripe[last * size + column] ^= 0x80;
            }
        }
    }
}
