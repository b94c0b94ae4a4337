//! Corrections: numbers from −32,760 to 32,760 held as elements modulo 65521, combined with signed constants and read back, and each refusal.

use mavdrusek::*;

const P: u16 = CORRECTION_PRIME;
const MOST: i32 = MOST_CORRECTION;
const RANGE: std::ops::RangeInclusive<i64> = -(MOST as i64)..=MOST as i64;

/// SplitMix64.
struct Random(u64);

impl Random {
    fn below(&mut self, n: u64) -> u64 {
        self.0 = self.0.wrapping_add(0x9E3779B97F4A7C15);
        let mut z = self.0;
        z = (z ^ z >> 30).wrapping_mul(0xBF58476D1CE4E5B9);
        z = (z ^ z >> 27).wrapping_mul(0x94D049BB133111EB);
        (z ^ z >> 31) % n
    }
    fn elements(&mut self, count: usize) -> Vec<u16> {
        (0..count).map(|_| self.below(65521) as u16).collect()
    }
    /// Numbers from −most to most.
    fn signed(&mut self, most: i32, count: usize) -> Vec<i32> {
        (0..count).map(|_| self.below(2 * most as u64 + 1) as i32 - most).collect()
    }
}

/// Corrections held; a refusal leaves the slice.
fn hold(p: u16, corrections: &[i32]) -> Result<Vec<u16>, Refusal> {
    let mut residues = vec![7777; corrections.len()];
    let answer = hold_corrections(p, corrections, &mut residues);
    assert!(answer.is_ok() || residues.iter().all(|&x| x == 7777));
    answer.map(|()| residues)
}

/// Elements read back; a refusal leaves the slice.
fn read(p: u16, residues: &[u16]) -> Result<Vec<i32>, Refusal> {
    let mut corrections = vec![-7777; residues.len()];
    let answer = read_corrections(p, residues, &mut corrections);
    assert!(answer.is_ok() || corrections.iter().all(|&x| x == -7777));
    answer.map(|()| corrections)
}

/// A combination of shares of round 3.
fn combined(p: u16, constants: &[i32], values: &[u16]) -> Result<u16, Refusal> {
    combined_at(p, constants, values, &vec![3; values.len()]).map(|(value, _)| value)
}

fn combined_at(p: u16, constants: &[i32], values: &[u16], rounds: &[u16]) -> Result<(u16, u16), Refusal> {
    combine_signed(p, constants, &Shares { values, rounds }).map(|share| (share.value, share.round))
}

/// Opens shares of round 3 into so many corrections; a refusal leaves them.
fn open(setup: Setup, matrix: &[u16], set: u32, values: &[u16], count: usize) -> Result<Vec<i32>, Refusal> {
    open_at(setup, matrix, set, &Shares { values, rounds: &vec![3; values.len()] }, count)
}

fn open_at(setup: Setup, matrix: &[u16], set: u32, shares: &Shares, count: usize) -> Result<Vec<i32>, Refusal> {
    let mut corrections = vec![-7777; count];
    let answer = setup.open_signed(matrix, set, shares, &mut corrections);
    assert!(answer.is_ok() || corrections.iter().all(|&x| x == -7777));
    answer.map(|()| corrections)
}

/// Both ends, zero and what is next to them.
#[test]
fn worked() {
    assert_eq!(hold(P, &[-32760, -32759, -1, 0, 1, 32759, 32760]), Ok(vec![32761, 32762, 65520, 0, 1, 32759, 32760]));
    assert_eq!(read(P, &[0, 1, 32759, 32760, 32761, 32762, 65520]), Ok(vec![0, 1, 32759, 32760, -32760, -32759, -1]));
    assert_eq!((hold(P, &[]), read(P, &[])), (Ok(vec![]), Ok(vec![])));
}

/// Every correction, in one call and alone, is held as its remainder and comes back; every element is one correction's.
#[test]
fn every_one() {
    let all: Vec<i32> = (-MOST..=MOST).collect();
    let held = hold(P, &all).unwrap();
    assert_eq!(read(P, &held), Ok(all.clone()));
    for (&x, &residue) in all.iter().zip(&held) {
        assert_eq!(residue as i32, x.rem_euclid(65521));
        assert_eq!(hold(P, &[x]), Ok(vec![residue]));
        assert_eq!(read(P, &[residue]), Ok(vec![x]));
    }
    let elements: Vec<u16> = (0..P).collect();
    assert_eq!(hold(P, &read(P, &elements).unwrap()), Ok(elements));
}

/// 22 by every number just beyond the range and at the ends of 32 bits, wherever it stands, as a correction and as a constant.
#[test]
fn beyond_the_range() {
    let near = (MOST + 1..=4 * MOST).chain([1 << 20, 1 << 24, i32::MAX - 1, i32::MAX]);
    for x in near.flat_map(|x| [x, -x]).chain([i32::MIN]) {
        assert_eq!(hold(P, &[x]), Err(Refusal::Correction), "{x}");
        assert_eq!(combined(P, &[x], &[1]), Err(Refusal::Correction), "{x}");
    }
    for count in [1, 2, 7, 64, 1000] {
        for place in [0, count / 2, count - 1] {
            let mut corrections = vec![-1; count];
            corrections[place] = MOST + 1;
            assert_eq!(hold(P, &corrections), Err(Refusal::Correction));
            assert_eq!(combined(P, &corrections, &vec![1; count]), Err(Refusal::Correction));
            corrections[place] = MOST;
            assert!(hold(P, &corrections).is_ok());
        }
    }
}

/// 1 for every other p, the other four primes too, before all but 22.
#[test]
fn other_fields() {
    let unit = [1, 0, 0, 1];
    for p in (0..=u16::MAX).filter(|&p| p != P) {
        let setup = Setup { p, l: 1, e: 1, n: 2 };
        assert_eq!((hold(p, &[0]), hold(p, &[MOST + 1])), (Err(Refusal::NoField), Err(Refusal::Correction)));
        assert_eq!((read(p, &[0]), read(p, &[65535])), (Err(Refusal::NoField), Err(Refusal::NoField)));
        assert_eq!((combined(p, &[1], &[1]), combined(p, &[-MOST - 1], &[1])), (Err(Refusal::NoField), Err(Refusal::Correction)));
        assert_eq!(open(setup, &unit, 0b11, &[1, 0], 1), Err(Refusal::NoField));
    }
    for p in PRIMES {
        let expected = if p == P { Ok(vec![1]) } else { Err(Refusal::NoField) };
        assert_eq!(open(Setup { p, l: 1, e: 1, n: 2 }, &unit, 0b11, &[1, 0], 1), expected);
    }
}

/// Every refusal of the calls beside later ones: the first in the order is given.
#[test]
fn in_order() {
    assert_eq!(hold_corrections(2, &[MOST + 1], &mut []), Err(Refusal::Correction));
    assert_eq!(hold_corrections(2, &[MOST], &mut []), Err(Refusal::NoField));
    assert_eq!(read_corrections(2, &[65535], &mut []), Err(Refusal::NoField));
    assert_eq!(read_corrections(P, &[65535], &mut []), Err(Refusal::Length));
    assert_eq!(read(P, &[0, 65521]), Err(Refusal::Element));

    let (apart, high) = (&[1, 2][..], &[65521, 0][..]);
    assert_eq!(combined_at(2, &[i32::MIN; 65], high, apart), Err(Refusal::Correction));
    assert_eq!(combined_at(2, &[1; 65], high, apart), Err(Refusal::NoField));
    assert_eq!(combined_at(P, &[1; 65], high, apart), Err(Refusal::Length));
    assert_eq!(combined_at(P, &[1; 2], high, &apart[..1]), Err(Refusal::Length));
    assert_eq!(combined_at(P, &[1; 2], high, apart), Err(Refusal::Element));
    assert_eq!(combined_at(P, &[1; 2], &[65520, 0], apart), Err(Refusal::Rounds));

    // holders 0 and 2 have no row for position 1, and holder 3's share is the sum of those of 0 and 1
    let (setup, matrix) = (Setup { p: P, l: 2, e: 1, n: 4 }, [1, 0, 0, 0, 1, 0, 0, 0, 1, 1, 1, 0]);
    let open = |setup, set, values: &[u16], rounds: &[u16], count| open_at(setup, &matrix, set, &Shares { values, rounds }, count);
    let all = [1, 65520, 0, 0];
    assert_eq!(open(Setup { p: 257, e: 9, ..setup }, 1 << 31 | 5, high, &[1, 2, 3], 3), Err(Refusal::NoField));
    assert_eq!(open(Setup { e: 9, ..setup }, 1 << 31 | 5, high, &[1, 2, 3], 3), Err(Refusal::Limits));
    assert_eq!(open(setup, 1 << 31 | 5, &[65521, 0, 0], &[1, 2, 3], 3), Err(Refusal::Length));
    assert_eq!(open(setup, 1 << 31 | 5, &[65521, 0, 0], &[1, 2, 3], 2), Err(Refusal::Element));
    assert_eq!(open(setup, 1 << 31 | 5, &[1, 0, 0], &[1, 2, 3], 2), Err(Refusal::Range));
    assert_eq!(open(setup, 5, &[1, 0], &[1, 2], 2), Err(Refusal::Rounds));
    assert_eq!(open(setup, 5, &[1, 0], &[1, 1], 2), Err(Refusal::Undetermined { position: 1 }));
    assert_eq!(open(setup, 15, &[1, 65520, 0, 1], &[1; 4], 2), Err(Refusal::Inconsistent));
    assert_eq!(open(setup, 15, &all, &[1; 4], 2), Ok(vec![1, -1]));
}

/// Another length than the one needed, above and below; a buffer of every length but ℓ for an opening.
#[test]
fn lengths() {
    for (corrections, residues) in [(0, 1), (1, 0), (1, 2), (2, 1), (64, 63), (64, 128)] {
        assert_eq!(hold_corrections(P, &vec![-1; corrections], &mut vec![9; residues]), Err(Refusal::Length));
        assert_eq!(read_corrections(P, &vec![1; residues], &mut vec![9; corrections]), Err(Refusal::Length));
        assert_eq!(combined(P, &vec![-1; corrections], &vec![1; residues]), Err(Refusal::Length));
        assert_eq!(combined_at(P, &vec![-1; corrections], &vec![1; corrections], &vec![1; residues]), Err(Refusal::Length));
    }
    assert_eq!(combined(P, &[-1; 65], &[1; 65]), Err(Refusal::Length));
    assert_eq!(combined(P, &[-1; 64], &[1; 64]), Ok(65521 - 64));
    for l in 1..=8 {
        let setup = Setup { p: P, l, e: 1, n: 9 };
        let mut matrix = vec![0; setup.entries()];
        setup.points(&mut matrix).unwrap();
        let zeros = vec![0; 9];
        for count in (0..=12).chain([100]) {
            let expected = if count == l as usize { Ok(vec![0; count]) } else { Err(Refusal::Length) };
            assert_eq!(open(setup, &matrix, 0x1ff, &zeros, count), expected);
        }
    }
}

/// Worked sums; the rounds; no terms.
#[test]
fn combinations() {
    assert_eq!(combined(P, &[-1], &[1]), Ok(65520));
    assert_eq!(combined(P, &[-2, 3], &[5, 7]), Ok(11));
    assert_eq!(combined(P, &[2, -3], &[5, 7]), Ok(65510));
    assert_eq!(combined(P, &[-32760], &[65520]), Ok(32760));
    // −64 · 32760 is 32 above −32 · 65521
    assert_eq!(combined(P, &[32760; 64], &[65520; 64]), Ok(32));
    assert_eq!(combined_at(P, &[], &[], &[]), Ok((0, 0)));
    for round in [0, 1, 65535] {
        assert_eq!(combined_at(P, &[-1, 1], &[3, 4], &[round; 2]), Ok((1, round)));
        assert_eq!(combined_at(P, &[-1, 1], &[3, 4], &[round, round ^ 1]), Err(Refusal::Rounds));
    }
}

/// A combination with signed constants is that with the constants held.
#[test]
fn as_the_combination() {
    let mut r = Random(65521);
    for k in 0..2000 {
        let count = [0, 1, 2, 63, 64][k % 5];
        let (constants, values) = (r.signed(MOST, count), r.elements(count));
        let rounds = vec![k as u16; count];
        let held = combine(P, &hold(P, &constants).unwrap(), &Shares { values: &values, rounds: &rounds }).unwrap();
        assert_eq!(combined_at(P, &constants, &values, &rounds), Ok((held.value, held.round)));
    }
}

/// A signed opening is the opening read back, and refused as it is.
#[test]
fn as_the_opening() {
    let mut r = Random(2014);
    for k in 0..2000 {
        let setup = Setup { p: P, l: 1 + r.below(4) as u16, e: 1 + r.below(3) as u16, n: 4 + r.below(6) as u16 };
        let mut matrix = vec![0; setup.entries()];
        if k % 2 == 0 {
            setup.points(&mut matrix).unwrap()
        } else {
            matrix = r.elements(setup.entries())
        }
        let set = r.below(1 << setup.n) as u32;
        let vector = r.elements(setup.d());
        let mut values: Vec<u16> =
            (0..setup.n).filter(|i| set >> i & 1 == 1).map(|i| setup.pair_value(&matrix, &vector, i).unwrap()).collect();
        if r.below(4) == 0 {
            values.iter_mut().take(1).for_each(|x| *x = (*x + 1) % P);
        }
        let (mut secrets, rounds) = (vec![0; setup.l as usize], vec![3; values.len()]);
        let expected = setup.open(&matrix, set, &Shares { values: &values, rounds: &rounds }, &mut secrets);
        assert_eq!(open(setup, &matrix, set, &values, setup.l as usize), expected.and_then(|()| read(P, &secrets)));
    }
}

/// What a list of constants and columns, each of a dealing of its own, opens to by a set, through every step: held, dealt, kept, refreshed once, combined and
/// opened.
fn journey(r: &mut Random, setup: Setup, constants: &[i32], columns: &[Vec<i32>], set: u32) -> Vec<i32> {
    let (l, d) = (setup.l as usize, setup.d());
    let mut matrix = vec![0; setup.entries()];
    setup.points(&mut matrix).unwrap();
    let mut shares = vec![vec![]; setup.n as usize];
    for (t, column) in columns.iter().enumerate() {
        let b = t % l;
        let mut corrections = r.signed(MOST, l * l);
        corrections[b * l..(b + 1) * l].copy_from_slice(column);
        let (mut gs, mut hs) = (vec![0; setup.entries()], vec![0; setup.entries()]);
        setup.deal_all(&matrix, &hold(P, &corrections).unwrap(), &r.elements(setup.random()), &mut gs, &mut hs).unwrap();
        let (mut zero_gs, mut zero_hs) = (vec![0; setup.entries()], vec![0; setup.zero_columns()]);
        setup.deal_zero_all(&matrix, &r.elements(setup.zero_random()), &mut zero_gs, &mut zero_hs).unwrap();
        for (i, of_holder) in shares.iter_mut().enumerate() {
            let fresh = refresh(P, &Share { value: gs[i * d + b], round: 8 }, zero_gs[i * d + b]).unwrap();
            of_holder.push(fresh.value);
        }
    }
    let mut handed = vec![];
    for i in (0..setup.n as usize).filter(|i| set >> i & 1 == 1) {
        let (value, round) = combined_at(P, constants, &shares[i], &vec![9; constants.len()]).unwrap();
        assert_eq!(round, if constants.is_empty() { 0 } else { 9 });
        handed.push(value);
    }
    let rounds = vec![9; handed.len()];
    open_at(setup, &matrix, set, &Shares { values: &handed, rounds: &rounds }, l).unwrap()
}

fn exact(constants: &[i32], columns: &[Vec<i32>], position: usize) -> i64 {
    constants.iter().zip(columns).map(|(&c, column)| c as i64 * column[position] as i64).sum()
}

/// The exact sum, wherever it is within the range; beyond it another number with the same remainder.
#[test]
fn exact_sums() {
    let mut r = Random(10);
    let mut found = [0, 0];
    for k in 0..300 {
        let setup = Setup { p: P, l: 1 + r.below(4) as u16, e: 1 + r.below(3) as u16, n: 9 };
        let set = [0x1ff, 0xff, 0x1fe, 0x17f][k % 4];
        let count = [0, 1, 2, 3, 8, 64][k % 6];
        // of few terms and small ones most sums are within the range
        let (c, x) = [(3, 5000), (100, 300), (MOST, 1), (1, MOST), (MOST, MOST)][k % 5];
        let constants = r.signed(c, count);
        let columns: Vec<Vec<i32>> = (0..count).map(|_| r.signed(x, setup.l as usize)).collect();
        for (position, &opened) in journey(&mut r, setup, &constants, &columns, set).iter().enumerate() {
            let sum = exact(&constants, &columns, position);
            assert!(RANGE.contains(&(opened as i64)));
            assert_eq!((sum - opened as i64) % 65521, 0);
            assert_eq!(sum == opened as i64, RANGE.contains(&sum));
            found[RANGE.contains(&sum) as usize] += 1;
        }
    }
    assert!(found.iter().all(|&count| count > 100), "{found:?}");
}

/// Sums at both ends of the range, by one to three terms, and one past each end, which turn up at the other.
#[test]
fn ends() {
    let setup = Setup { p: P, l: 2, e: 1, n: 4 };
    let mut r = Random(32760);
    let cases: [(&[i32], &[[i32; 2]], [i32; 2]); 9] = [
        (&[1], &[[32760, -32760]], [32760, -32760]),
        (&[-1], &[[32760, -32760]], [-32760, 32760]),
        (&[2], &[[16380, -16380]], [32760, -32760]),
        (&[32760], &[[1, -1]], [32760, -32760]),
        (&[-32760], &[[1, -1]], [-32760, 32760]),
        (&[1, 1], &[[32759, -32759], [1, -1]], [32760, -32760]),
        (&[1, 1], &[[32760, -32760], [1, -1]], [-32760, 32760]),
        (&[32760, -32760, 1], &[[32760, -32760], [32759, -32759], [1, -1]], [-32760, 32760]),
        (&[32760, -32760, 1], &[[32760, -32760], [32759, -32759], [0, 0]], [32760, -32760]),
    ];
    for (constants, columns, opened) in cases {
        let columns: Vec<Vec<i32>> = columns.iter().map(|x| x.to_vec()).collect();
        for set in [0b0111, 0b1011, 0b1101, 0b1110, 0b1111] {
            assert_eq!(journey(&mut r, setup, constants, &columns, set), opened);
        }
    }
}
