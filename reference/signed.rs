//! The cases of corrections and signed constants (document 02, A10): the ends of the range and one past them, the ends of 32 bits, 0 and the multiples of
//! p; residues next to the one from which they stand for numbers below zero; every other p; lengths; every refusal beside every later one, 22 before all;
//! sums at the ends of the range and past them, of columns that are dealt, combined with signed constants and opened.

use crate::cases::*;
use crate::draw::*;
use crate::edges::*;
use reference::*;

const P: u16 = CORRECTION_PRIME;

/// Every other p of the five, and some that are none of them.
const OTHERS: [u16; 12] = [2, 7, 251, 257, 0, 1, 3, 32760, 65519, 65520, 65522, 65535];

/// Within the range: its ends, 0 and what is next to them.
const WITHIN: [i32; 11] = [-32760, -32759, -256, -255, -1, 0, 1, 255, 256, 32759, 32760];

/// Beyond it: one past each end, near the multiples of p and the powers of 2, and the ends of 32 bits.
const BEYOND: [i32; 24] = [
    -32761, 32761, -32768, 32767, 32768, -65520, 65520, -65521, 65521, -65522, 65522, -65535, 65535, -65536, 65536, -98281, 98281, -131042, 131042,
    1 << 30, i32::MIN, i32::MIN + 1, i32::MAX - 1, i32::MAX,
];

/// Residues: the least and the greatest, and those next to 32760, the last that stands for itself.
const RESIDUES: [u16; 8] = [0, 1, 32759, 32760, 32761, 32762, 65519, 65520];

fn on(call: u16, p: u16, words: Vec<Vec<u16>>) -> Case {
    Case { call, numbers: [p, 0, 0, 0, 0, 0, 0, 0, 0], words, bytes: vec![] }
}

fn holding(r: &mut Random, corrections: &[i32]) -> Case {
    on(HOLD, P, vec![signed_words(corrections), r.noise(corrections.len())])
}

fn reading_back(r: &mut Random, residues: &[u16]) -> Case {
    on(READ_BACK, P, vec![residues.to_vec(), r.noise(2 * residues.len())])
}

/// A combination of shares of one round.
fn combining(constants: &[i32], shares: &[u16], round: u16) -> Case {
    on(COMBINE_SIGNED, P, vec![signed_words(constants), shares.to_vec(), vec![round; shares.len()]])
}

/// A combination of so many terms, drawn.
fn terms(r: &mut Random, count: usize) -> Case {
    combining(&r.corrections(count), &r.elements(P, count), r.round())
}

/// An opening of shares of one round.
fn opening_of(r: &mut Random, s: Params, m: &[u16], set: u32, shares: Vec<u16>, round: u16) -> Case {
    let rounds = vec![round; shares.len()];
    let mut c = Case { call: OPEN_SIGNED, numbers: setup_numbers(s), words: vec![m.to_vec(), shares, rounds, r.noise(2 * s.l as usize)], bytes: vec![] };
    c.choose(set);
    c
}

/// An opening of shares that this vector gives.
fn opened(r: &mut Random, s: Params, m: &[u16], set: u32, v: &[u16]) -> Case {
    let shares = (0..32).filter(|i| set >> i & 1 == 1).map(|i| pair_value(s, m, v, i).values.first().copied().unwrap_or(0)).collect();
    let round = r.round();
    opening_of(r, s, m, set, shares, round)
}

/// The same with signed numbers in place of those lent.
fn with_signed(c: &Case, numbers: &[i32]) -> Case {
    let (mut c, at) = (c.clone(), c.signed().unwrap());
    c.words[at] = signed_words(numbers);
    c
}

/// The same with another signed number at one place.
fn with_one(c: &Case, place: usize, x: i32) -> Case {
    let mut numbers = signed_numbers(&c.words[c.signed().unwrap()]);
    numbers[place] = x;
    with_signed(c, &numbers)
}

/// Every slice shorter and longer by one entry, and empty.
fn near(c: &Case, cases: &mut Vec<Case>) {
    for k in 0..c.words.len() {
        let size = if c.signed() == Some(k) { 2 } else { 1 };
        let now = c.words[k].len();
        for len in distinct(vec![0, now.saturating_sub(size), now + size]) {
            if len != now {
                let mut c = c.clone();
                c.words[k].resize(len, 0);
                cases.push(c);
            }
        }
    }
}

/// Breaks a sound case by one refusal.
fn break_by(c: &mut Case, number: u16) {
    match (c.call, number) {
        (_, 22) => *c = with_one(c, 1, 32761),
        (_, 1) => c.numbers[0] = 257,
        (OPEN_SIGNED, 2) => c.numbers[2] = 9,
        (HOLD, 3) => c.words[1].push(9),
        (READ_BACK, 3) => c.words[1].extend([9, 9]),
        (COMBINE_SIGNED, 3) => c.words[1].push(0),
        (OPEN_SIGNED, 3) => c.words[3].extend([9, 9]),
        (READ_BACK, 4) => c.words[0][0] = P,
        (COMBINE_SIGNED | OPEN_SIGNED, 4) => c.words[1][0] = P,
        (OPEN_SIGNED, 5) => {
            c.choose(c.set() | 1 << 31);
            c.words[1].push(0);
            let round = c.words[2][0];
            c.words[2].push(round);
        }
        (COMBINE_SIGNED | OPEN_SIGNED, 19) => c.words[2][0] ^= 1,
        // holders 0 and 2 alone, who have no row for position 1
        (OPEN_SIGNED, 6) => {
            c.choose(5);
            c.words[1].truncate(2);
            c.words[2].truncate(2);
        }
        (OPEN_SIGNED, 7) => c.words[1][3] ^= 1,
        _ => panic!("no such refusal: {} {number}", c.call),
    }
}

/// Every refusal alone, every two together, and all from each one on: the first in the order is given.
fn in_order(c: &Case, order: &[u16], cases: &mut Vec<Case>) {
    for (a, &first) in order.iter().enumerate() {
        let mut push = |numbers: &[u16]| {
            let mut faulty = c.clone();
            numbers.iter().rev().for_each(|&number| break_by(&mut faulty, number));
            assert_eq!(faulty.run().number, first, "the first of {numbers:?}");
            cases.push(faulty);
        };
        push(&[first]);
        order[a + 1..].iter().for_each(|&second| push(&[first, second]));
        push(&order[a..]);
    }
}

/// Corrections held: each number alone, a number beyond the range first, in the middle and last, every p, lengths, the order of the refusals.
fn held(r: &mut Random, cases: &mut Vec<Case>) {
    for x in WITHIN.iter().chain(&BEYOND) {
        cases.push(holding(r, &[*x]));
    }
    let all = holding(r, &WITHIN);
    cases.push(all.clone());
    for (k, x) in BEYOND.into_iter().enumerate() {
        cases.push(with_one(&all, [0, 5, 10][k % 3], x));
    }
    let mut spread: Vec<i32> = (0..262).map(|k| -32760 + 250 * k).collect();
    spread.push(32760);
    let drawn = r.corrections(263);
    for numbers in [&[][..], &[-1], &WITHIN, &spread, &drawn] {
        let c = holding(r, numbers);
        cases.push(c.clone());
        near(&c, cases);
    }
    for p in OTHERS {
        for numbers in [&[][..], &[0], &[-1, 1], &[32761], &[0, i32::MIN]] {
            let mut c = holding(r, numbers);
            c.numbers[0] = p;
            cases.push(c.clone());
            c.words[1].push(7);
            cases.push(c);
        }
    }
    in_order(&all, &[22, 1, 3], cases);
}

/// Residues read back: each alone, one of p or more first, in the middle and last, every p, lengths, the order of the refusals; what was held comes back.
fn read_back(r: &mut Random, cases: &mut Vec<Case>) {
    for x in RESIDUES.into_iter().chain([32767, 32768, 65521, 65522, 65535]) {
        cases.push(reading_back(r, &[x]));
    }
    let all = reading_back(r, &RESIDUES);
    cases.push(all.clone());
    for place in [0, 3, 7] {
        for x in [65521, 65535] {
            let mut c = all.clone();
            c.words[0][place] = x;
            cases.push(c);
        }
    }
    let spread: Vec<u16> = (0..263).map(|k| 250 * k).chain([65520]).collect();
    cases.push(reading_back(r, &spread));
    for residues in [&[][..], &[65520], &RESIDUES, &spread[1..]] {
        let c = reading_back(r, residues);
        cases.push(c.clone());
        near(&c, cases);
    }
    for p in OTHERS {
        for residues in [&[][..], &[0], &[1, 0], &[65520, 1], &[65521]] {
            let mut c = reading_back(r, residues);
            c.numbers[0] = p;
            cases.push(c.clone());
            c.words[1].extend([7, 7]);
            cases.push(c);
        }
    }
    in_order(&all, &[1, 3, 4], cases);
    for corrections in [WITHIN.to_vec(), r.corrections(64)] {
        let c = holding(r, &corrections);
        let back = reading_back(r, &c.run().words[1]);
        assert_eq!(signed_numbers(&back.run().words[1]), corrections, "what was held comes back");
        cases.extend([c, back]);
    }
}

/// Combinations: of 0 to 65 terms, constants and shares at their ends, numbers beyond the range at the first and last terms, rounds, every p, lengths, the
/// order of the refusals.
fn combined(r: &mut Random, cases: &mut Vec<Case>) {
    for count in [0, 1, 2, 3, 63, 64, 65] {
        let c = terms(r, count);
        near(&c, cases);
        cases.extend([c, terms(r, count)]);
        for constant in [-32760, -1, 0, 1, 32760] {
            for share in [0, 1, 32760, 32761, 65520] {
                if count == 1 || count == 64 {
                    cases.push(combining(&vec![constant; count], &vec![share; count], r.round()));
                }
            }
        }
        // by turns above zero and below it
        for (a, b) in [(32760, -32760), (-32760, 32759), (1, -1)] {
            let turns: Vec<i32> = (0..count).map(|k| if k % 2 == 0 { a } else { b }).collect();
            cases.push(combining(&turns, &vec![65520; count], 7));
        }
    }
    for x in BEYOND {
        cases.push(combining(&[x], &[1], 7));
    }
    for count in [3, 64, 65] {
        let c = terms(r, count);
        for place in [0, count / 2, count - 1] {
            cases.extend([-32761, 32761, 65521, i32::MIN, i32::MAX].map(|x| with_one(&c, place, x)));
        }
    }
    let c = combining(&[-32760, 0, 32760, -7], &[65520, 5, 32761, 9], 7);
    for place in 0..4 {
        for x in [65521, 65535] {
            let mut c = c.clone();
            c.words[1][place] = x;
            cases.push(c);
        }
        for round in [0, 6, 8, 65535] {
            let mut c = c.clone();
            c.words[2][place] = round;
            cases.push(c);
        }
    }
    for round in [0, 1, 65534, 65535] {
        cases.push(combining(&[-1, 1], &[3, 4], round));
    }
    // no shares: with constants, with rounds
    for (a, b, rounds) in [(0, 0, 0), (0, 0, 1), (0, 1, 0), (1, 0, 0), (0, 1, 1), (1, 0, 1), (1, 1, 0), (0, 0, 64), (0, 0, 65)] {
        cases.push(on(COMBINE_SIGNED, P, vec![signed_words(&vec![-1; a]), vec![1; b], vec![1; rounds]]));
    }
    for p in OTHERS {
        for constants in [&[][..], &[1], &[-1, 1], &[32761], &[0, i32::MIN]] {
            let mut c = combining(constants, &vec![1; constants.len()], 7);
            c.numbers[0] = p;
            cases.push(c);
        }
    }
    in_order(&c, &[22, 1, 3, 4, 19], cases);
    // over 64 terms beside the others
    in_order(&terms(r, 65), &[22, 1], cases);
}

/// The points matrix of the least setup with two positions, and another: holders 0 and 1 have the positions themselves, 3 has their sum.
fn two_positions(r: &mut Random) -> [(Params, Vec<u16>); 2] {
    let s = params(P, 2, 1, 4);
    [(s, matrix(r, s, POINTS)), (s, vec![1, 0, 0, 0, 1, 0, 0, 0, 1, 1, 1, 0])]
}

/// Openings: residues of both signs by every set of four, the largest sizes, 6 with its position, 7, rounds, the lengths of the buffer, every p, the limits,
/// the order of the refusals.
fn openings(r: &mut Random, cases: &mut Vec<Case>) {
    for (s, m) in two_positions(r) {
        for set in 0..16u32 {
            let k = set as usize;
            let v = [RESIDUES[k % 8], RESIDUES[(k + 3) % 8], r.below(65521) as u16];
            let c = opened(r, s, &m, set, &v);
            cases.push(c.clone());
            for place in 0..set.count_ones() as usize {
                let mut lying = c.clone();
                lying.words[1][place] = (lying.words[1][place] + 1) % P;
                let mut apart = c.clone();
                apart.words[2][place] ^= 1;
                cases.extend([lying, apart]);
            }
        }
        let c = opened(r, s, &m, 15, &[32761, 32760, 7]);
        near(&c, cases);
        for set in [16, 1 << 31, 31, u32::MAX] {
            cases.push(opened(r, s, &m, set, &[1, 2, 3]));
        }
    }
    let (s, m) = two_positions(r)[1].clone();
    let sound = opened(r, s, &m, 15, &[65520, 32760, 7]);
    in_order(&sound, &[1, 2, 3, 4, 5, 19, 6, 7], cases);
    let mut high = sound.clone();
    high.words[0][11] = P;
    cases.push(high);
    for p in OTHERS {
        let mut c = sound.clone();
        c.numbers[0] = p;
        cases.push(c);
        // elements of every field
        let m = [1, 0, 0, 1];
        cases.push(opened(r, params(p, 1, 1, 2), &m, 3, &[1, 0]));
    }
    for (l, e, n) in [(0, 1, 1), (9, 1, 1), (1, 0, 1), (1, 9, 1), (1, 1, 0), (1, 1, 33), (0, 0, 0), (65535, 1, 1), (1, 65535, 1), (8, 8, 33)] {
        let s = params(P, l, e, n);
        let words = vec![vec![0; s.entries().min(528)], vec![], vec![], vec![9; (2 * l as usize).min(528)]];
        cases.push(Case { call: OPEN_SIGNED, numbers: setup_numbers(s), words, bytes: vec![] });
    }
    // a buffer of every length but the one needed, and of that
    for (l, e, n) in [(1, 1, 3), (2, 1, 4), (7, 1, 9), (8, 1, 9), (8, 8, 32)] {
        let s = params(P, l, e, n);
        let m = matrix(r, s, POINTS);
        let v: Vec<u16> = (0..s.d()).map(|k| RESIDUES[k % 8]).collect();
        let all = if n == 32 { u32::MAX } else { (1 << n) - 1 };
        let c = opened(r, s, &m, all, &v);
        for len in distinct(vec![0, l as usize - 1, l as usize, l as usize + 1, 7, 8, 9, 10, 16, 264]) {
            let mut c = c.clone();
            c.words[3] = r.noise(2 * len);
            cases.push(c);
        }
    }
    let s = params(P, 8, 8, 32);
    for kind in [POINTS, ARBITRARY, TIED] {
        let m = matrix(r, s, kind);
        for set in [0, u32::MAX, 0xFFFF, 0x7FFF, 0xAAAAAAAA, 0xAAAAAAAB] {
            let v: Vec<u16> = (0..16).map(|k| if k < 8 { RESIDUES[k] } else { r.below(65521) as u16 }).collect();
            cases.push(opened(r, s, &m, set, &v));
        }
    }
}

/// Corrections for these constants whose sum is this number; the last constant is 1 or -1.
fn reaching(r: &mut Random, constants: &[i32], sum: i64) -> Vec<i32> {
    let (last, others) = constants.split_last().unwrap();
    loop {
        let mut found = r.corrections(others.len());
        let so_far: i64 = others.iter().zip(&found).map(|(&c, &x)| c as i64 * x as i64).sum();
        let rest = (sum - so_far) * *last as i64;
        if (-32760..=32760).contains(&rest) {
            found.push(rest as i32);
            return found;
        }
    }
}

/// One combination of columns, each of a dealing of its own: the corrections held, dealt, combined with signed constants by every holder of the sets, and
/// opened by each set. `columns` has the corrections of each. What is opened is the exact sum where that is within the range, else one with its remainder.
fn sum(r: &mut Random, s: Params, m: &[u16], constants: &[i32], columns: &[Vec<i32>], sets: &[u32], cases: &mut Vec<Case>) {
    let (l, d) = (s.l as usize, s.d());
    let mut shares = vec![vec![]; s.n as usize];
    for (t, column) in columns.iter().enumerate() {
        let b = t % l;
        let mut array = r.corrections(l * l);
        array[b * l..(b + 1) * l].copy_from_slice(column);
        let hold = holding(r, &array);
        let words = vec![m.to_vec(), hold.run().words[1].clone(), r.elements(P, d * d - l * l), r.noise(s.entries()), r.noise(s.entries())];
        let deal = Case { call: 2, numbers: setup_numbers(s), words, bytes: vec![] };
        let gs = deal.run().words[3].clone();
        shares.iter_mut().enumerate().for_each(|(i, x)| x.push(gs[i * d + b]));
        // of many dealings the first ones are enough
        if t < 4 {
            cases.push(hold);
        }
        if t == 0 {
            cases.push(deal);
        }
    }
    let round = r.round();
    let openers = sets.iter().fold(0, |all, set| all | set);
    let mut combined = vec![0; s.n as usize];
    for (i, shares) in shares.iter().enumerate().filter(|(i, _)| openers >> i & 1 == 1) {
        let c = combining(constants, shares, round);
        combined[i] = c.run().places[0];
        cases.push(c);
    }
    for &set in sets {
        let handed = (0..s.n as usize).filter(|i| set >> i & 1 == 1).map(|i| combined[i]).collect();
        let c = opening_of(r, s, m, set, handed, round);
        let found = signed_numbers(&c.run().words[3]);
        for (k, &x) in found.iter().enumerate() {
            let exact: i64 = constants.iter().zip(columns).map(|(&c, column)| c as i64 * column[k] as i64).sum();
            assert_eq!((exact - x as i64) % 65521, 0, "the sum, modulo p");
            assert!(x as i64 == exact || !(-32760..=32760).contains(&exact), "the exact sum within the range");
        }
        cases.push(c);
    }
}

/// Sums at the ends of the range, one past them and far past, by one to 64 terms.
fn sums(r: &mut Random, cases: &mut Vec<Case>) {
    let within: &[i64] = &[32760, -32760, 1, 0, -1];
    let past: &[i64] = &[32760, -32760, 32761, -32761, 0, 65520, -65520];
    let far: &[i64] = &[32760, -32760, 32761, -32761, 65521, -65521, 98281, -98281, 200000];
    let farthest: &[i64] = &[32760, -32760, 32761, -32761, 1073217600];
    let wanted = [(&[1][..], within), (&[-1], within), (&[1, 1], past), (&[1, -1], past), (&[3, -2, 5, -1], far), (&[0, -32760, 32760, 1], farthest)];
    let setups = two_positions(r);
    for (constants, all) in wanted {
        for (k, &first) in all.iter().enumerate() {
            let two = [reaching(r, constants, first), reaching(r, constants, all[(k + 1) % all.len()])];
            let columns: Vec<Vec<i32>> = (0..constants.len()).map(|t| vec![two[0][t], two[1][t]]).collect();
            let ((s, m), sets) = if k % 2 == 0 { (&setups[0], [7, 14, 15]) } else { (&setups[1], [3, 9, 15]) };
            sum(r, *s, m, constants, &columns, &sets, cases);
        }
    }
    // 64 terms, on the largest sizes
    let s = params(P, 8, 8, 32);
    let mut constants: Vec<i32> = (0..63).map(|t| [2, -3, 1, -1, 0][t % 5]).collect();
    constants.push(-1);
    for (kind, set) in [(POINTS, 0x5A5AA5A5), (ARBITRARY, 0xFFFF)] {
        let m = matrix(r, s, kind);
        let positions: Vec<Vec<i32>> = far[..8].iter().map(|&x| reaching(r, &constants, x)).collect();
        let columns: Vec<Vec<i32>> = (0..64).map(|t| positions.iter().map(|x| x[t]).collect()).collect();
        sum(r, s, &m, &constants, &columns, &[set], cases);
    }
    // the empty sum, which opens to zeros
    for (s, m) in two_positions(r) {
        let c = combining(&[], &[], 0);
        let share = c.run().places[0];
        cases.push(c);
        cases.extend([7, 14, 15].map(|set: u32| opening_of(r, s, &m, set, vec![share; set.count_ones() as usize], 0)));
    }
}

pub fn cases(r: &mut Random) -> Vec<Case> {
    let mut cases = vec![];
    held(r, &mut cases);
    read_back(r, &mut cases);
    combined(r, &mut cases);
    openings(r, &mut cases);
    sums(r, &mut cases);
    cases
}
