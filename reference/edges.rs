//! The cases at the limits: every refusal of every call, each limit and one past it, each lent length and one beside it, records cut at every byte. They
//! are without rounds, as those of draw.rs; what rounds can do stands in rounds.rs.

use crate::cases::*;
use crate::draw::*;
use crate::files::{example, other_records, zeros};
use reference::*;

/// The calls that read a record, with its mark.
const READERS: [(u16, u16); 9] =
    [(18, SU), (19, SU), (20, DL), (21, PV), (22, VD), (23, SH), (READ_DF, DF), (READ_PF, PF), (READ_DZ, DZ)];

pub fn params(p: u16, l: u16, e: u16, n: u16) -> Params {
    Params { p, l, e, n }
}

/// Each number once.
pub fn distinct<T: Ord>(mut xs: Vec<T>) -> Vec<T> {
    xs.sort();
    xs.dedup();
    xs
}

/// A call in order, on a points matrix if there is one.
pub fn sound(r: &mut Random, call: u16, s: Params) -> Case {
    Draw::with(r, s, POINTS).case(call)
}

/// The calls that take a setup, from the caller or from an SU.
fn on_a_setup() -> impl Iterator<Item = u16> {
    (0..24).filter(|&call| call != 7 && call != FILE)
}

/// The lengths of the slices of words and of the slice of bytes that a call needs.
fn needed(call: u16, s: Params) -> (Vec<usize>, usize) {
    let (l, d, n, all) = (s.l as usize, s.d(), s.n as usize, s.entries());
    match call {
        0 | 9 | 10 => (vec![all], 0),
        1 => (vec![all, l * l, d * d - l * l, d, d], 0),
        2 => (vec![all, l * l, d * d - l * l, all, all], 0),
        3 => (vec![all, d], 0),
        4 => (vec![all, d, n], 0),
        5 => (vec![d, n, l], 0),
        6 => (vec![all, all, all], 0),
        8 => (vec![all, 32], 0),
        11 => (vec![all, 0, l], 0),
        13 | 19 => (vec![all], 10 + 2 * all),
        14 | 20 => (vec![d, d], 6 + 4 * d),
        16 | 22 => (vec![], 8),
        18 => (vec![], 10 + 2 * all),
        FIELD => (vec![], 0),
        DEAL_MAPPED => (vec![all, l * l, d * d - l * l, l * l, (d - l) * d, d, d, d, d], 0),
        DEAL_MAPPED_ALL => (vec![all, l * l, d * d - l * l, l * l, (d - l) * d, all, all, all, all], 0),
        JUDGE_MAPPED => (vec![all, d, n, l * l, d, n], 0),
        WRITE_DF | READ_DF => (vec![d, d, l * l], 6 + 4 * d + 2 * l * l),
        DEAL_ZERO => (vec![all, (d - l) * d, d, d - l], 0),
        DEAL_ZERO_ALL => (vec![all, (d - l) * d, all, n * (d - l)], 0),
        JUDGE_ZERO => (vec![all, d - l, n], 0),
        REFRESH => (vec![], 0),
        WRITE_DZ | READ_DZ => (vec![d, d - l], 6 + 2 * d + 2 * (d - l)),
        _ => (vec![], 10),
    }
}

/// A call on numbers that may be beyond their limits, with zeros everywhere and the lengths that they ask for, as far as a case can hold them.
pub fn blank(call: u16, s: Params) -> Case {
    let (words, size) = needed(call, s);
    let words: Vec<Vec<u16>> = words.iter().map(|&k| vec![0; k.min(528)]).collect();
    let mut c = Case { call, numbers: setup_numbers(s), words, bytes: vec![0; size.min(4096)] };
    if let Some((_, mark)) = READERS.iter().find(|x| x.0 == call) {
        put(&mut c.bytes, 0, *mark);
    }
    if call == 18 || call == 19 {
        (0..4).for_each(|k| put(&mut c.bytes, 1 + k, c.numbers[k]));
    }
    c
}

/// Every call in order over every field, small and largest; then p, ℓ, e and n beyond their limits.
fn sizes(r: &mut Random, cases: &mut Vec<Case>) {
    for call in on_a_setup() {
        for p in PRIMES {
            for (l, e, n) in [(1, 1, 1), (8, 1, 2), (1, 8, 3)] {
                cases.push(sound(r, call, params(p, l, e, n)));
            }
        }
        for (k, (l, e)) in [(2, 1), (8, 8), (8, 8)].into_iter().enumerate() {
            cases.push(sound(r, call, params(PRIMES[(call as usize + k) % 5], l, e, 32)));
        }
        for p in [0, 1, 3, 256, 65520, 65535] {
            cases.push(blank(call, params(p, 1, 1, 1)));
        }
        for (l, e, n) in [(0, 1, 1), (9, 1, 1), (1, 0, 1), (1, 9, 1), (1, 1, 0), (1, 1, 33), (0, 0, 0), (65535, 1, 1), (1, 65535, 1)] {
            cases.push(blank(call, params(7, l, e, n)));
        }
        cases.push(blank(call, params(65521, 8, 8, 33)));
        cases.push(blank(call, params(257, 1, 1, 65535)));
    }
    let near = (0..24).chain(247..262).chain(65516..=65535).chain([127, 128, 509, 514, 1792, 32768, 64257]);
    cases.extend(near.map(|p| blank(FIELD, params(p, 0, 0, 0))));
}

/// Every slice of a case shorter and longer by one, and empty.
pub fn near_lengths(c: &Case, cases: &mut Vec<Case>) {
    for k in 0..c.words.len() {
        let mut near = [c.clone(), c.clone(), c.clone()];
        near[0].words[k].pop();
        near[1].words[k].push(0);
        near[2].words[k].clear();
        cases.extend(near);
    }
    if c.of().bytes != Bytes::None {
        let mut near = [c.clone(), c.clone(), c.clone()];
        near[0].bytes.pop();
        near[1].bytes.push(0);
        near[2].bytes.clear();
        cases.extend(near);
    }
}

/// The lengths of the slices of every call.
fn lengths(r: &mut Random, cases: &mut Vec<Case>) {
    for call in (0..24).filter(|&call| call != FILE) {
        for s in [params(7, 1, 1, 3), params(257, 3, 2, 4)] {
            near_lengths(&sound(r, call, s), cases);
        }
    }
}

/// Every slice of field elements with p − 1 throughout, and with p or more at its ends.
fn elements(r: &mut Random, cases: &mut Vec<Case>) {
    for call in 0..24 {
        for p in PRIMES {
            let c = sound(r, call, params(p, 1, 1, 2));
            for &k in c.of().elements {
                if c.words[k].is_empty() {
                    continue;
                }
                let mut near = [c.clone(), c.clone(), c.clone(), c.clone()];
                near[0].words[k].fill(p - 1);
                near[1].words[k][0] = p;
                *near[2].words[k].last_mut().unwrap() = p;
                *near[3].words[k].last_mut().unwrap() = 65535;
                cases.extend(near);
            }
        }
    }
}

/// Holders and positions at their limits and past them.
fn places(r: &mut Random, cases: &mut Vec<Case>) {
    for s in [params(7, 1, 1, 3), params(251, 2, 3, 32), params(65521, 8, 1, 1)] {
        for (call, at, limit) in [(1, 4, s.n), (3, 4, s.n), (8, 6, s.l)] {
            for x in [0, limit - 1, limit, limit + 1, 65535] {
                let mut c = sound(r, call, s);
                c.numbers[at] = x;
                cases.push(c);
            }
        }
    }
}

/// The calls on a set, at a position, with shares that some vector gives; where they open, the opening once more with the last one changed.
fn on_set(r: &mut Random, m: &[u16], s: Params, set: u32, position: u16) -> Vec<Case> {
    let v = r.elements(s.p, s.d());
    let members = (0..32).filter(|i| set >> i & 1 == 1);
    let shares: Vec<u16> = members.map(|i| pair_value(s, m, &v, i).values.first().copied().unwrap_or(0)).collect();
    let mut cases: Vec<Case> = (8..12)
        .map(|call| {
            let mut c = Case { call, numbers: [s.p, s.l, s.e, s.n, 0, 0, position, 0, 0], words: vec![m.to_vec()], bytes: vec![] };
            c.choose(set);
            match call {
                8 => c.words.push(r.noise(32)),
                11 => c.words.extend([shares.clone(), r.noise(s.l as usize)]),
                _ => {}
            }
            c
        })
        .collect();
    if with_rounds(cases[3].clone(), |count| vec![0; count]).run().number == 0 {
        let mut spoilt = cases[3].clone();
        let last = spoilt.words[1].last_mut().unwrap();
        *last = (*last + 1) % s.p;
        cases.push(spoilt);
    }
    cases
}

pub fn matrix(r: &mut Random, s: Params, kind: usize) -> Vec<u16> {
    Draw::with(r, s, kind).record(SU).split_off(5)
}

/// Sets from empty to all, on matrices of every kind.
fn sets(r: &mut Random, cases: &mut Vec<Case>) {
    // every set of three holders and some past them
    let example = [6, 2, 5, 3, 4, 4];
    for set in (0..8).chain([8, 9, 1 << 31, u32::MAX]) {
        cases.extend(on_set(r, &example, params(7, 1, 1, 3), set, 0));
    }
    for (k, p) in PRIMES.into_iter().enumerate() {
        let s = params(p, 2, 1, 3);
        let m = matrix(r, s, [SPARSE, REPEATED, DEPENDENT, ARBITRARY, POINTS][k]);
        for set in 0..8 {
            cases.extend(on_set(r, &m, s, set, set as u16 % 2));
        }
    }
    // sets that determine both positions, one or none, whatever their size
    for (p, x) in [(7, 3), (65521, 65520)] {
        for set in 0..16 {
            cases.extend(on_set(r, &[x, 0, 0, 0, 1, 0, 0, 0, x, x, 1, 0], params(p, 2, 1, 4), set, (set / 2 % 2) as u16));
        }
    }
    // every kind of matrix
    for kind in [ZERO, REPEATED, DEPENDENT, POINTS, ARBITRARY, SPARSE] {
        for (k, p) in PRIMES.into_iter().enumerate() {
            let s = params(p, 2, 1 + r.below(2) as u16, 5);
            let m = matrix(r, s, kind);
            let set = if k % 2 == 0 { 31 } else { r.below(32) as u32 };
            cases.extend(on_set(r, &m, s, set, k as u16 % 2));
        }
    }
    // document 01's row (1, 1, 0)
    for position in 0..3 {
        cases.extend(on_set(r, &[1, 1, 0], params(7, 2, 1, 1), 1, position));
    }
    // a set bit at n and at 31, for n up to 32
    for n in [1, 16, 31, 32] {
        let s = params(257, 1, 1, n);
        let m = matrix(r, s, POINTS);
        let all = if n == 32 { u32::MAX } else { (1 << n) - 1 };
        for set in distinct(vec![0, all, 1 << (n - 1), 1 << n.min(31), 1 << 31, u32::MAX]) {
            cases.extend(on_set(r, &m, s, set, 0));
        }
    }
    // the largest sizes: all 32, half, one fewer, one more
    for p in [2, 257, 65521] {
        let s = params(p, 8, 8, 32);
        let m = matrix(r, s, POINTS);
        for set in [0, u32::MAX, 0xFFFF, 0x7FFF, 0xAAAAAAAA, 0xAAAAAAAB] {
            cases.extend(on_set(r, &m, s, set, 7));
        }
    }
}

/// Matrices from a supplier, over every field: unit rows, a zero row, a row twice. The questions about every set, and about single holders with unit rows.
pub fn supplied_matrices(r: &mut Random) -> Vec<Case> {
    let mut cases = vec![];
    for p in PRIMES {
        let s = params(p, 2, 3, 5);
        let drawn = r.elements(p, 5);
        let m = [&[1, 0, 0, 0, 0], &[0, 0, 0, 0, 1], &[0; 5], &drawn[..], &drawn[..]].concat();
        for set in 0..32 {
            cases.extend(on_set(r, &m, s, set, set as u16 % 2));
        }
        // document 01's row (1, 1, 0), a multiple of it, and one that sets the two positions apart
        let m = [1, 1, 0, p - 1, p - 1, 0, 0, 1, 1];
        for set in 0..8 {
            cases.extend(on_set(r, &m, params(p, 2, 1, 3), set, set as u16 % 2));
        }
        // one unit row for each column: a holder alone reads its position, or nothing
        let units: Vec<u16> = (0..49).map(|k| (k % 8 == 0) as u16).collect();
        for set in (0..7).map(|i| 1 << i).chain([0b1110000, 0b1110001, 0b1001000]) {
            cases.extend(on_set(r, &units, params(p, 4, 3, 7), set, set.trailing_zeros() as u16 % 4));
        }
    }
    cases.retain(|c| c.call < 11);
    cases
}

/// d rows of which none is a combination of the others: a triangle with its rows and its columns in any order.
fn independent(r: &mut Random, p: u16, d: usize) -> Vec<u16> {
    let mut at: Vec<usize> = (0..d).collect();
    r.shuffle(&mut at);
    let mut rows: Vec<Vec<u16>> = (0..d)
        .map(|i| {
            let mut row = vec![0; d];
            at[..i].iter().for_each(|&c| row[c] = r.below(p as usize) as u16);
            row[at[i]] = 1 + r.below(p as usize - 1) as u16;
            row
        })
        .collect();
    r.shuffle(&mut rows);
    rows.concat()
}

/// Sets with a member whose row is a combination of those of lower members: of every sort, first, in the middle and last, in sets with fewer members than
/// columns, with as many, and with more.
fn one_tied(r: &mut Random, p: u16, cases: &mut Vec<Case>) {
    for size in [3, 4, 5] {
        let (middle, last) = (size / 2, size - 1);
        let tied = [(0, NONE), (middle, COPY), (middle, MULTIPLE), (middle, EACH), (last, NONE), (last, COPY), (last, SUM), (last, EACH)];
        for (k, (place, sort)) in tied.into_iter().enumerate() {
            let (l, e) = [(2, 2), (3, 1), (1, 3)][(k + size) % 3];
            let s = params(p, l, e, 7);
            let mut rows = independent(r, p, 4);
            rows.truncate(4 * (size - 1));
            let row = combination(r, p, &rows[..4 * place], 4, sort);
            rows.splice(4 * place..4 * place, row);
            // the others among the seven have any rows
            let set = r.set(7, size);
            let mut m = r.elements(p, s.entries());
            let members = (0..7).filter(|i| set >> i & 1 == 1);
            members.zip(rows.chunks(4)).for_each(|(i, row)| m[4 * i..4 * i + 4].copy_from_slice(row));
            cases.extend(on_set(r, &m, s, set, k as u16 % l));
        }
    }
}

/// The largest sizes, with 16 independent rows and with five, and combinations of lower rows between them.
fn many_tied(r: &mut Random, p: u16, cases: &mut Vec<Case>) {
    let s = params(p, 8, 8, 32);
    for every in [2, 7] {
        let rows = independent(r, p, 16);
        let mut next = rows.chunks(16);
        let mut m = vec![];
        for i in 0..32 {
            let row = if i % every == 1 { next.next().unwrap().to_vec() } else { combination(r, p, &m, 16, i % 5) };
            m.extend(row);
        }
        for (k, set) in [u32::MAX, 0xFFFF, 0xFFFF0000, 0xAAAAAAAA, 0x55555555].into_iter().enumerate() {
            cases.extend(on_set(r, &m, s, set, [0, 7, 3][k % 3]));
        }
    }
}

/// Sets of sizes about e, d and n on points matrices, where the row steps are as many as they can be.
fn most_steps(r: &mut Random, cases: &mut Vec<Case>) {
    for (p, l, e, n) in [(7, 1, 1, 5), (7, 2, 2, 3), (251, 2, 2, 8), (257, 4, 3, 16), (65521, 3, 1, 8), (251, 8, 8, 32)] {
        let s = params(p, l, e, n);
        let m = matrix(r, s, POINTS);
        let mut sizes = distinct(vec![0, 1, e, l + e - 1, l + e, l + e + 1, n - 1, n]);
        sizes.retain(|&size| size <= n);
        for size in sizes {
            let set = r.set(n as usize, size as usize);
            cases.extend(on_set(r, &m, s, set, size % l));
        }
    }
}

/// The judgement of sets: which row, and how many row steps.
pub fn rows_and_steps(r: &mut Random) -> Vec<Case> {
    let mut cases = vec![];
    for p in PRIMES {
        one_tied(r, p, &mut cases);
        // behind (0, 0, 1) and (1, 1, 0) the steps show which unused row was taken for the topmost
        let m = [0, 0, 1, 1, 1, 0, 0, 1, 1, p - 1, 0, 1];
        for set in [0b0011, 0b0111, 0b1011, 0b1101, 0b1110, 0b1111] {
            cases.extend(on_set(r, &m, params(p, 2, 1, 4), set, (set / 4 % 2) as u16));
        }
        // 32 members, two columns
        let s = params(p, 1, 1, 32);
        let m = matrix(r, s, TIED);
        cases.extend(on_set(r, &m, s, u32::MAX, 0));
    }
    for p in [2, 257, 65521] {
        many_tied(r, p, &mut cases);
    }
    most_steps(r, &mut cases);
    cases.retain(|c| c.call == 8);
    cases
}

/// The points matrix at and past d + n = p, and over every field.
fn points_matrices(r: &mut Random, cases: &mut Vec<Case>) {
    for (l, e) in [(1, 1), (1, 2), (2, 1), (2, 2), (3, 2), (2, 4), (5, 1)] {
        for n in [7 - l - e, 8 - l - e] {
            if n > 0 {
                cases.push(sound(r, 0, params(7, l, e, n)));
            }
        }
    }
    for p in PRIMES {
        for (l, e, n) in [(1, 1, 3), (3, 3, 5), (8, 8, 31)] {
            cases.push(sound(r, 0, params(p, l, e, n)));
        }
    }
}

/// Combinations of 0, 1, 64 and 65 terms, lists of one length and of two; over every field, and with a p that is none.
fn combinations(r: &mut Random, cases: &mut Vec<Case>) {
    for p in PRIMES.into_iter().chain([0, 3, 65522]) {
        for (a, b) in [(0, 0), (0, 1), (1, 0), (1, 1), (1, 2), (63, 64), (64, 64), (64, 65), (65, 64), (65, 65), (0, 65)] {
            let mut c = sound(r, 7, params(257, 1, 1, 1));
            c.numbers[0] = p;
            c.words = if PRIMES.contains(&p) && r.chance(2) {
                vec![r.elements(p, a), r.elements(p, b)]
            } else {
                vec![vec![p.wrapping_sub(1); a], vec![p.wrapping_sub(1); b]]
            };
            cases.push(c);
        }
    }
}

/// The sum of no columns, opened by every set of four holders: of those that determine both positions, one or none. Then by all four, one of them lying.
fn sums_of_none(cases: &mut Vec<Case>) {
    for p in PRIMES {
        let none = combine(p, &[], &[], &[]).values[0];
        let mut open = |set: u32, shares: Vec<u16>| {
            let words = vec![vec![1, 0, 0, 0, 1, 0, 0, 0, 1, 1, 1, 0], shares, vec![9; 2]];
            let mut c = Case { call: 11, numbers: setup_numbers(params(p, 2, 1, 4)), words, bytes: vec![] };
            c.choose(set);
            cases.push(c);
        };
        for set in 0..16u32 {
            open(set, vec![none; set.count_ones() as usize]);
        }
        for liar in 0..4 {
            let mut shares = vec![none; 4];
            shares[liar] = 1;
            open(15, shares);
        }
    }
}

/// One value, verdict or entry of a part changed, each in turn.
fn disagreements(r: &mut Random, cases: &mut Vec<Case>) {
    for p in PRIMES {
        let s = params(p, 1, 1, 3);
        let m = matrix(r, s, POINTS);
        let (secrets, random) = (r.elements(p, 1), r.elements(p, 3));
        let (mut gs, mut hs) = (vec![0; 6], vec![0; 6]);
        deal_all(s, &m, &secrets, &random, &mut gs, &mut hs);
        let case = |call, words| Case { call, numbers: setup_numbers(s), words, bytes: vec![] };
        let next = |xs: &[u16], k: usize| {
            let mut xs = xs.to_vec();
            xs[k] = (xs[k] + 1) % p;
            xs
        };
        cases.push(case(6, vec![m.clone(), gs.clone(), hs.clone()]));
        for k in 0..6 {
            cases.push(case(6, vec![m.clone(), next(&gs, k), hs.clone()]));
            cases.push(case(6, vec![m.clone(), gs.clone(), next(&hs, k)]));
        }
        let values: Vec<u16> = (0..3).map(|j| pair_value(s, &m, &gs[2 * j..2 * j + 2], 1).values[0]).collect();
        let h = hs[2..4].to_vec();
        cases.push(case(4, vec![m.clone(), h.clone(), values.clone()]));
        for j in 0..3 {
            cases.push(case(4, vec![m.clone(), h.clone(), next(&values, j)]));
            cases.push(case(4, vec![m.clone(), h.clone(), next(&next(&values, j), 2)]));
        }
        for verdicts in [[1, 1, 1], [0, 1, 1], [1, 0, 1], [1, 1, 0], [1, 0, 0], [0, 0, 0], [1, 2, 0], [2, 1, 1], [0, 1, 65535]] {
            cases.push(case(5, vec![gs[2..4].to_vec(), verdicts.to_vec(), r.noise(1)]));
        }
    }
}

/// A record written, and read by its readers.
pub fn both(r: &mut Random, s: Params, record: &[u16], cases: &mut Vec<Case>) {
    cases.push(writing(s, record, r));
    for (call, _) in READERS.iter().filter(|x| x.1 == record[0]) {
        cases.push(reading(s, *call, record, r));
    }
}

/// A setup's numbers as an SU has them.
fn numbers_of(record: &[u16]) -> Params {
    params(record[1], record[2], record[3], record[4])
}

/// The record of a reader cut at every byte, with bytes behind, and under other marks.
pub fn cut_and_marked(r: &mut Random, s: Params, call: u16, marks: &[u16], cases: &mut Vec<Case>) {
    let mark = READERS.iter().find(|x| x.0 == call).unwrap().1;
    let record = Draw::with(r, s, POINTS).record(mark);
    let whole = reading(s, call, &record, r);
    for k in 0..whole.bytes.len() {
        cases.push(Case { bytes: whole.bytes[..k].to_vec(), ..whole.clone() });
    }
    for k in 1..4 {
        cases.push(Case { bytes: [&whole.bytes[..], &whole.bytes[..k]].concat(), ..whole.clone() });
    }
    for &other in [marks, &[0, 65535, mark ^ 1, mark ^ 0x100, mark.swap_bytes()]].concat().iter() {
        for size in [2, whole.bytes.len()] {
            let mut c = whole.clone();
            put(&mut c.bytes, 0, other);
            c.bytes.truncate(size);
            cases.push(c);
        }
    }
}

/// Every field of every record at its limits and past them, written and read; records cut at every byte, with bytes behind, with other marks.
fn records(r: &mut Random, cases: &mut Vec<Case>) {
    for s in [params(257, 2, 1, 3), params(7, 1, 1, 1)] {
        let limits = distinct(vec![0, 1, 2, s.l - 1, s.l, s.n - 1, s.n, s.p - 1, s.p, 65535]);
        for mark in [DL, PV, VD, SH] {
            let record = Draw::with(r, s, POINTS).record(mark);
            for k in 1..record.len() {
                let wanted: &[u16] = if mark == DL && k > 2 { &[0, s.p - 1, s.p] } else { &limits };
                for &w in wanted {
                    let mut changed = record.clone();
                    changed[k] = w;
                    both(r, s, &changed, cases);
                }
            }
        }
        // a combination's SH
        for column in [0, 1, s.l, 65535] {
            both(r, s, &[SH, 0, s.n - 1, column, s.p - 1], cases);
            both(r, s, &[SH, 1, s.n - 1, column, s.p - 1], cases);
        }
        let setup = Draw::with(r, s, POINTS).record(SU);
        for k in 1..setup.len() {
            for w in if k < 5 { vec![0, 1, 2, 3, 7, 8, 9, 32, 33, 251, 257, 65521, 65535] } else { vec![s.p - 1, s.p] } {
                let mut changed = setup.clone();
                changed[k] = w;
                let mut near = vec![];
                both(r, s, &changed, &mut near);
                let x = numbers_of(&changed);
                near[0].numbers[..4].copy_from_slice(&[x.p, x.l, x.e, x.n]);
                cases.extend(near);
            }
        }
        for (call, _) in READERS.into_iter().filter(|&(call, _)| call < DEAL_MAPPED) {
            cut_and_marked(r, s, call, &[SU, DL, PV, VD, SH], cases);
        }
    }
    // the last holder and column of the largest sizes, and one past them
    let s = params(251, 8, 8, 32);
    for i in [31, 32] {
        for mut record in [Draw::with(r, s, POINTS).record(DL), vec![PV, 1, i, 0, 5], vec![PV, 1, 0, i, 5], vec![VD, 1, i, 1], vec![SH, 1, i, i - 24, 5]] {
            if record[0] == DL {
                record[2] = i;
            }
            both(r, s, &record, cases);
        }
    }
    both(r, s, &[SH, 1, 31, 8, 5], cases);
    // elements over every field, first and last
    for p in PRIMES {
        let s = params(p, 1, 1, 2);
        for mark in [SU, DL, PV, SH] {
            let record = Draw::with(r, s, POINTS).record(mark);
            let first = match mark {
                SU => 5,
                DL => 3,
                _ => 4,
            };
            for k in [first, record.len() - 1] {
                for w in [p - 1, p, 65535] {
                    let mut changed = record.clone();
                    changed[k] = w;
                    both(r, s, &changed, cases);
                }
            }
        }
    }
    // the largest SU, cut
    let s = params(65521, 8, 8, 32);
    let setup = Draw::with(r, s, POINTS).record(SU);
    for size in [1033, 1032, 12, 11, 10, 9] {
        let mut c = reading(s, 18, &setup, r);
        c.bytes.truncate(size);
        cases.push(c);
    }
}

/// Makes a refusal apply to a sound case.
pub fn fault(c: &mut Case, number: u16) {
    let s = c.params();
    match (c.call, number) {
        (18 | 19, 1) => put(&mut c.bytes, 1, 3),
        (_, 1) => c.numbers[0] = 3,
        (18 | 19, 2) => put(&mut c.bytes, 3, 9),
        (_, 2) => c.numbers[2] = 9,
        (18..=23 | READ_DF | READ_PF | READ_DZ, 3) => c.bytes.truncate(c.bytes.len() - 1),
        (13..=17 | WRITE_DF | WRITE_PF | WRITE_DZ, 3) => c.bytes.push(0),
        (_, 3) => c.words.last_mut().unwrap().push(0),
        (15 | 17 | WRITE_PF, 4) => c.numbers[7] = s.p,
        (18 | 19, 4) => put(&mut c.bytes, 5, s.p),
        (20 | READ_DZ, 4) => put(&mut c.bytes, 3, s.p),
        (21 | 23 | READ_PF, 4) => put(&mut c.bytes, 4, s.p),
        (READ_DF, 4) => put(&mut c.bytes, 3 + 2 * s.d(), s.p),
        (DEAL_MAPPED..=JUDGE_MAPPED, 4) => c.words[3][0] = s.p,
        (WRITE_DF, 4) => c.words[2][0] = s.p,
        (DEAL_ZERO..=JUDGE_ZERO | WRITE_DZ, 4) => c.words[1][0] = s.p,
        (REFRESH, 4) => c.numbers[6] = s.p,
        (7, 4) => c.words.iter_mut().take(1).for_each(|x| x.push(65535)),
        (_, 4) => c.words[0][0] = 65535,
        (1 | 3 | DEAL_MAPPED | DEAL_ZERO, 5) => c.numbers[4] = s.n,
        (8, 5) => c.numbers[6] = s.l,
        (9..=11, 5) => {
            c.numbers[5] |= 0x8000;
            if c.call == 11 {
                c.words[1].push(0);
            }
        }
        (14 | 16 | WRITE_DF | WRITE_DZ, 5) => c.numbers[5] = s.n,
        (15 | WRITE_PF, 5) => c.numbers[6] = s.n,
        (17, 5) => c.numbers[6] = s.l,
        (20 | 22 | READ_DF | READ_DZ, 5) => put(&mut c.bytes, 2, s.n),
        (21 | READ_PF, 5) => put(&mut c.bytes, 3, s.n),
        (23, 5) => put(&mut c.bytes, 3, s.l),
        (11, 6) => {
            c.choose(1);
            c.words[1] = vec![0];
        }
        (11, 7) => c.words[1] = vec![0, 0, 1],
        (_, 8) => c.bytes[0] ^= 1,
        (14..=17 | WRITE_DF | WRITE_PF | WRITE_DZ, 9) => c.numbers[4] = 0,
        (_, 9) => put(&mut c.bytes, 1, 0),
        (5, 12) => c.words[1][0] = 2,
        (16, 12) => c.numbers[6] = 2,
        (22, 12) => put(&mut c.bytes, 3, 2),
        (0, 15) => c.numbers[0] = 2,
        (REFRESH, 18) => c.numbers[5] = 65535,
        _ => panic!("no such refusal: {} {number}", c.call),
    }
}

/// The refusals of a call but 19, which is of rounds.
fn without_rounds(call: u16) -> Vec<u16> {
    CALLS[call as usize].refusals.iter().copied().filter(|&number| number != 19).collect()
}

/// Every two refusals of a call together, and all of them.
pub fn priorities_of(c: &Case, cases: &mut Vec<Case>) {
    let all = without_rounds(c.call);
    for a in 0..all.len() {
        for b in a..all.len() {
            let mut faulty = c.clone();
            fault(&mut faulty, all[b]);
            fault(&mut faulty, all[a]);
            cases.push(faulty);
        }
    }
    for from in 0..all.len() {
        let mut faulty = c.clone();
        all[from..].iter().rev().for_each(|&number| fault(&mut faulty, number));
        cases.push(faulty);
    }
}

/// The same for every call on a setup, and for the combination.
fn priorities(r: &mut Random, cases: &mut Vec<Case>) {
    for call in (0..24).filter(|&call| call != FILE) {
        let mut c = sound(r, call, params(7, 1, 1, 3));
        if call == 11 {
            c.choose(7);
            c.words[1] = vec![0, 2, 4];
        }
        priorities_of(&c, cases);
    }
}

/// Document 01's cases on its example.
fn worked(r: &mut Random, cases: &mut Vec<Case>) {
    let m = vec![6, 2, 5, 3, 4, 4];
    let numbers = |x: [u16; 3]| [7, 1, 1, 3, x[0], x[1], x[2], 0, 0];
    let mut push = |call, x, words| cases.push(Case { call, numbers: numbers(x), words, bytes: vec![] });
    push(0, [0; 3], vec![r.noise(6)]);
    for i in 0..3 {
        push(1, [i, 0, 0], vec![m.clone(), vec![3], vec![1, 5, 2], r.noise(2), r.noise(2)]);
    }
    push(2, [0; 3], vec![m.clone(), vec![3], vec![1, 5, 2], r.noise(6), r.noise(6)]);
    for g in [vec![0, 3], vec![2, 4], vec![4, 5]] {
        push(3, [1, 0, 0], vec![m.clone(), g]);
    }
    push(4, [0; 3], vec![m.clone(), vec![4, 3], vec![2, 1, 0]]);
    push(4, [0; 3], vec![m.clone(), vec![4, 3], vec![3, 1, 0]]);
    push(5, [0; 3], vec![vec![2, 4], vec![1, 1, 1], r.noise(1)]);
    for (set, shares) in [(5, vec![0, 4]), (7, vec![0, 2, 4]), (7, vec![0, 2, 5]), (1, vec![0]), (0, vec![]), (7, vec![0, 4, 1])] {
        push(11, [set, 0, 0], vec![m.clone(), shares, r.noise(1)]);
        push(8, [set, 0, 0], vec![m.clone(), r.noise(32)]);
    }
}

/// Holder's files: sound over every field, shuffled, cut at every byte, each record gone, again or last, another one in its place; the largest, and one of
/// 4,096 bytes.
fn files(r: &mut Random, cases: &mut Vec<Case>) {
    let mut push = |file: Vec<u8>| cases.push(Case { call: FILE, numbers: [0; 9], words: vec![], bytes: file });
    let whole = example();
    let all = bytes(&whole);
    (0..=all.len()).for_each(|k| push(all[..k].to_vec()));
    let spans = [(0, 11), (11, 18), (18, 23), (23, 28), (28, 33), (33, 37), (37, 41), (41, 45)];
    for (from, to) in spans {
        let without = [&whole[..from], &whole[to..]].concat();
        push(bytes(&without));
        push(bytes(&[&without[..], &whole[from..to]].concat()));
        push(bytes(&[&whole[..], &whole[from..to]].concat()));
    }
    for _ in 0..20 {
        let mut rest: Vec<&[u16]> = spans[2..].iter().map(|&(from, to)| &whole[from..to]).collect();
        r.shuffle(&mut rest);
        push([bytes(&whole[..18]), bytes(&rest.concat())].concat());
    }
    other_records().iter().for_each(|words| push(bytes(words)));
    // every word at some limit
    for k in 0..whole.len() {
        for w in [0, 2, 3, 7] {
            let mut changed = whole.clone();
            changed[k] = w;
            push(bytes(&changed));
        }
    }
    for p in PRIMES {
        for (l, e, n) in [(1, 1, 1), (8, 1, 2), (1, 8, 3), (2, 2, 8)] {
            push(sound(r, FILE, params(p, l, e, n)).bytes);
        }
    }
    for (p, l, e, n) in [(3, 1, 1, 1), (7, 9, 1, 1), (7, 1, 9, 1), (7, 1, 1, 33), (65521, 8, 8, 32)] {
        push(bytes(&zeros(p, l, e, n)));
    }
    let mut largest = bytes(&zeros(257, 8, 8, 32));
    while largest.len() < 4096 {
        largest.push(0);
    }
    push(largest);
}

/// Each of these files read into as many entries as its contents are, none of them 0 before; now and then into another number of entries, which is refused.
pub fn contents(r: &mut Random, more: &mut Random, files: &[Vec<u8>]) -> Vec<Case> {
    let mut cases = vec![];
    for (k, file) in files.iter().enumerate() {
        let mut push = |size: usize| {
            // the entries from 18 on are drawn apart: what stood before A7 stays as it is
            let lent = (0..size).map(|at| 1 + if at < 18 || size < CONTENTS { &mut *r } else { &mut *more }.below(65535) as u16).collect();
            cases.push(Case { call: READ_FILE, numbers: [0; 9], words: vec![lent], bytes: file.clone() });
        };
        push(CONTENTS);
        if k % 12 == 0 {
            push([17, 19, 0][k / 12 % 3]);
        }
    }
    cases
}

/// Keys dealt: bytes and entries at their limits, the lengths, an entry of 257 or more; 3 beside 4.
fn dealt_keys(r: &mut Random, cases: &mut Vec<Case>) {
    let c = sound(r, DEAL_KEY, BOARD);
    cases.push(c.clone());
    for (byte, entry) in [(0, 0), (255, 256), (255, 0), (0, 256)] {
        let mut c = c.clone();
        c.bytes.fill(byte);
        c.words[0].fill(entry);
        cases.push(c);
    }
    near_lengths(&c, cases);
    for (at, entry) in [(0, 257), (16, 257), (32, 257), (0, 65535), (32, 65535), (7, 258), (11, 512)] {
        let mut c = c.clone();
        c.words[0][at] = entry;
        cases.push(c.clone());
        if entry == 257 {
            c.words[1 + at / 32].pop();
            cases.push(c);
        }
    }
    let mut c = c.clone();
    c.words[0].push(257);
    cases.push(c.clone());
    c.bytes.pop();
    cases.push(c);
}

/// Four vectors behind a key's shares, with bytes at all positions.
fn behind_a_key(r: &mut Random) -> [Vec<u16>; 4] {
    [(); 4].map(|_| [r.elements(256, 4), r.elements(257, 3)].concat())
}

/// A key opened by a set, with bytes at all positions.
pub fn opening(r: &mut Random, set: u32) -> Case {
    let columns = behind_a_key(r);
    Draw::with(r, BOARD, POINTS).opening(set, &columns)
}

/// A share of one column, by its place among the members' shares, made another.
fn falsify(c: &mut Case, column: usize, place: usize) {
    let count = c.set().count_ones() as usize;
    let share = &mut c.words[0][column * count + place];
    *share = (*share + 1) % 257;
}

/// Other bits in a set, with as many shares as it then needs.
fn widen(c: &mut Case, bits: u32) {
    let set = c.set() | bits;
    c.choose(set);
    c.words[0].resize(4 * set.count_ones() as usize, 0);
}

/// Sets of 7, of 8 and of 6 members.
pub const SEVEN: u32 = 0x84B5;
pub const EIGHT: u32 = 0x5555;
pub const SIX: u32 = 0x84B4;

/// Keys opened: by sets of every size, with each position at 256, with each share false, with 256 and a false share together, with sets and lengths and
/// elements at their limits and past them.
fn opened_keys(r: &mut Random, cases: &mut Vec<Case>) {
    for set in [SEVEN, 0x7F, 0xFE00, EIGHT, 0xAAAA, 0x7FFF, 0xFFFF, 0, 1, 0x8000, 0x111, SIX, 0x3F, 0xFC00] {
        cases.push(opening(r, set));
    }
    for set in [SEVEN, 0xFFFF] {
        for x in [0, 1, 255, 256] {
            let mut c = opening(r, set);
            c.words[0].fill(x);
            cases.push(c);
        }
        // each position at 256; then all of one column, and all
        for at in (0..16).map(|k| k..k + 1).chain([4..8, 0..16]) {
            let mut columns = behind_a_key(r);
            at.for_each(|k| columns[k / 4][k % 4] = 256);
            cases.push(Draw::with(r, BOARD, POINTS).opening(set, &columns));
        }
        // a random entry of 256 is no position
        for b in 0..4 {
            let mut columns = behind_a_key(r);
            columns[b][4..].fill(256);
            cases.push(Draw::with(r, BOARD, POINTS).opening(set, &columns));
        }
    }
    // one false share: of eight, and of sixteen; of seven it opens to something else
    for (set, count) in [(EIGHT, 8), (0xFFFF, 16), (SEVEN, 7)] {
        let c = opening(r, set);
        for b in 0..4 {
            for place in (0..count).filter(|place| count == 8 || place % 4 == b) {
                let mut c = c.clone();
                falsify(&mut c, b, place);
                cases.push(c);
            }
        }
    }
    // 16 beside 7: a position of one column at 256, a false share in one
    for (set, last) in [(EIGHT, 7), (0xFFFF, 15)] {
        for k in 0..16 {
            let (b, column) = (k / 4, k % 4);
            let mut columns = behind_a_key(r);
            columns[b][(b + column) % 4] = 256;
            let mut c = Draw::with(r, BOARD, POINTS).opening(set, &columns);
            falsify(&mut c, column, if b % 2 == 0 { 0 } else { last });
            cases.push(c);
        }
    }
    // lengths: by one entry, by a member, by a column
    for set in [SEVEN, 0xFFFF, SIX, 0] {
        let c = opening(r, set);
        near_lengths(&c, cases);
        let count = set.count_ones() as usize;
        for size in distinct(vec![count, 3 * count, 5 * count, 4 * count + 4, (4 * count).saturating_sub(4)]) {
            let mut c = c.clone();
            c.words[0].resize(size, 0);
            cases.push(c);
        }
    }
    // elements
    for set in [SEVEN, EIGHT, 0xFFFF] {
        let c = opening(r, set);
        let count = set.count_ones() as usize;
        for (at, x) in [(0, 257), (count - 1, 257), (count, 258), (3 * count, 65535), (4 * count - 1, 257), (4 * count - 1, 65535)] {
            let mut c = c.clone();
            c.words[0][at] = x;
            cases.push(c);
        }
    }
    // bits at 16 and above, counted and not
    for set in [0, 1, SIX, SEVEN, 0xFFFF] {
        for bits in [1 << 16, 1 << 31, 0xFFFF0000] {
            let c = opening(r, set);
            let mut counted = c.clone();
            widen(&mut counted, bits);
            let mut uncounted = c.clone();
            uncounted.choose(set | bits);
            cases.extend([counted, uncounted]);
        }
    }
    // every two refusals together, and all of them
    let all = without_rounds(OPEN_KEY);
    for a in 0..all.len() {
        for b in a..all.len() {
            let mut c = opening(r, EIGHT);
            key_fault(r, &mut c, all[b]);
            key_fault(r, &mut c, all[a]);
            cases.push(c);
        }
        let mut c = opening(r, EIGHT);
        all[a..].iter().rev().for_each(|&number| key_fault(r, &mut c, number));
        cases.push(c);
    }
}

/// Makes a refusal apply to the opening of a key.
pub fn key_fault(r: &mut Random, c: &mut Case, number: u16) {
    match number {
        3 => c.bytes.push(0),
        4 => c.words[0][9] = 257,
        5 => widen(c, 1 << 16),
        6 => *c = opening(r, SIX),
        7 => falsify(c, 3, 7),
        16 => {
            let mut columns = behind_a_key(r);
            columns[2][1] = 256;
            *c = Draw::with(r, BOARD, POINTS).opening(EIGHT, &columns);
        }
        _ => panic!("no such refusal: {number}"),
    }
}

/// The cases of board keys.
pub fn keys(r: &mut Random) -> Vec<Case> {
    let mut cases = vec![];
    dealt_keys(r, &mut cases);
    opened_keys(r, &mut cases);
    cases
}

pub fn edges(r: &mut Random) -> Vec<Case> {
    let mut cases = vec![];
    worked(r, &mut cases);
    sizes(r, &mut cases);
    lengths(r, &mut cases);
    elements(r, &mut cases);
    places(r, &mut cases);
    sets(r, &mut cases);
    points_matrices(r, &mut cases);
    combinations(r, &mut cases);
    sums_of_none(&mut cases);
    disagreements(r, &mut cases);
    records(r, &mut cases);
    priorities(r, &mut cases);
    files(r, &mut cases);
    cases
}
