//! The cases of two SH of one share (document 02, A9): which of the two supersedes, at the first and the last rounds; 20, and 21 beside it; what the reader
//! refuses in either record, and every two of these; the limits before all; bytes behind either record; three records settled two by two.

use crate::cases::*;
use crate::draw::*;
use crate::edges::*;
use reference::*;

/// The words of an SH: its mark, dealing, holder, column, value and round.
type Record = [u16; 6];
const MARK: usize = 0;
const DEALING: usize = 1;
const HOLDER: usize = 2;
const COLUMN: usize = 3;
const VALUE: usize = 4;
const ROUND: usize = 5;

/// A record with other words at some places.
fn with(x: &Record, changes: &[(usize, u16)]) -> Record {
    let mut x = *x;
    changes.iter().for_each(|&(k, w)| x[k] = w);
    x
}

/// The next element.
fn another(p: u16, x: &Record) -> u16 {
    (x[VALUE] + 1) % p
}

/// Some share of a dealing, at round 7.
fn share(r: &mut Random, s: Params) -> Record {
    let any = 1 + r.below(65535) as u16;
    let dealing = r.one(&[1, 65535, any]);
    [SH, dealing, r.below(s.n as usize) as u16, r.below(s.l as usize) as u16, r.below(s.p as usize) as u16, 7]
}

fn on(s: Params, first: &Record, second: &Record) -> Case {
    settling(s, &bytes(first), &bytes(second))
}

/// The older record first and second, with another value and with the same; equal rounds with equal values, and with unequal ones, 20.
fn rounds(r: &mut Random, cases: &mut Vec<Case>) {
    for p in PRIMES {
        for (l, e, n) in [(1, 1, 1), (2, 1, 3), (8, 8, 32)] {
            let s = params(p, l, e, n);
            let x = share(r, s);
            let value = another(p, &x);
            for (before, after, value) in [(0, 1, value), (255, 256, x[VALUE]), (65534, 65535, value)] {
                let (old, new) = (with(&x, &[(ROUND, before)]), with(&x, &[(ROUND, after), (VALUE, value)]));
                cases.extend([on(s, &old, &new), on(s, &new, &old)]);
            }
            let x = with(&x, &[(ROUND, r.round())]);
            cases.extend([on(s, &x, &x), on(s, &x, &with(&x, &[(VALUE, value)]))]);
        }
    }
    // rounds, and values at one round, that differ in one byte, in both, or by much
    let s = params(65521, 8, 8, 32);
    let x = share(r, s);
    for (a, b) in [(0, 65535), (1, 256), (256, 511), (32767, 32768), (0x1234, 0x3412)] {
        let (old, new) = (with(&x, &[(ROUND, a)]), with(&x, &[(ROUND, b)]));
        cases.extend([on(s, &old, &new), on(s, &new, &old)]);
    }
    for (a, b) in [(0, 65520), (0, 256), (255, 256), (0x3412, 0x1234)] {
        cases.push(on(s, &with(&x, &[(VALUE, a)]), &with(&x, &[(VALUE, b)])));
    }
}

/// Records of different shares, with each field another alone and all three, and combinations in either record and in both: 21, whichever is the newer, and
/// beside 20.
fn other_shares(r: &mut Random, cases: &mut Vec<Case>) {
    for (i, p) in PRIMES.into_iter().enumerate() {
        let s = params(p, 3, 2, 5);
        let x = with(&share(r, s), &[(DEALING, 258), (HOLDER, 1), (COLUMN, 1)]);
        let beside = [(ROUND, 7), (ROUND, 8), (ROUND, 6), (VALUE, another(p, &x))];
        let different: [&[(usize, u16)]; 5] =
            [&[(DEALING, 259)], &[(DEALING, 2)], &[(HOLDER, 2)], &[(COLUMN, 2)], &[(DEALING, 3), (HOLDER, 4), (COLUMN, 0)]];
        for (k, changes) in different.into_iter().enumerate() {
            let y = with(&x, changes);
            // two of the four, and over the fields all of them
            for at in [k + i, k + i + 2] {
                cases.push(on(s, &x, &with(&y, &[beside[at % 4]])));
            }
        }
        let one = with(&x, &[(COLUMN, 0)]);
        let combined = with(&one, &[(DEALING, 0)]);
        for (first, second) in [(&combined, &one), (&one, &combined), (&combined, &combined)] {
            cases.extend([beside[0], beside[1], beside[3]].map(|change| on(s, first, &with(second, &[change]))));
        }
    }
}

/// A record with each thing that the reader refuses: 3 by half a mark, 8, 3 by half a round, 4, and the three of 5.
fn refused_alone(s: Params, x: &Record) -> Vec<Vec<u8>> {
    let changes: [&[(usize, u16)]; 4] = [&[(VALUE, s.p)], &[(HOLDER, s.n)], &[(COLUMN, s.l)], &[(DEALING, 0), (COLUMN, 1)]];
    let mut all = vec![bytes(x)[..1].to_vec(), bytes(&with(x, &[(MARK, DL)])), bytes(x)[..11].to_vec()];
    all.extend(changes.map(|changes| bytes(&with(x, changes))));
    all
}

/// What the reader refuses: in the first record and in the second; every two, of which the first record's is given; each beside 20 and beside 21.
fn refused_records(r: &mut Random, cases: &mut Vec<Case>) {
    for p in PRIMES {
        let s = params(p, 2, 1, 3);
        let x = share(r, s);
        for part in refused_alone(s, &x).split_off(3) {
            cases.extend([settling(s, &part, &bytes(&x)), settling(s, &bytes(&x), &part)]);
        }
    }
    let s = params(257, 2, 1, 3);
    let x = with(&share(r, s), &[(HOLDER, 1)]);
    let whole = bytes(&x);
    let alone = refused_alone(s, &x);
    // cut anywhere: behind a first part that is too short stands the second
    for k in 0..12 {
        cases.extend([settling(s, &whole[..k], &whole), settling(s, &whole, &whole[..k])]);
    }
    for mark in [SU, DL, PV, VD, DF, PF, DZ, 0, SH ^ 1, SH ^ 0x100, SH.swap_bytes()] {
        let part = bytes(&with(&x, &[(MARK, mark)]));
        cases.extend([settling(s, &part, &whole), settling(s, &whole, &part)]);
    }
    for first in &alone {
        cases.extend(alone.iter().map(|second| settling(s, first, second)));
    }
    for change in [(VALUE, another(s.p, &x)), (HOLDER, 2)] {
        let other = bytes(&with(&x, &[change]));
        for part in &alone {
            cases.extend([settling(s, part, &other), settling(s, &other, part)]);
        }
    }
    // in one record: the mark before the length, both before the rest, 4 before 5
    let high = bytes(&with(&x, &[(VALUE, s.p), (HOLDER, s.n)]));
    let marked = bytes(&with(&x, &[(MARK, DL), (VALUE, s.p)]));
    for part in [&marked[..2], &marked[..11], &marked, &high[..11], &high] {
        cases.extend([settling(s, part, &whole), settling(s, &whole, part)]);
    }
}

/// p, ℓ, e and n beyond their limits, before all that the records have.
fn limits(r: &mut Random, cases: &mut Vec<Case>) {
    let x = share(r, params(2, 2, 1, 3));
    let (whole, other) = (bytes(&x), bytes(&with(&x, &[(VALUE, another(2, &x))])));
    for (p, l, e, n) in [
        (0, 2, 1, 3),
        (3, 2, 1, 3),
        (65535, 2, 1, 3),
        (257, 0, 1, 3),
        (257, 9, 1, 3),
        (257, 2, 0, 3),
        (257, 2, 9, 3),
        (257, 2, 1, 0),
        (257, 2, 1, 33),
        (3, 0, 9, 33),
    ] {
        let s = params(p, l, e, n);
        cases.extend([settling(s, &whole, &whole), settling(s, &whole, &other), settling(s, b"DL", &whole[..11]), settling(s, b"", b"")]);
    }
}

/// Bytes behind either record, 1 or 12, are not looked at, not even a newer record.
fn behind(r: &mut Random, cases: &mut Vec<Case>) {
    for p in PRIMES {
        let s = params(p, 2, 1, 3);
        let x = share(r, s);
        let [old, new, unequal, other] =
            [(ROUND, 7), (ROUND, 8), (VALUE, another(p, &x)), (DEALING, x[DEALING] ^ 2)].map(|change| bytes(&with(&x, &[change])));
        for (a, b, second) in [(1, 0, &new), (0, 1, &new), (12, 12, &new), (12, 1, &old), (1, 12, &unequal), (12, 0, &other)] {
            cases.push(settling(s, &[&old[..], &r.noise_bytes(a)].concat(), &[&second[..], &r.noise_bytes(b)].concat()));
        }
        // the newer one behind the older, in the first part, in the second, and with nothing in the second
        let both = [&old[..], &new].concat();
        cases.extend([settling(s, &both, &old), settling(s, &old, &both), settling(s, &both, &new), settling(s, &both, b"")]);
    }
}

/// Three records of one share settled two by two, the first two before the third and the last two before the first: both give one.
fn three(r: &mut Random, cases: &mut Vec<Case>) {
    let orders = [[1, 2, 3], [1, 3, 2], [2, 1, 3], [2, 3, 1], [3, 1, 2], [3, 2, 1], [1, 1, 2], [2, 1, 1], [1, 2, 1], [2, 2, 2]];
    for (k, order) in orders.into_iter().enumerate() {
        let s = params(PRIMES[k % 5], 2, 1, 3);
        let x = share(r, s);
        let values = r.elements(s.p, 3);
        let [a, b, c] = order.map(|round: u16| bytes(&with(&x, &[(ROUND, round), (VALUE, values[round as usize - 1])])));
        let mut settled = |first: &[u8], second: &[u8]| {
            let c = settling(s, first, second);
            cases.push(c.clone());
            match c.run().places[0] {
                1 => first.to_vec(),
                _ => second.to_vec(),
            }
        };
        let (left, right) = (settled(&a, &b), settled(&b, &c));
        assert_eq!(settled(&left, &c), settled(&a, &right), "one of three, however they are settled");
    }
}

pub fn cases(r: &mut Random) -> Vec<Case> {
    let mut cases = vec![];
    rounds(r, &mut cases);
    other_shares(r, &mut cases);
    refused_records(r, &mut cases);
    limits(r, &mut cases);
    behind(r, &mut cases);
    three(r, &mut cases);
    cases
}
