//! The cases of rounds (document 02, A8): shares combined, opened and refreshed at the first and the last rounds, rounds that differ at each place, 19 beside
//! every other refusal, as many rounds as shares and one more or fewer, and the SH with its round.

use crate::cases::*;
use crate::draw::*;
use crate::edges::*;
use reference::*;

/// The first rounds and the last.
const ROUNDS: [u16; 4] = [0, 1, 65534, 65535];

/// The rounds next to one, and the one farthest from it.
fn others(round: u16) -> [u16; 3] {
    [round.wrapping_add(1), round.wrapping_sub(1), 65535 - round]
}

/// Where a call has its shares, and the rounds behind them.
fn shares_at(call: u16) -> usize {
    if call == 7 || call == 11 { 1 } else { 0 }
}

/// A drawn case at this round.
fn at_round(c: &Case, round: u16) -> Case {
    with_rounds(c.clone(), |count| vec![round; count])
}

/// The same with another round at one place.
fn apart(c: &Case, round: u16, place: usize, other: u16) -> Case {
    let mut c = at_round(c, round);
    c.words[shares_at(c.call) + 1][place] = other;
    c
}

/// Each of these places at another round.
fn apart_at(c: &Case, places: impl Iterator<Item = usize>, cases: &mut Vec<Case>) {
    for (k, place) in places.enumerate() {
        let round = ROUNDS[k % 4];
        cases.push(apart(c, round, place, others(round)[k % 3]));
    }
}

/// As many rounds as there are shares, one more or fewer, none; and shares one more or fewer beside as many rounds as are needed.
fn near_rounds(c: &Case, cases: &mut Vec<Case>) {
    let shares = shares_at(c.call);
    for k in [shares, shares + 1] {
        let mut near = [(); 3].map(|_| at_round(c, 3));
        near[0].words[k].pop();
        near[1].words[k].push(3);
        near[2].words[k].clear();
        cases.extend(near);
    }
    // one too many, and of another round
    let mut c = at_round(c, 3);
    c.words[shares + 1].push(4);
    cases.push(c);
}

/// A combination of so many terms, drawn.
fn terms(r: &mut Random, p: u16, count: usize) -> Case {
    let words = vec![r.elements(p, count), r.elements(p, count)];
    Case { call: 7, numbers: [p, 0, 0, 0, 0, 0, 0, 0, 0], words, bytes: vec![] }
}

/// Combinations: at the first and last rounds, of 0 to 65 terms, with and without rounds; rounds that differ at each place; 19 beside 1, 3 and 4.
fn combinations(r: &mut Random, cases: &mut Vec<Case>) {
    for p in PRIMES {
        for (k, count) in [0, 1, 2, 3, 63, 64, 65].into_iter().enumerate() {
            let c = terms(r, p, count);
            cases.push(at_round(&c, ROUNDS[k % 4]));
            cases.push(at_round(&c, r.round()));
        }
        let c = terms(r, p, 4);
        cases.extend(ROUNDS.map(|round| at_round(&c, round)));
        cases.extend(others(7).map(|other| apart(&c, 7, 2, other)));
        apart_at(&c, 0..4, cases);
        // every round another, two and two, and the last as the first
        for rounds in [[0, 1, 2, 3], [5, 5, 6, 6], [5, 6, 5, 6], [9, 8, 8, 9]] {
            let mut c = at_round(&c, 0);
            c.words[2] = rounds.to_vec();
            cases.push(c);
        }
        near_rounds(&c, cases);
        // no shares: with constants, with rounds
        for (a, b, rounds) in [(0, 0, 1), (0, 1, 0), (1, 0, 0), (0, 1, 1), (1, 0, 1), (1, 1, 0), (0, 0, 64), (0, 0, 65)] {
            let mut c = terms(r, p, 1);
            c.words = vec![vec![1 % p; a], vec![1 % p; b], vec![1; rounds]];
            cases.push(c);
        }
        // 19 beside the others
        let c = terms(r, p, 3);
        for list in 0..2 {
            let mut c = apart(&c, 1, 2, 2);
            c.words[list][list] = p;
            cases.push(c);
        }
        let mut c = apart(&c, 1, 0, 2);
        c.numbers[0] = 3;
        cases.push(c.clone());
        c.words[1].push(0);
        cases.push(c);
    }
    let c = terms(r, 257, 64);
    apart_at(&c, [0, 1, 31, 32, 62, 63].into_iter(), cases);
    let c = terms(r, 257, 65);
    apart_at(&c, [0, 64].into_iter(), cases);
}

/// The opening of a set on a matrix, with shares that some vector gives.
fn opened(r: &mut Random, s: Params, m: &[u16], set: u32) -> Case {
    let v = r.elements(s.p, s.d());
    let shares = (0..32).filter(|i| set >> i & 1 == 1).map(|i| pair_value(s, m, &v, i).values.first().copied().unwrap_or(0)).collect();
    let mut c = Case { call: 11, numbers: setup_numbers(s), words: vec![m.to_vec(), shares, r.noise(s.l as usize)], bytes: vec![] };
    c.choose(set);
    c
}

/// Openings: by every set of four holders, at the first and last rounds and with rounds that differ at each place, so that 19 stands beside 0, 6 and 7; then
/// beside 1 to 5; the largest sizes; p 2, where most rounds are no element.
fn openings(r: &mut Random, cases: &mut Vec<Case>) {
    for (at, p) in PRIMES.into_iter().enumerate() {
        let s = params(p, 2, 1, 4);
        // those of holders 0 and 1 determine both positions, a third row is their sum
        let m = [1, 0, 0, 0, 1, 0, 0, 0, 1, 1, 1, 0];
        for set in 0..16u32 {
            let c = opened(r, s, &m, set);
            cases.push(at_round(&c, ROUNDS[(set as usize + at) % 4]));
            apart_at(&c, 0..if set.count_ones() > 1 { set.count_ones() as usize } else { 0 }, cases);
        }
        let all = opened(r, s, &m, 15);
        let mut lying = all.clone();
        next(p, &mut lying.words[1], 3);
        cases.extend([at_round(&lying, 9), apart(&lying, 9, 0, 8), apart(&lying, 9, 3, 10)]);
        for rounds in [[0, 1, 2, 3], [5, 5, 6, 6], [5, 6, 5, 6], [9, 8, 8, 9]] {
            let mut c = at_round(&all, 0);
            c.words[2] = rounds.to_vec();
            cases.push(c);
        }
        near_rounds(&all, cases);
        near_rounds(&opened(r, s, &m, 1), cases);
        near_rounds(&opened(r, s, &m, 0), cases);
        // 19 beside 1 to 5
        for number in 1..6 {
            let mut c = all.clone();
            fault(&mut c, number);
            let last = c.words[1].len() - 1;
            cases.push(at_round(&c, 1));
            cases.push(apart(&c, 1, 0, 2));
            cases.push(apart(&c, 1, last, 2));
        }
    }
    for p in [2, 257, 65521] {
        let s = params(p, 8, 8, 32);
        let m = matrix(r, s, POINTS);
        for set in [u32::MAX, 0xFFFF, 0xAAAAAAAA, 0x7FFF] {
            let c = opened(r, s, &m, set);
            cases.push(at_round(&c, r.round()));
            let count = set.count_ones() as usize;
            apart_at(&c, [0, 1, count / 2, count - 1].into_iter(), cases);
        }
    }
}

/// Keys: columns at one round and at different ones, one share of a column at another, every holder at its own; 19 beside 3 to 7 and 16.
fn keys(r: &mut Random, cases: &mut Vec<Case>) {
    let columns = |c: &Case, rounds: [u16; 4]| {
        let mut next = rounds.into_iter().cycle();
        with_rounds(c.clone(), |count| vec![next.next().unwrap(); count])
    };
    for set in [SEVEN, EIGHT, 0xFFFF, SIX] {
        let c = opening(r, set);
        let count = set.count_ones() as usize;
        cases.extend(ROUNDS.map(|round| at_round(&c, round)));
        for rounds in [[0, 1, 65534, 65535], [5, 5, 5, 6], [6, 5, 5, 5], [5, 6, 5, 5], [1, 1, 2, 2], [1, 2, 1, 2]] {
            cases.push(columns(&c, rounds));
        }
        // each share of each column at another round, the four columns at one round or at different ones
        for place in (0..4 * count).filter(|place| count < 9 || place % 3 == 0) {
            let mut c = if place % 2 == 0 { at_round(&c, ROUNDS[place / 2 % 4]) } else { columns(&c, ROUNDS) };
            c.words[1][place] = others(c.words[1][place])[place % 3];
            cases.push(c);
        }
        // as many rounds, but those of a column in the places of another's
        let mut shifted = columns(&c, [1, 2, 3, 4]);
        shifted.words[1].rotate_left(1);
        let mut by_holder = at_round(&c, 0);
        by_holder.words[1] = (0..4 * count).map(|k| (k % count) as u16).collect();
        let mut by_fours = at_round(&c, 0);
        by_fours.words[1] = (0..4 * count).map(|k| (k % 4) as u16).collect();
        cases.extend([shifted, by_holder, by_fours]);
        near_rounds(&c, cases);
        for size in [count, 3 * count, 5 * count, 4 * count + 4] {
            let mut c = at_round(&c, 2);
            c.words[1].resize(size, 2);
            cases.push(c);
        }
    }
    // the empty set: no rounds, and some; one member
    near_rounds(&opening(r, 0), cases);
    for set in [0, 1] {
        let c = opening(r, set);
        cases.extend([at_round(&c, 65535), columns(&c, ROUNDS)]);
    }
    // 19 beside every other refusal, in the first column or the last
    for number in [3, 4, 5, 6, 7, 16] {
        for last in [false, true] {
            let mut c = opening(r, EIGHT);
            key_fault(r, &mut c, number);
            cases.push(at_round(&c, 1));
            let place = if last { c.words[0].len() - 1 } else { 0 };
            cases.push(apart(&c, 1, place, 2));
        }
    }
}

/// Refreshes over every field: shares and zero shares at their limits, rounds at theirs; 18 beside 1 and 4.
fn refreshes(cases: &mut Vec<Case>) {
    let mut push = |p, share, round, zero| cases.push(Case { call: REFRESH, numbers: [p, 0, 0, 0, share, round, zero, 0, 0], words: vec![], bytes: vec![] });
    for p in PRIMES {
        let limits = distinct(vec![0, 1, p / 2, p - 1, p, 65535]);
        for (k, &share) in limits.iter().enumerate() {
            for (i, &zero) in limits.iter().enumerate() {
                push(p, share, ROUNDS[(k + i) % 4], zero);
                push(p, share, 3, zero);
            }
        }
        for round in [0, 1, 2, 255, 256, 32767, 32768, 65533, 65534, 65535] {
            push(p, 1 % p, round, p - 1);
        }
    }
    for p in [0, 3, 65520, 65535] {
        for (share, round, zero) in [(0, 0, 0), (0, 65535, 0), (65535, 65535, 0), (0, 65535, 65535)] {
            push(p, share, round, zero);
        }
    }
}

/// One dealing refreshed twice, each time by a zero dealing of its own, over every field: every holder's refreshes, the openings at each round, and shares of
/// two rounds opened together, by the rounds that they have and by one that they do not have.
fn refreshed(r: &mut Random, cases: &mut Vec<Case>) {
    for p in PRIMES {
        let s = params(p, 2, 1, 4);
        let m = matrix(r, s, POINTS);
        let (mut gs, mut hs) = (vec![0; 12], vec![0; 12]);
        deal_all(s, &m, &r.elements(p, 4), &r.elements(p, 5), &mut gs, &mut hs);
        let b = r.below(2);
        let mut shares = vec![(0..4).map(|i| gs[3 * i + b]).collect::<Vec<u16>>()];
        let first = r.one(&[0, 7, 65533]);
        for next in [1, 2] {
            let (mut gs, mut hs) = (vec![0; 12], vec![0; 4]);
            deal_zero_all(s, &m, &r.elements(p, 3), &mut gs, &mut hs);
            let old = &shares[next as usize - 1];
            let new = (0..4)
                .map(|i| {
                    let numbers = [p, 0, 0, 0, old[i], first + next - 1, gs[3 * i + b], 0, 0];
                    let c = Case { call: REFRESH, numbers, words: vec![], bytes: vec![] };
                    cases.push(c.clone());
                    c.run().places[0]
                })
                .collect();
            shares.push(new);
        }
        let mut open = |set: u32, all: &[(u16, u16)]| {
            let words = vec![m.clone(), all.iter().map(|x| x.0).collect(), all.iter().map(|x| x.1).collect(), r.noise(2)];
            let mut c = Case { call: 11, numbers: setup_numbers(s), words, bytes: vec![] };
            c.choose(set);
            cases.push(c);
        };
        let slip = |k: usize, i: usize| (shares[k][i], first + k as u16);
        for k in 0..3 {
            open(15, &(0..4).map(|i| slip(k, i)).collect::<Vec<_>>());
            open(7, &(0..3).map(|i| slip(k, i)).collect::<Vec<_>>());
        }
        for old in 0..4 {
            let mixed: Vec<(u16, u16)> = (0..4).map(|i| slip(if i == old { 0 } else { 1 }, i)).collect();
            open(15, &mixed);
            open(15, &mixed.iter().map(|x| (x.0, first + 1)).collect::<Vec<_>>());
        }
    }
}

/// SH: rounds from first to last, written and read; without a round, and with half of one; bytes behind; the buffer's length.
fn shares(r: &mut Random, cases: &mut Vec<Case>) {
    for s in [params(257, 2, 1, 3), params(2, 1, 1, 1), params(65521, 8, 8, 32)] {
        let mut record = Draw::with(r, s, POINTS).record(SH);
        record.push(0);
        for round in [0, 1, 2, 3, 255, 256, 257, 65521, 65534, 65535] {
            record[5] = round;
            both(r, s, &record, cases);
        }
        both(r, s, &[SH, 0, s.n - 1, 0, s.p - 1, 65535], cases);
        both(r, s, &[SH, 65535, s.n - 1, s.l - 1, s.p - 1, 65535], cases);
        for (k, past) in [(2, s.n), (3, s.l), (4, s.p)] {
            let mut record = vec![SH, 1, 0, 0, 0, 0];
            record[k] = past;
            both(r, s, &record, cases);
        }
        both(r, s, &[SH, 0, 0, 1, 0, 1], cases);
        let whole = reading(s, 23, &record, r);
        for size in 8..13 {
            cases.push(Case { bytes: whole.bytes[..size].to_vec(), ..whole.clone() });
        }
        for k in 1..4 {
            cases.push(Case { bytes: [&whole.bytes[..], &whole.bytes[..k]].concat(), ..whole.clone() });
        }
        near_lengths(&writing(s, &record, r), cases);
        let mut short = writing(s, &record, r);
        short.bytes.truncate(10);
        cases.push(short);
    }
}

/// The next element in place k.
fn next(p: u16, xs: &mut [u16], k: usize) {
    xs[k] = (xs[k] + 1) % p;
}

pub fn cases(r: &mut Random) -> Vec<Case> {
    let mut cases = vec![];
    combinations(r, &mut cases);
    openings(r, &mut cases);
    keys(r, &mut cases);
    refreshes(&mut cases);
    refreshed(r, &mut cases);
    shares(r, &mut cases);
    cases
}
