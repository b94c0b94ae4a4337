//! The cases and files of zero dealings (document 02, A8): every refusal of their calls and of the refresh, each limit and one past it, every way in which a
//! judgement can fail, and files with a DZ, a DL, a DF or a PF at every place.

use crate::cases::*;
use crate::draw::*;
use crate::edges::*;
use crate::files::example;
use crate::maps;
use crate::maps::{at_each_place, next};
use reference::*;

/// Every call in order over every field, small and largest; then p, ℓ, e and n beyond their limits.
fn sizes(r: &mut Random, cases: &mut Vec<Case>) {
    for call in ZEROS {
        for (k, p) in PRIMES.into_iter().enumerate() {
            for at in [k, k + 1] {
                let (l, e, n) = [(1, 1, 1), (8, 1, 2), (1, 8, 3)][at % 3];
                cases.push(sound(r, call, params(p, l, e, n)));
            }
        }
        for p in [65521, PRIMES[call as usize % 4]] {
            cases.push(sound(r, call, params(p, 8, 8, 32)));
        }
        for p in [0, 3, 65535] {
            cases.push(blank(call, params(p, 1, 1, 1)));
        }
        for (l, e, n) in [(0, 1, 1), (9, 1, 1), (1, 0, 1), (1, 9, 1), (1, 1, 0), (1, 1, 33), (8, 8, 33)] {
            cases.push(blank(call, params(65521, l, e, n)));
        }
    }
}

/// Every list of field elements with p − 1 throughout, and with p at its first or last place.
fn elements(r: &mut Random, cases: &mut Vec<Case>) {
    for call in ZEROS.filter(|&call| call != REFRESH) {
        for (at, p) in PRIMES.into_iter().enumerate() {
            let c = sound(r, call, params(p, 1, 2, 2));
            let mut all = c.clone();
            c.of().elements.iter().for_each(|&k| all.words[k].fill(p - 1));
            cases.push(all);
            for &k in c.of().elements {
                let mut c = c.clone();
                let last = c.words[k].len() - 1;
                c.words[k][if (at + k) % 2 == 0 { 0 } else { last }] = p;
                cases.push(c);
            }
        }
    }
}

/// The lengths of all that is lent, h of d entries too; the holder at its limits and past them; every two refusals together.
fn limits(r: &mut Random, cases: &mut Vec<Case>) {
    for call in ZEROS {
        let c = sound(r, call, params(257, 3, 2, 4));
        near_lengths(&c, cases);
        let h = [(DEAL_ZERO, 3, 5), (DEAL_ZERO_ALL, 3, 20), (JUDGE_ZERO, 1, 5), (WRITE_DZ, 1, 5), (READ_DZ, 1, 5)];
        if let Some((_, k, size)) = h.into_iter().find(|x| x.0 == call) {
            let mut c = c.clone();
            c.words[k].resize(size, 0);
            cases.push(c);
        }
        priorities_of(&sound(r, call, params(7, 1, 1, 3)), cases);
    }
    for s in [params(7, 1, 1, 3), params(251, 2, 3, 32), params(65521, 8, 1, 1)] {
        for x in [0, s.n - 1, s.n, s.n + 1, 65535] {
            let mut c = sound(r, DEAL_ZERO, s);
            c.numbers[4] = x;
            cases.push(c);
        }
    }
}

/// DZ: every field at its limits and past them, written and read; cut at every byte, with bytes behind, under other marks.
fn records(r: &mut Random, cases: &mut Vec<Case>) {
    let s = params(257, 1, 2, 3);
    let record = Draw::with(r, s, POINTS).record(DZ);
    for k in 1..record.len() {
        let wanted: &[u16] = if k > 2 { &[s.p - 1, s.p] } else { &[0, 1, s.n - 1, s.n, s.p - 1, s.p, 65535] };
        for &w in wanted {
            let mut changed = record.clone();
            changed[k] = w;
            both(r, s, &changed, cases);
        }
    }
    cut_and_marked(r, s, READ_DZ, &[SU, DL, PV, VD, SH, DF, PF, DZ], cases);
    // it is the mark of no other record
    for call in (18..24).chain([READ_DF, READ_PF]) {
        let mut c = with_rounds(sound(r, call, s), |count| vec![1; count]);
        put(&mut c.bytes, 0, DZ);
        cases.push(c);
    }
    // the last holder of the largest sizes, and one past it
    let s = params(251, 8, 8, 32);
    for i in [31, 32] {
        let mut part = Draw::with(r, s, POINTS).record(DZ);
        part[2] = i;
        both(r, s, &part, cases);
    }
    // elements over every field, first and last
    for p in PRIMES {
        let s = params(p, 2, 1, 2);
        let record = Draw::with(r, s, POINTS).record(DZ);
        for k in [3, record.len() - 1] {
            for w in [p - 1, p] {
                let mut changed = record.clone();
                changed[k] = w;
                both(r, s, &changed, cases);
            }
        }
    }
}

/// What a holder has received, right, and with something wrong in it: a value, two values, an entry of h.
fn spoilt(s: Params, right: &ReceivedZero) -> Vec<ReceivedZero> {
    const H: usize = 1;
    const VALUES: usize = 2;
    let wrong = |at: &[(usize, usize)]| {
        let mut x = right.clone();
        at.iter().for_each(|&(list, k)| next(s.p, &mut x.judged[list], k));
        x
    };
    let n = s.n as usize;
    let mut all = vec![right.clone()];
    for j in 0..n {
        all.push(wrong(&[(VALUES, j)]));
        all.extend((j + 1..n).map(|k| wrong(&[(VALUES, j), (VALUES, k)])));
    }
    all.extend((0..s.e as usize).map(|k| wrong(&[(H, k)])));
    all
}

/// Judgements of all that can be wrong, over every field; the own pair is among the values. Then of a dealing whose columns are not zeros.
fn judgements(r: &mut Random, cases: &mut Vec<Case>) {
    for (at, p) in PRIMES.into_iter().enumerate() {
        for (l, e) in [(2, 1), (1, 2)] {
            let s = params(p, l, e, 3);
            let mut draw = Draw::with(r, s, if at % 2 == 0 { POINTS } else { ARBITRARY });
            let dealing = draw.zero();
            let right = draw.received_zero(&dealing, at % 3);
            cases.extend(spoilt(s, &right).iter().map(|x| x.case(s)));
        }
        let s = params(p, 2, 2, 3);
        let m = matrix(r, s, POINTS);
        let (mut gs, mut hs) = ([0; 12], [0; 12]);
        deal_all(s, &m, &[0, 0, 0, 1], &r.elements(p, 12), &mut gs, &mut hs);
        for i in 0..3 {
            let values = (0..3).map(|j| pair_value(s, &m, &gs[4 * j..4 * j + 4], i as u16).values[0]).collect();
            let words = vec![m.clone(), hs[4 * i + 2..4 * i + 4].to_vec(), values];
            cases.push(Case { call: JUDGE_ZERO, numbers: setup_numbers(s), words, bytes: vec![] });
        }
    }
}

/// One zero dealing dealt to all and to each, with more zero rows than random ones and with fewer.
fn dealt(r: &mut Random, cases: &mut Vec<Case>) {
    for p in PRIMES {
        for (l, e) in [(2, 1), (1, 3)] {
            let s = params(p, l, e, 3);
            let m = matrix(r, s, POINTS);
            let random = r.elements(p, s.e as usize * s.d());
            let mut push = |call, holder, gs, hs| {
                let mut numbers = setup_numbers(s);
                numbers[4] = holder;
                let words = vec![m.clone(), random.clone(), r.noise(gs), r.noise(hs)];
                cases.push(Case { call, numbers, words, bytes: vec![] });
            };
            push(DEAL_ZERO_ALL, 0, s.entries(), 3 * s.e as usize);
            (0..3).for_each(|i| push(DEAL_ZERO, i, s.d(), s.e as usize));
        }
    }
}

/// A zero dealing's file whose holder keeps the rules and every other accepts, by records.
fn kept(draw: &Draw, s: Params, x: &ReceivedZero) -> Vec<Vec<u16>> {
    let mut verdicts = vec![1; s.n as usize];
    verdicts[x.holder as usize] = x.verdict(s);
    draw.zero_records_of(1, x, &verdicts)
}

/// The file by records that the ones below change: p 7, ℓ 2, e 1, n holders, of the last holder but one or of the only one.
fn whole(r: &mut Random, n: u16) -> Vec<Vec<u16>> {
    let s = params(7, 2, 1, n);
    let mut draw = Draw::with(r, s, POINTS);
    let dealing = draw.zero();
    kept(&draw, s, &draw.received_zero(&dealing, n.saturating_sub(2) as usize))
}

/// Sound files over every field, and the largest. Then every judgement: by the own verdict and against it, with another holder rejecting.
fn sound_files(r: &mut Random) -> Vec<Vec<Vec<u16>>> {
    let mut files = vec![];
    let mut sizes: Vec<Params> = PRIMES.iter().flat_map(|&p| [(1, 1, 1), (2, 1, 3), (8, 1, 2), (1, 8, 3)].map(|(l, e, n)| params(p, l, e, n))).collect();
    sizes.push(params(65521, 8, 8, 32));
    for s in sizes {
        let mut draw = Draw::with(r, s, POINTS);
        let dealing = draw.zero();
        files.push(kept(&draw, s, &draw.received_zero(&dealing, s.n as usize / 2)));
    }
    let s = params(7, 1, 2, 3);
    let mut draw = Draw::with(r, s, POINTS);
    let dealing = draw.zero();
    let right = draw.received_zero(&dealing, 1);
    for (k, x) in spoilt(s, &right).iter().enumerate() {
        let own = x.verdict(s);
        let other = [[1, 0], [0, 1], [1, 1]][k % 3];
        for verdicts in [[1, own, 1], [1, 1 - own, 1], [other[0], own, other[1]]] {
            files.push(draw.zero_records_of(1, x, &verdicts));
        }
    }
    files
}

/// Files with a record where it has no place: SU, DL, DF, PF, DZ and SH at each place of a zero dealing's, a DZ at each place of a dealing's with a DF and
/// without; a record of a zero dealing's file in the place of each other, each gone, last, and there twice.
fn out_of_place(r: &mut Random) -> Vec<Vec<Vec<u16>>> {
    let (file, mapped) = (whole(r, 3), maps::whole(r, 3));
    let plain: Vec<Vec<u16>> = mapped.iter().filter(|x| x[0] != DF && x[0] != PF).cloned().collect();
    let mut files = vec![];
    for record in [&file[0], &mapped[1], &mapped[2], &mapped[6], &file[1], &vec![SH, 1, 1, 0, 2, 0]] {
        files.extend(at_each_place(&file, record));
    }
    for other in [&plain, &mapped] {
        files.extend(at_each_place(other, &file[1]));
    }
    for at in 2..file.len() {
        for from in (2..file.len()).filter(|&from| from != at) {
            let mut other = file.clone();
            other[at] = file[from].clone();
            files.push(other);
        }
    }
    for at in 0..file.len() {
        let mut gone = file.clone();
        let record = gone.remove(at);
        files.push(gone.clone());
        gone.push(record.clone());
        files.push(gone);
        files.push([&file[..], &[record]].concat());
    }
    // an h of d entries under a DZ, one of e under a DL
    let mut long = file.clone();
    long[1] = mapped[1].clone();
    long[1][0] = DZ;
    let mut short = plain.clone();
    short[1] = file[1].clone();
    short[1][0] = DL;
    files.extend([long, short]);
    files
}

/// Files with a fault in the DZ or behind it: each number at its limits, each element at p − 1 and at p; then every choice of faults together.
fn faults(r: &mut Random) -> Vec<Vec<Vec<u16>>> {
    let file = whole(r, 3);
    let mut files = vec![];
    let mut put = |at: usize, record: Vec<u16>| {
        let mut other = file.clone();
        other[at] = record;
        files.push(other);
    };
    for at in [1, 3, 6] {
        for k in 1..file[at].len() {
            let wanted: &[u16] = if at == 1 && k > 2 { &[6, 7] } else { &[0, 1, 2, 3, 6, 7, 65535] };
            for &w in wanted {
                let mut record = file[at].clone();
                record[k] = w;
                put(at, record);
            }
        }
    }
    let last = file[1].len() - 1;
    for [dealing, holder, element] in [0, 2].map(|x| [1, 0, 3].map(|y| [file[1][last], 7].map(|z| [x, y, z]))).concat().concat() {
        let mut record = file[1].clone();
        (record[1], record[2], record[last]) = (dealing, holder, element);
        put(1, record);
    }
    for sender in 0..4 {
        for [dealing, receiver, value] in [1, 2].map(|x| [1, 0].map(|y| [file[3][4], 7].map(|z| [x, y, z]))).concat().concat() {
            put(3, vec![PV, dealing, sender, receiver, value]);
        }
    }
    files
}

/// The files with a DZ.
pub fn files(r: &mut Random) -> Vec<Vec<u8>> {
    let mut files: Vec<Vec<u8>> = [sound_files(r), out_of_place(r), faults(r)].concat().iter().map(|records| bytes(&records.concat())).collect();
    let one = bytes(&whole(r, 1).concat());
    files.extend((0..one.len()).map(|k| one[..k].to_vec()));
    // a mark alone behind a whole file, and in the second record's place
    let three = whole(r, 3);
    files.push(bytes(&[&example()[..], &[DZ]].concat()));
    for mark in [SU, DL, DF, PF, PV, VD, SH, DZ] {
        files.push(bytes(&[&three.concat()[..], &[mark]].concat()));
        files.push(bytes(&[&three[..2].concat()[..], &[mark]].concat()));
    }
    let drawn = files.len() + 60;
    while files.len() < drawn {
        let c = with_zeros(r);
        if c.bytes.len() < 600 {
            files.push(c.bytes);
        }
    }
    files
}

/// Some of these files printed and read.
fn some_files(r: &mut Random, cases: &mut Vec<Case>) {
    for (_, file) in files(r).iter().enumerate().filter(|(k, _)| k % 6 == 0) {
        cases.push(Case { call: FILE, numbers: [0; 9], words: vec![], bytes: file.clone() });
        let lent = (0..CONTENTS).map(|_| 1 + r.below(65535) as u16).collect();
        cases.push(Case { call: READ_FILE, numbers: [0; 9], words: vec![lent], bytes: file.clone() });
    }
}

pub fn cases(r: &mut Random) -> Vec<Case> {
    let mut cases = vec![];
    sizes(r, &mut cases);
    elements(r, &mut cases);
    limits(r, &mut cases);
    records(r, &mut cases);
    judgements(r, &mut cases);
    dealt(r, &mut cases);
    some_files(r, &mut cases);
    cases
}
