//! The cases and files of two dealings tied by a map (document 02, A7): every refusal of its calls, each limit and one past it, every way in which a
//! judgement with a map can fail, and files with a DF or a PF at every place.

use crate::cases::*;
use crate::draw::*;
use crate::edges::*;
use crate::files::example;
use reference::*;

/// Every call in order over every field, small and largest; then p, ℓ, e and n beyond their limits.
fn sizes(r: &mut Random, cases: &mut Vec<Case>) {
    for call in MAPPED {
        for (k, p) in PRIMES.into_iter().enumerate() {
            for at in [k, k + 1] {
                let (l, e, n) = [(1, 1, 1), (8, 1, 2), (1, 8, 3)][at % 3];
                cases.push(sound(r, call, params(p, l, e, n)));
            }
        }
        for p in [65521, PRIMES[call as usize % 4]] {
            cases.push(sound(r, call, params(p, 8, 8, 32)));
        }
        for p in [0, 3, 65535] {
            cases.push(blank(call, params(p, 1, 1, 1)));
        }
        for (l, e, n) in [(0, 1, 1), (9, 1, 1), (1, 0, 1), (1, 9, 1), (1, 1, 0), (1, 1, 33), (8, 8, 33)] {
            cases.push(blank(call, params(65521, l, e, n)));
        }
    }
}

/// Every list of field elements with p − 1 throughout, and with p at its first or last place.
fn elements(r: &mut Random, cases: &mut Vec<Case>) {
    for call in MAPPED {
        for (at, p) in PRIMES.into_iter().enumerate() {
            let c = sound(r, call, params(p, 2, 1, 2));
            let mut all = c.clone();
            c.of().elements.iter().for_each(|&k| all.words[k].fill(p - 1));
            if !c.of().elements.is_empty() {
                cases.push(all);
            }
            for &k in c.of().elements {
                let mut c = c.clone();
                let last = c.words[k].len() - 1;
                c.words[k][if (at + k) % 2 == 0 { 0 } else { last }] = p;
                cases.push(c);
            }
        }
    }
}

/// The lengths of all that is lent, the holder at its limits and past them, every two refusals together.
fn limits(r: &mut Random, cases: &mut Vec<Case>) {
    for call in MAPPED {
        near_lengths(&sound(r, call, params(257, 3, 2, 4)), cases);
        priorities_of(&sound(r, call, params(7, 1, 1, 3)), cases);
    }
    for s in [params(7, 1, 1, 3), params(251, 2, 3, 32), params(65521, 8, 1, 1)] {
        for x in [0, s.n - 1, s.n, s.n + 1, 65535] {
            let mut c = sound(r, DEAL_MAPPED, s);
            c.numbers[4] = x;
            cases.push(c);
        }
    }
}

/// DF and PF: every field at its limits and past them, written and read; cut at every byte, with bytes behind, under other marks.
fn records(r: &mut Random, cases: &mut Vec<Case>) {
    let s = params(257, 2, 1, 3);
    for mark in [DF, PF] {
        let record = Draw::with(r, s, POINTS).record(mark);
        for k in 1..record.len() {
            let wanted: &[u16] = if mark == DF && k > 2 { &[s.p - 1, s.p] } else { &[0, 1, s.n - 1, s.n, s.p - 1, s.p, 65535] };
            for &w in wanted {
                let mut changed = record.clone();
                changed[k] = w;
                both(r, s, &changed, cases);
            }
        }
    }
    for call in [READ_DF, READ_PF] {
        cut_and_marked(r, s, call, &[SU, DL, PV, VD, SH, DF, PF], cases);
    }
    // neither mark is that of another record
    for call in 18..24 {
        for mark in [DF, PF] {
            let mut c = sound(r, call, s);
            put(&mut c.bytes, 0, mark);
            cases.push(c);
        }
    }
    // the last holder of the largest sizes, and one past it
    let s = params(251, 8, 8, 32);
    for i in [31, 32] {
        let mut part = Draw::with(r, s, POINTS).record(DF);
        part[2] = i;
        for record in [part, vec![PF, 1, i, 0, 5], vec![PF, 1, 0, i, 5]] {
            both(r, s, &record, cases);
        }
    }
    // elements over every field, first and last
    for p in PRIMES {
        let s = params(p, 2, 1, 2);
        let (part, value) = (Draw::with(r, s, POINTS).record(DF), Draw::with(r, s, POINTS).record(PF));
        for (record, k) in [(&part, 3), (&part, part.len() - 1), (&value, 4)] {
            for w in [p - 1, p] {
                let mut changed = record.clone();
                changed[k] = w;
                both(r, s, &changed, cases);
            }
        }
    }
}

/// A map of two positions that is not its transpose, and its transpose.
fn turned(p: u16) -> [Vec<u16>; 2] {
    [vec![1, p - 1, 0, 1], vec![1, 0, p - 1, 1]]
}

/// The next element in place k.
pub fn next(p: u16, xs: &mut [u16], k: usize) {
    xs[k] = (xs[k] + 1) % p;
}

/// What a holder has received, right, and with something wrong in it: a value of the first dealing, of the second, of both at different senders; the map
/// at each position by the first h or by the second, alone and beside a value. Last with another entry of the second h behind the map, which is no fault.
fn spoilt(draw: &Draw, s: Params, right: &Received) -> Vec<Received> {
    const H: usize = 1;
    const VALUES: usize = 2;
    const H2: usize = 4;
    const VALUES2: usize = 5;
    let (n, l) = (s.n as usize, s.l as usize);
    let wrong = |x: &Received, at: &[(usize, usize)]| {
        let mut x = x.clone();
        at.iter().for_each(|&(list, k)| next(s.p, &mut x.judged[list], k));
        x
    };
    // another h, and the values that agree with it, which stand behind it
    let another = |h: usize, k: usize| {
        let mut x = wrong(right, &[(h, k)]);
        x.judged[h + 1] = draw.agreeing(&x.judged[h]);
        x
    };
    let mut all = vec![right.clone()];
    for j in 0..n {
        all.extend([wrong(right, &[(VALUES, j)]), wrong(right, &[(VALUES2, j)])]);
        all.extend((0..n).filter(|&k| k != j).map(|k| wrong(right, &[(VALUES, j), (VALUES2, k)])));
    }
    for k in 0..l {
        all.extend([another(H, k), another(H2, k)]);
        all.extend((0..n).map(|j| wrong(&another(H2, k), &[(if (j + k) % 2 == 0 { VALUES } else { VALUES2 }, j)])));
    }
    all.push(another(H2, l));
    all
}

/// Judgements of all that can be wrong, over every field; the own pair is among the values.
fn judgements(r: &mut Random, cases: &mut Vec<Case>) {
    for (at, p) in PRIMES.into_iter().enumerate() {
        let s = params(p, 2, 1, 3);
        let mut draw = Draw::with(r, s, POINTS);
        let dealing = draw.mapped(&turned(p)[0]);
        let right = draw.received(&dealing, at % 3);
        cases.extend(spoilt(&draw, s, &right).iter().map(|x| x.case(s)));
    }
}

/// Maps of every kind, dealt to all and to one, and judged: 0, the identity, one that is not its transpose, any; then judged under another map.
fn maps(r: &mut Random, cases: &mut Vec<Case>) {
    for p in PRIMES {
        let s = params(p, 2, 2, 3);
        let any = r.elements(p, 4);
        let [phi, transpose] = turned(p);
        for (phi, under) in [(&vec![0; 4], &phi), (&vec![1, 0, 0, 1], &transpose), (&phi, &transpose), (&any, &phi)] {
            let mut draw = Draw::with(r, s, POINTS);
            let dealing = draw.mapped(phi);
            let mut x = draw.received(&dealing, 1);
            for (call, holder, size) in [(DEAL_MAPPED_ALL, 0, s.entries()), (DEAL_MAPPED, 2, s.d())] {
                let mut words = dealing.from.clone();
                words.extend((0..4).map(|_| r.noise(size)));
                cases.push(Case { call, numbers: [p, 2, 2, 3, holder, 0, 0, 0, 0], words, bytes: vec![] });
            }
            cases.push(x.case(s));
            x.judged[3] = under.clone();
            cases.push(x.case(s));
        }
    }
}

/// A file with a DF whose holder keeps the rules and every other accepts, by records.
fn kept(draw: &Draw, s: Params, x: &Received) -> Vec<Vec<u16>> {
    let mut verdicts = vec![1; s.n as usize];
    verdicts[x.holder as usize] = x.verdict(s);
    draw.records_of(1, x, &verdicts)
}

/// The file by records that the ones below change: p 7, ℓ 2, e 1, n holders, of the last holder but one or of the only one.
pub fn whole(r: &mut Random, n: u16) -> Vec<Vec<u16>> {
    let s = params(7, 2, 1, n);
    let mut draw = Draw::with(r, s, POINTS);
    let dealing = draw.mapped(&turned(7)[0]);
    kept(&draw, s, &draw.received(&dealing, n.saturating_sub(2) as usize))
}

/// Sound files over every field. Then every judgement: by the own verdict and against it, with another holder rejecting.
fn sound_files(r: &mut Random) -> Vec<Vec<Vec<u16>>> {
    let mut files = vec![];
    for p in PRIMES {
        for (l, e, n) in [(1, 1, 1), (2, 1, 3), (8, 1, 2), (1, 8, 3)] {
            let s = params(p, l, e, n);
            let mut draw = Draw::with(r, s, POINTS);
            let phi = draw.map();
            let dealing = draw.mapped(&phi);
            files.push(kept(&draw, s, &draw.received(&dealing, n as usize / 2)));
        }
    }
    let s = params(7, 2, 1, 3);
    let mut draw = Draw::with(r, s, POINTS);
    let dealing = draw.mapped(&turned(7)[0]);
    let right = draw.received(&dealing, 1);
    for (k, x) in spoilt(&draw, s, &right).iter().enumerate() {
        let own = x.verdict(s);
        let other = [[1, 0], [0, 1], [1, 1]][k % 3];
        for verdicts in [[1, own, 1], [1, 1 - own, 1], [other[0], own, other[1]]] {
            files.push(draw.records_of(1, x, &verdicts));
        }
    }
    files
}

/// A record at each place of a file: put in, the last time behind all, and in the place of the one that stands there.
pub fn at_each_place(file: &[Vec<u16>], record: &[u16]) -> Vec<Vec<Vec<u16>>> {
    let mut files = vec![];
    for at in 0..=file.len() {
        let mut more = file.to_vec();
        more.insert(at, record.to_vec());
        files.push(more);
        if at < file.len() {
            let mut other = file.to_vec();
            other[at] = record.to_vec();
            files.push(other);
        }
    }
    files
}

/// Files with a record where it has no place: a DF and a PF at each place with a DF and without, one record behind the DF in the place of each other, each
/// record gone, last, and there twice.
fn out_of_place(r: &mut Random) -> Vec<Vec<Vec<u16>>> {
    let file = whole(r, 3);
    let mut files = vec![];
    let without: Vec<Vec<u16>> = file.iter().filter(|x| x[0] != DF && x[0] != PF).cloned().collect();
    for record in [&file[2], &file[6]] {
        files.extend(at_each_place(&file, record));
        files.extend(at_each_place(&without, record));
    }
    for at in 3..file.len() {
        for from in (3..file.len()).filter(|&from| from != at) {
            let mut other = file.clone();
            other[at] = file[from].clone();
            files.push(other);
        }
    }
    for at in 0..file.len() {
        let mut gone = file.clone();
        let record = gone.remove(at);
        files.push(gone.clone());
        gone.push(record.clone());
        files.push(gone);
        files.push([&file[..], &[record]].concat());
    }
    files
}

/// Files with a fault in the DF or in a PF: each number at its limits, each element at p − 1 and at p; then every choice of faults together.
fn faults(r: &mut Random) -> Vec<Vec<Vec<u16>>> {
    let file = whole(r, 3);
    let mut files = vec![];
    let mut put = |at: usize, record: Vec<u16>| {
        let mut other = file.clone();
        other[at] = record;
        files.push(other);
    };
    for at in [2, 7] {
        for k in 1..file[at].len() {
            let wanted: &[u16] = if at == 2 && k > 2 { &[6, 7] } else { &[0, 1, 2, 3, 6, 7, 65535] };
            for &w in wanted {
                let mut record = file[at].clone();
                record[k] = w;
                put(at, record);
            }
        }
    }
    let last = file[2].len() - 1;
    for [dealing, holder, element] in [1, 2].map(|x| [1, 0, 3].map(|y| [file[2][last], 7].map(|z| [x, y, z]))).concat().concat() {
        let mut record = file[2].clone();
        (record[1], record[2], record[last]) = (dealing, holder, element);
        put(2, record);
    }
    for sender in 0..4 {
        for [dealing, receiver, value] in [1, 2].map(|x| [1, 0].map(|y| [file[6][4], 7].map(|z| [x, y, z]))).concat().concat() {
            put(6, vec![PF, dealing, sender, receiver, value]);
        }
    }
    files
}

/// The files with a DF, and those with a DF or a PF where they have no place.
pub fn files(r: &mut Random) -> Vec<Vec<u8>> {
    let mut files: Vec<Vec<u8>> = [sound_files(r), out_of_place(r), faults(r)].concat().iter().map(|records| bytes(&records.concat())).collect();
    let one = bytes(&whole(r, 1).concat());
    files.extend((0..one.len()).map(|k| one[..k].to_vec()));
    // a DF or a PF behind the example, by its mark alone
    files.extend([DF, PF].map(|mark| bytes(&[&example()[..], &[mark]].concat())));
    let drawn = files.len() + 60;
    while files.len() < drawn {
        let c = with_second(r);
        if c.bytes.len() < 600 {
            files.push(c.bytes);
        }
    }
    files
}

/// Some of these files printed and read; the lengths of the numbers lent.
fn some_files(r: &mut Random, cases: &mut Vec<Case>) {
    let files = files(r);
    for (k, file) in files.iter().enumerate().filter(|(k, _)| k % 8 == 0) {
        cases.push(Case { call: FILE, numbers: [0; 9], words: vec![], bytes: file.clone() });
        let size = if k % 80 == 0 { [18, 26, 28][k / 80 % 3] } else { CONTENTS };
        for size in distinct(vec![size, CONTENTS]) {
            let lent = (0..size).map(|_| 1 + r.below(65535) as u16).collect();
            cases.push(Case { call: READ_FILE, numbers: [0; 9], words: vec![lent], bytes: file.clone() });
        }
    }
}

pub fn cases(r: &mut Random) -> Vec<Case> {
    let mut cases = vec![];
    sizes(r, &mut cases);
    elements(r, &mut cases);
    limits(r, &mut cases);
    records(r, &mut cases);
    judgements(r, &mut cases);
    maps(r, &mut cases);
    some_files(r, &mut cases);
    cases
}
