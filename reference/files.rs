//! The stored files of the program `files`, each behind its length, those that the gate runs through the program `holder`, and what the reference prints
//! for them.

use crate::cases::FILE;
use crate::draw::*;
use crate::maps;
use crate::zero_dealings;
use reference::*;

/// The words of document 01's example.
pub fn example() -> Vec<u16> {
    let mut words = vec![SU, 7, 1, 1, 3, 6, 2, 5, 3, 4, 4];
    words.extend([DL, 1, 1, 2, 4, 4, 3]);
    for (from, value) in [(0, 2), (1, 1), (2, 0)] {
        words.extend([PV, 1, from, 1, value]);
    }
    for holder in 0..3 {
        words.extend([VD, 1, holder, 1]);
    }
    words
}

/// A file of zeros in which everyone accepts.
pub fn zeros(p: u16, l: u16, e: u16, n: u16) -> Vec<u16> {
    let d = l as usize + e as usize;
    let mut words = vec![SU, p, l, e, n];
    words.extend(vec![0; n as usize * d]);
    words.extend([DL, 65535, n - 1]);
    words.extend(vec![0; 2 * d]);
    words.extend((0..n).flat_map(|from| [PV, 65535, from, n - 1, 0]));
    words.extend((0..n).flat_map(|holder| [VD, 65535, holder, 1]));
    words
}

/// The example with another PV or VD where each of its records stands behind DL, and behind the last: of every holder and of one that is none, with each
/// choice of faults in its other fields; the records behind it follow.
pub fn other_records() -> Vec<Vec<u16>> {
    let whole = example();
    let mut all = vec![];
    for (from, to) in [(18, 23), (23, 28), (28, 33), (33, 37), (37, 41), (41, 45), (45, 45)] {
        let mut put = |record: &[u16]| all.push([&whole[..from], record, &whole[to..]].concat());
        for holder in 0..4 {
            let value = [2, 1, 0, 0][holder];
            for [dealing, receiver, value] in [1, 2].map(|x| [1, 0].map(|y| [value, 7].map(|z| [x, y, z]))).concat().concat() {
                put(&[PV, dealing, holder as u16, receiver, value]);
            }
            for [dealing, verdict] in [1, 2].map(|x| [1, 2].map(|y| [x, y])).concat() {
                put(&[VD, dealing, holder as u16, verdict]);
            }
        }
    }
    all
}

pub fn stored() -> (Vec<u8>, String) {
    let mut files: Vec<Vec<u8>> = vec![];
    let whole = example();

    // document 01's cases: the last VD gone; PV from 0 made 3, with own VD 0 and with own VD 1
    files.push(bytes(&whole));
    files.push(bytes(&whole[..41]));
    let mut spoilt = whole.clone();
    spoilt[22] = 3;
    files.push(bytes(&spoilt));
    spoilt[40] = 0;
    files.push(bytes(&spoilt));

    // the limits of p, l, e and n
    for (p, l, e, n) in [(2, 8, 1, 1), (7, 9, 1, 1), (251, 1, 8, 1), (257, 1, 9, 1), (65521, 1, 1, 32), (2, 1, 1, 33), (3, 1, 1, 1), (65520, 1, 1, 1)] {
        files.push(bytes(&zeros(p, l, e, n)));
    }

    // cut at every byte
    let all = bytes(&whole);
    files.extend((0..all.len()).map(|k| all[..k].to_vec()));

    // every word in turn at the limits and one past them, and every mark in every place
    for k in 0..whole.len() {
        for w in [0, 1, 2, 3, 6, 7, 8, 9, 33, 65535, SU, DL, PV, VD, SH] {
            let mut changed = whole.clone();
            changed[k] = w;
            if changed != whole {
                files.push(bytes(&changed));
            }
        }
    }

    // every record once more at the end, left out, and moved to the end
    for (from, to) in [(0, 11), (11, 18), (18, 23), (23, 28), (28, 33), (33, 37), (37, 41), (41, 45)] {
        let record = &whole[from..to];
        let without = [&whole[..from], &whole[to..]].concat();
        files.push(bytes(&[&whole[..], record].concat()));
        files.push(bytes(&without));
        files.push(bytes(&[&without[..], record].concat()));
    }

    files.extend(other_records().iter().map(|words| bytes(words)));

    // drawn files of every field, in order or damaged
    let mut r = Random(20140902);
    while files.len() < 1400 {
        let sound = Draw::new(&mut r).case(FILE);
        let c = damaged(&mut r, sound);
        if c.bytes.len() < 600 {
            files.push(c.bytes);
        }
    }

    // those of two dealings tied by a map, from a seed of their own: what stands before them stays as it is
    files.extend(maps::files(&mut Random(20261120)));

    // the same for zero dealings
    files.extend(zero_dealings::files(&mut Random(20261123)));

    let (mut input, mut output) = (vec![], String::new());
    for file in &files {
        input.extend((file.len() as u16).to_le_bytes());
        input.extend(file);
        output += &holder(file);
    }
    (input, output)
}

/// A file drawn on a points matrix whose text has these words.
fn with_words(r: &mut Random, s: Params, words: &str) -> Vec<u8> {
    loop {
        let file = Draw::with(r, s, POINTS).case(FILE).bytes;
        if holder(&file).contains(words) {
            return file;
        }
    }
}

/// The same with a DF.
fn mapped_with_words(r: &mut Random, s: Params, words: &str) -> Vec<u8> {
    loop {
        let file = Draw::with(r, s, POINTS).mapped_file();
        if holder(&file).contains(words) {
            return file;
        }
    }
}

/// The same of a zero dealing.
fn zero_with_words(r: &mut Random, s: Params, words: &str) -> Vec<u8> {
    loop {
        let file = Draw::with(r, s, POINTS).zero_file();
        if holder(&file).contains(words) {
            return file;
        }
    }
}

/// Files for the program `holder`, by name: what is read from standard input and what is printed. The program reads 4,096 bytes and no more.
pub fn for_the_program() -> Vec<(&'static str, Vec<u8>, String)> {
    let mut r = Random(20140903);
    let largest = with_words(&mut r, Params { p: 65521, l: 8, e: 8, n: 32 }, "outcome kept");
    let key = Params { p: 257, l: 4, e: 3, n: 16 };
    let mut again = example();
    again[25] = 0; // the second PV from holder 0 once more
    let mut order = example();
    order[20] = 1; // the first PV from holder 1
    let long = [&largest[..], &vec![0; 5000 - largest.len()]].concat();
    let (pieces, rejected) = (with_words(&mut r, key, "outcome kept"), with_words(&mut r, key, "verdict reject"));
    let mut r = Random(20261124);
    let largest_zero = zero_with_words(&mut r, Params { p: 65521, l: 8, e: 8, n: 32 }, "outcome kept");
    let (zero, zero_rejected) = (zero_with_words(&mut r, key, "outcome kept"), zero_with_words(&mut r, key, "verdict reject"));
    // a DZ behind the example's DL, in the place of its first PV
    let zero_refused = bytes(&[&example()[..18], &[DZ, 1, 1, 2, 4, 3], &example()[18..]].concat());
    let mut r = Random(20261121);
    let files = [
        ("empty", vec![]),
        ("largest", largest),
        ("largest_mapped", mapped_with_words(&mut r, Params { p: 65521, l: 8, e: 8, n: 32 }, "mapped 7")),
        ("largest_zero", largest_zero),
        ("long", long),
        ("mapped", mapped_with_words(&mut r, key, "mapped 3")),
        ("order", bytes(&order)),
        ("pieces", pieces),
        ("refused", bytes(&again)),
        ("reject_map", mapped_with_words(&mut r, key, "verdict reject map")),
        ("rejected", rejected),
        ("zero", zero),
        ("zero_refused", zero_refused),
        ("zero_rejected", zero_rejected),
    ];
    files.map(|(name, file)| (name, file.clone(), holder(&file[..file.len().min(4096)]))).into()
}
