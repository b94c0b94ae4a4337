//! Writes stored inputs and what the reference answers: `generate files INPUT OUTPUT` for the program `files`, `generate cases INPUT OUTPUT` for the
//! program `cases`, `generate holder FOLDER` for the program `holder`, NAME.in and NAME.out for each of its files.

mod cases;
mod draw;
mod edges;
mod files;
mod maps;
mod rounds;
mod signed;
mod superseding;
mod zero_dealings;
use cases::*;
use draw::*;
use std::collections::BTreeMap;

/// The number returned, from a case's line.
fn number(line: &str) -> u16 {
    line.split(' ').next().unwrap().parse().unwrap()
}

/// A drawn case, the largest files and matrices now and then only, so that what is stored stays small.
fn small(r: &mut Random, round: usize, draw: impl Fn(&mut Random) -> Case) -> Case {
    loop {
        let c = draw(r);
        if c.slices().len() < 370 || round % 20 == 0 {
            return c;
        }
    }
}

/// The cases at the limits and drawn cases of every call, and the answers.
fn stored() -> (Vec<u8>, String) {
    let mut r = Random(20140901);
    let mut all = edges::edges(&mut r);
    for round in 0..40 {
        for call in (0..DEAL_KEY).filter(|&call| call != READ_FILE) {
            all.push(small(&mut r, round, |r| draw(r, call)));
        }
    }
    let files: Vec<Vec<u8>> = all.iter().filter(|c| c.call == FILE).map(|c| c.bytes.clone()).collect();
    all.extend(edges::contents(&mut r, &mut Random(20261119), &files));
    // board keys, from a seed of their own: what stands before them stays as it is
    let mut r = Random(20261116);
    all.extend(edges::keys(&mut r));
    for round in 0..60 {
        all.push(draw(&mut r, if round % 3 == 0 { DEAL_KEY } else { OPEN_KEY }));
    }
    // the same for a supplier's matrices
    let mut r = Random(20261117);
    all.extend(edges::supplied_matrices(&mut r));
    for round in 0..60 {
        all.push(supplied(&mut r, 8 + round % 3));
    }
    // the same for the rows of sets and their steps
    let mut r = Random(20261118);
    all.extend(edges::rows_and_steps(&mut r));
    for _ in 0..60 {
        all.push(tied(&mut r, 8));
    }
    // the same for two dealings tied by a map
    let mut r = Random(20261120);
    all.extend(maps::cases(&mut r));
    for round in 0..12 {
        for call in MAPPED {
            all.push(small(&mut r, round, |r| draw(r, call)));
        }
        all.push(small(&mut r, round, with_second));
    }
    // so far without rounds: each case gets one, from a seed of its own
    let mut r = Random(20261122);
    all = all.into_iter().map(|c| with_rounds(c, |count| vec![r.round(); count])).collect();
    // rounds that differ, and zero dealings
    let mut r = Random(20261123);
    all.extend(rounds::cases(&mut r));
    all.extend(zero_dealings::cases(&mut r));
    for round in 0..12 {
        for call in [7, 11, 17, 23, OPEN_KEY].into_iter().chain(ZEROS) {
            let c = small(&mut r, round, |r| draw(r, call));
            all.push(rounded(&mut r, c));
        }
        all.push(small(&mut r, round, with_zeros));
    }
    // two records of one share, from a seed of their own
    let mut r = Random(20261124);
    all.extend(superseding::cases(&mut r));
    for _ in 0..40 {
        all.push(draw(&mut r, SUPERSEDING));
    }
    // the same for corrections and signed constants
    let mut r = Random(20261125);
    all.extend(signed::cases(&mut r));
    for round in 0..40 {
        for call in SIGNED {
            let c = small(&mut r, round, |r| draw(r, call));
            all.push(rounded(&mut r, c));
        }
    }
    let (mut input, mut output) = (vec![], String::new());
    let mut counts = vec![BTreeMap::new(); CALLS.len()];
    for c in &all {
        assert!(c.words.iter().all(|x| x.len() <= 528) && c.bytes.len() <= 4096, "too long: {c:?}");
        let line = c.line();
        *counts[c.call as usize].entry(number(&line)).or_insert(0) += 1;
        input.extend(c.stored());
        output += &line;
    }
    for (call, counts) in CALLS.iter().zip(&counts) {
        let each: Vec<String> = counts.iter().map(|(number, k)| format!("{number}: {k}")).collect();
        eprintln!("{}, {} cases ({})", call.name, counts.values().sum::<usize>(), each.join(", "));
        let found: Vec<u16> = counts.keys().copied().collect();
        assert_eq!(found, [&[0], call.refusals].concat(), "{}: every refusal and no other", call.name);
    }
    eprintln!("{} cases, {} bytes in, {} bytes out", all.len(), input.len(), output.len());
    (input, output)
}

/// Writes the files of the program `holder` into a folder.
fn holder(folder: &str) {
    for (name, file, text) in files::for_the_program() {
        std::fs::write(format!("{folder}/{name}.in"), file).unwrap();
        std::fs::write(format!("{folder}/{name}.out"), text).unwrap();
    }
}

fn main() {
    let args: Vec<String> = std::env::args().skip(1).collect();
    let args: Vec<&str> = args.iter().map(|x| x.as_str()).collect();
    let ((input, output), to) = match args[..] {
        ["holder", folder] => return holder(folder),
        ["files", ref to @ ..] => (files::stored(), to),
        ["cases", ref to @ ..] => (stored(), to),
        _ => panic!("generate holder FOLDER, generate files INPUT OUTPUT or generate cases INPUT OUTPUT"),
    };
    std::fs::write(to[0], input).unwrap();
    std::fs::write(to[1], output).unwrap();
}
