//! Times every call of the proved library against the same call of the reference, the peers' work on a board key, the whole collection, and how time
//! grows. Every line is from one process: what is compared runs in turns, and a number is the median of many turns. `bench/run` builds and runs it. The
//! exit status is 1 where a target is missed.

mod calls;
mod collection;
mod inputs;
mod measure;
mod ours;
mod peers;
#[path = "../rust/src/raw.rs"]
mod raw;
mod records;

use inputs::World;
use measure::{Table, ROUNDS};

/// Different inputs that each measure goes through in rotation, so that no branch is learnt by heart.
const TURN: usize = 16;

fn main() {
    // Words on the command line choose parts: calls, peers, collection, growth.
    let chosen: Vec<String> = std::env::args().skip(1).collect();
    let wanted = |part: &str| chosen.is_empty() || chosen.iter().any(|x| x == part);
    let mut t = Table { slower: vec![], measures: 0, highest: (0.0, String::new()) };
    let mut targets = vec![];
    if wanted("calls") {
        println!(
            "each call against the reference: medians of {ROUNDS} turns; where the ratio is above 1.05, again with {}, which count",
            4 * ROUNDS
        );
        println!("{:40} {:>10} {:>10} {:>7}", "call", "ours ns", "ref. ns", "ratio");
        calls::field(&mut t);
        for (p, l, e, n) in [(2, 4, 3, 16), (7, 1, 1, 3), (251, 4, 3, 16), (257, 4, 3, 16), (65521, 8, 8, 32)] {
            println!("p {p}, l {l}, e {e}, n {n}");
            let w = World::new(p, l, e, n);
            calls::calls(&mut t, &w);
            calls::mapped(&mut t, &w);
            calls::zeros(&mut t, &w);
            if p == reference::CORRECTION_PRIME {
                calls::corrections(&mut t, &w);
            }
            records::records(&mut t, &w);
            records::mapped(&mut t, &w);
            records::zeros(&mut t, &w);
            records::files(&mut t, &w);
        }
        println!("board keys (p 257, l 4, e 3, n 16)");
        calls::keys(&mut t);
    }
    if wanted("peers") {
        peers::peers(&mut targets);
    }
    if wanted("collection") {
        collection::collection();
        collection::refreshed();
    }
    if wanted("growth") {
        collection::growth();
    }

    println!("\ntargets");
    let mut reached = true;
    if wanted("calls") {
        reached &= t.verdict();
    }
    for x in targets {
        reached &= x.verdict();
    }
    std::process::exit(!reached as i32);
}
