//! The whole collection of keys, and how time grows.

use crate::inputs::*;
use crate::measure::*;
use crate::{ours, TURN};
use std::time::Instant;

const KEYS: usize = 9400;
const CHUNK: usize = 470;

/// Both on all inputs, by chunks in turns; prints what each takes for the whole collection, by the median of the chunks.
fn in_turns<T>(what: &str, words: &str, all: &[T], mut ours: impl FnMut(&[T]), mut theirs: impl FnMut(&[T])) {
    let mut times = [vec![], vec![]];
    for (k, chunk) in all.chunks(CHUNK).enumerate() {
        for turn in 0..2 {
            let start = Instant::now();
            let who = (k + turn) % 2;
            if who == 0 {
                ours(chunk);
            } else {
                theirs(chunk);
            }
            times[who].push(start.elapsed().as_secs_f64());
        }
    }
    let [a, b] = times.map(|x| median(x) * (KEYS / CHUNK) as f64);
    println!();
    println!("{words}");
    println!("{what:40} {a:8.3} s {b:8.3} s {:7.3}", a / b);
}

pub fn collection() {
    let w = &board();
    let (s, m) = (w.s, w.m(0));
    let mut r = Random(257);
    let key = |r: &mut Random| r.elements(256, 16).iter().map(|&x| x as u8).collect();
    let keys: Vec<(Vec<u8>, Vec<u16>)> = (0..KEYS).map(|_| (key(&mut r), r.elements(257, 33))).collect();
    let set = 0b1000_0100_1011_0101;
    // What the seven hand in: their shares of column 0 by rising holder, then those of columns 1, 2 and 3.
    let handed = |shares: &[[u16; 4]; 16]| {
        let mut all = [0; 28];
        for (k, i) in members(set).enumerate() {
            (0..4).for_each(|b| all[7 * b + k] = shares[i][b]);
        }
        all
    };

    let (mut gs, mut hs) = ([0; 112], [0; 112]);
    let ours = |chunk: &[(Vec<u8>, Vec<u16>)]| {
        for (key, random) in chunk {
            assert_eq!(ours::deal_key(key, random, &mut gs, &mut hs), 0);
            let mut verdicts = [0; 16];
            for i in 0..16 {
                let mut values = [0; 16];
                for j in 0..16 {
                    ours::pair_value(s, m, &gs[j * 7..][..7], i as u16, &mut values[j]);
                }
                ours::judge(s, m, &hs[i * 7..][..7], &values, &mut verdicts[i], &mut 0);
            }
            let mut shares = [[0; 4]; 16];
            for i in 0..16 {
                let mut kept = 0;
                ours::outcome(s, &gs[i * 7..][..7], &verdicts, &mut shares[i], &mut kept, &mut 0);
                assert_eq!(kept, 1);
            }
            let mut back = [0; 16];
            assert_eq!(ours::open_key(set, &handed(&shares), &[0; 28], &mut back, &mut 0), 0);
            assert_eq!(back, key[..]);
        }
    };
    let (mut ref_gs, mut ref_hs) = ([0; 112], [0; 112]);
    let theirs = |chunk: &[(Vec<u8>, Vec<u16>)]| {
        for (key, random) in chunk {
            assert_eq!(reference::deal_key(key, random, &mut ref_gs, &mut ref_hs).number, 0);
            let mut verdicts = [0; 16];
            for i in 0..16 {
                let mut values = [0; 16];
                for j in 0..16 {
                    values[j] = reference::pair_value(s, m, &ref_gs[j * 7..][..7], i as u16).values[0];
                }
                verdicts[i] = reference::judge(s, m, &ref_hs[i * 7..][..7], &values).values[0];
            }
            let mut shares = [[0; 4]; 16];
            for i in 0..16 {
                assert_eq!(reference::outcome(s, &ref_gs[i * 7..][..7], &verdicts, &mut shares[i]).values[0], 1);
            }
            let mut back = [0; 16];
            assert_eq!(reference::open_key(set, &handed(&shares), &[0; 28], &mut back).number, 0);
            assert_eq!(back, key[..]);
        }
    };
    let words = format!("the collection: {KEYS} keys dealt, values exchanged and judged by all 16, kept, opened by 7");
    in_turns("collection", &words, &keys, ours, theirs);
}

/// Every share of every key refreshed, from one round to the next.
pub fn refreshed() {
    let w = &board();
    let (s, m) = (w.s, w.m(0));
    let mut r = Random(258);
    // For each key the random entries of its zero dealing, and the four shares of each holder.
    let drawers: Vec<(Vec<u16>, Vec<u16>)> = (0..KEYS).map(|_| (r.elements(257, 21), r.elements(257, 64))).collect();

    let (mut gs, mut hs) = ([0; 112], [0; 48]);
    let ours = |chunk: &[(Vec<u16>, Vec<u16>)]| {
        for (random, shares) in chunk {
            assert_eq!(ours::deal_zero_all(s, m, random, &mut gs, &mut hs), 0);
            let mut verdicts = [0; 16];
            for i in 0..16 {
                let mut values = [0; 16];
                for j in 0..16 {
                    ours::pair_value(s, m, &gs[j * 7..][..7], i as u16, &mut values[j]);
                }
                ours::judge_zero(s, m, &hs[i * 3..][..3], &values, &mut verdicts[i], &mut 0);
            }
            for i in 0..16 {
                let (mut zeros, mut kept) = ([0; 4], 0);
                ours::outcome(s, &gs[i * 7..][..7], &verdicts, &mut zeros, &mut kept, &mut 0);
                assert_eq!(kept, 1);
                for b in 0..4 {
                    let mut fresh = [0; 2];
                    ours::refresh(257, shares[4 * i + b], 7, zeros[b], &mut fresh);
                    assert_eq!(fresh[1], 8);
                }
            }
        }
    };
    let (mut ref_gs, mut ref_hs) = ([0; 112], [0; 48]);
    let theirs = |chunk: &[(Vec<u16>, Vec<u16>)]| {
        for (random, shares) in chunk {
            assert_eq!(reference::deal_zero_all(s, m, random, &mut ref_gs, &mut ref_hs).number, 0);
            let mut verdicts = [0; 16];
            for i in 0..16 {
                let mut values = [0; 16];
                for j in 0..16 {
                    values[j] = reference::pair_value(s, m, &ref_gs[j * 7..][..7], i as u16).values[0];
                }
                verdicts[i] = reference::judge_zero(s, m, &ref_hs[i * 3..][..3], &values).values[0];
            }
            for i in 0..16 {
                let mut zeros = [0; 4];
                assert_eq!(reference::outcome(s, &ref_gs[i * 7..][..7], &verdicts, &mut zeros).values[0], 1);
                for b in 0..4 {
                    assert_eq!(reference::refresh(257, shares[4 * i + b], 7, zeros[b]).values[1], 8);
                }
            }
        }
    };
    let words = format!("fresh shares for the collection: for each of {KEYS} keys zeros dealt and judged by all 16, all 64 shares refreshed");
    in_turns("collection refreshed", &words, &drawers, ours, theirs);
}

pub fn growth() {
    println!();
    println!("how time grows, ns");
    let one = |f: Runner| medians(&mut [f], ROUNDS)[0];
    let series = |words: &str, steps: &[u16], time: &dyn Fn(u16) -> f64| {
        let mut text = format!("{words}:");
        for (k, &x) in steps.iter().enumerate() {
            text += &format!("{} {x}: {:.0}", if k == 0 { "" } else { "," }, time(x));
        }
        println!("{text}");
    };
    let open = |w: &World, k: usize| {
        let sets = w.sets(k, true);
        let shares: Vec<Vec<u16>> = (0..TURN).map(|x| w.shares(x, sets[x], 0)).collect();
        let mut out = vec![0; w.s.l as usize];
        let rounds = alike(k);
        one(runner(|x, _| ours::open(w.s, w.m(x), sets[x], &shares[x], &rounds[x], &mut out, &mut 0) as u64))
    };
    let judge_set = |w: &World, k: usize| {
        let sets = w.sets(k, true);
        let mut out = [0; 32];
        one(runner(|x, _| ours::judge_set(w.s, w.m(x), sets[x], 0, &mut out, &mut 0, &mut 0) as u64))
    };
    let deal_all = |w: &World| {
        let (mut gs, mut hs) = (vec![0; w.s.entries()], vec![0; w.s.entries()]);
        one(runner(|x, _| ours::deal_all(w.s, w.m(x), &w.deals[x].secrets, &w.deals[x].random, &mut gs, &mut hs) as u64))
    };
    let deal_zero_all = |w: &World| {
        let (mut gs, mut hs) = (vec![0; w.s.entries()], vec![0; w.s.n as usize * w.s.e as usize]);
        one(runner(|x, _| ours::deal_zero_all(w.s, w.m(x), &w.deals[x].zero.random, &mut gs, &mut hs) as u64))
    };
    let judge = |w: &World| one(runner(|x, _| ours::judge(w.s, w.m(x), w.h(x, 0), w.values(x, 0), &mut 0, &mut 0) as u64));
    let wide = World::new(257, 4, 3, 32);
    series("open, p 257, l 4, e 3, n 32, by k", &[7, 8, 12, 16, 24, 32], &|k| open(&wide, k as usize));
    series("judge_set, p 257, l 4, e 3, n 32, k", &[7, 8, 12, 16, 24, 32], &|k| judge_set(&wide, k as usize));
    let of_width = |d: u16| World::new(257, d / 2, d / 2, 16);
    series("open, p 257, n 16, by d members, d", &[2, 4, 8, 12, 16], &|d| open(&of_width(d), d as usize));
    series("judge_set, p 257, n 16, d members, d", &[2, 4, 8, 12, 16], &|d| judge_set(&of_width(d), d as usize));
    series("deal_all, p 257, n 16, d", &[2, 4, 8, 12, 16], &|d| deal_all(&of_width(d)));
    series("deal_zero_all, p 257, n 16, d", &[2, 4, 8, 12, 16], &|d| deal_zero_all(&of_width(d)));
    let of_holders = |n: u16| World::new(257, 4, 3, n);
    series("deal_all, p 257, l 4, e 3, n", &[1, 2, 4, 8, 16, 32], &|n| deal_all(&of_holders(n)));
    series("judge, p 257, l 4, e 3, n", &[1, 2, 4, 8, 16, 32], &|n| judge(&of_holders(n)));
    series("open, p 257, l 4, e 3, by 7, n", &[7, 8, 16, 32], &|n| open(&of_holders(n), 7));
}
