//! Each call against the same call of the reference.

use crate::inputs::*;
use crate::measure::*;
use crate::{ours, raw, TURN};
use reference::{Answer, Second};
use std::hint::black_box;

pub fn field(t: &mut Table) {
    let ps = [2, 7, 251, 257, 65521, 0, 1, 256, 65535, 2, 7, 251, 257, 65521, 3, 8];
    // By a pointer, so that the reference is called as ours is and not copied into the loop.
    let theirs: fn(u16) -> Answer = black_box(reference::field);
    t.line("field", |k, _| digest(unsafe { raw::mavdrusek_field(ps[k]) }, &[]), |k, _| digest(theirs(ps[k]).number, &[]));
}

pub fn calls(t: &mut Table, w: &World) {
    let s = w.s;
    let (l, d, n) = (s.l as usize, s.d(), s.n as usize);
    let name = |call: &str| format!("{call} p {}", s.p);
    let holder = |k: usize| k * 7 % n;
    let (mut a, mut b) = (vec![0u16; n * d], vec![0u16; n * d]);
    let (mut c, mut e) = (vec![0u16; n * d], vec![0u16; n * d]);

    if s.d() + n <= s.p as usize {
        t.line(
            &name("points"),
            |_, look| {
                let r = ours::points(black_box(s), &mut a);
                give(look, || digest(r, &a), r)
            },
            |_, look| {
                let r = reference::points(black_box(s), &mut b);
                give(look, || of(&r, &b), r.number)
            },
        );
    }
    t.line(
        &name("deal"),
        |k, look| {
            let x = &w.deals[k];
            let r = ours::deal(s, w.m(k), &x.secrets, &x.random, holder(k) as u16, &mut a[..d], &mut c[..d]);
            give(look, || digest(r, &[&a[..d], &c[..d]].concat()), r)
        },
        |k, look| {
            let x = &w.deals[k];
            let r = reference::deal(s, w.m(k), &x.secrets, &x.random, holder(k) as u16, &mut b[..d], &mut e[..d]);
            give(look, || of(&r, &[&b[..d], &e[..d]].concat()), r.number)
        },
    );
    t.line(
        &name("deal_all"),
        |k, look| {
            let x = &w.deals[k];
            let r = ours::deal_all(s, w.m(k), &x.secrets, &x.random, &mut a, &mut c);
            give(look, || digest(r, &[&a[..], &c[..]].concat()), r)
        },
        |k, look| {
            let x = &w.deals[k];
            let r = reference::deal_all(s, w.m(k), &x.secrets, &x.random, &mut b, &mut e);
            give(look, || of(&r, &[&b[..], &e[..]].concat()), r.number)
        },
    );
    let too_high: Vec<Vec<u16>> = w.deals.iter().map(|x| [&x.random[..x.random.len() - 1], &[s.p]].concat()).collect();
    t.line(
        &name("deal_all, refused 4"),
        |k, _| ours::deal_all(s, w.m(k), &w.deals[k].secrets, &too_high[k], &mut a, &mut c) as u64,
        |k, _| reference::deal_all(s, w.m(k), &w.deals[k].secrets, &too_high[k], &mut b, &mut e).number as u64,
    );

    let mut value = 0;
    t.line(
        &name("pair_value"),
        |k, look| {
            let r = ours::pair_value(s, w.m(k), w.g(k, holder(k)), (k % n) as u16, &mut value);
            give(look, || digest(r, &[value]), r | value)
        },
        |k, look| {
            let r = reference::pair_value(s, w.m(k), w.g(k, holder(k)), (k % n) as u16);
            give(look, || of(&r, &[]), r.values[0])
        },
    );
    let wrong: Vec<Vec<u16>> = (0..TURN)
        .map(|k| {
            let mut v = w.values(k, holder(k)).to_vec();
            v[k * 5 % n] = (v[k * 5 % n] + 1) % s.p;
            v
        })
        .collect();
    for (call, rejects) in [("judge, accept", false), ("judge, reject", true)] {
        let received = |k: usize| if rejects { &wrong[k][..] } else { w.values(k, holder(k)) };
        let (mut verdict, mut named) = (0, 0);
        t.line(
            &name(call),
            |k, look| {
                let r = ours::judge(s, w.m(k), w.h(k, holder(k)), received(k), &mut verdict, &mut named);
                let said = if verdict == 1 { &[1][..] } else { &[0, named][..] };
                give(look, || digest(r, said), r | verdict)
            },
            |k, look| {
                let r = reference::judge(s, w.m(k), w.h(k, holder(k)), received(k));
                give(look, || of(&r, &[]), r.values[0])
            },
        );
    }
    let said: Vec<Vec<u16>> = (0..TURN).map(|k| (0..n).map(|i| (i != k * 5 % n) as u16).collect()).collect();
    let accepts = vec![1; n];
    for (call, aborted) in [("outcome, kept", false), ("outcome, aborted", true)] {
        let verdicts = |k: usize| if aborted { &said[k][..] } else { &accepts[..] };
        let (mut kept, mut named) = (0, 0);
        t.line(
            &name(call),
            |k, look| {
                let r = ours::outcome(s, w.g(k, holder(k)), verdicts(k), &mut a[..l], &mut kept, &mut named);
                let found = if kept == 1 { &[1][..] } else { &[0, named][..] };
                give(look, || digest(r, &[found, if aborted { &[] } else { &a[..l] }].concat()), r | kept)
            },
            |k, look| {
                let r = reference::outcome(s, w.g(k, holder(k)), verdicts(k), &mut b[..l]);
                give(look, || of(&r, if aborted { &[] } else { &b[..l] }), r.values[0])
            },
        );
    }
    let lies: Vec<Vec<u16>> = (0..TURN)
        .map(|k| {
            let mut hs = w.deals[k].hs.clone();
            let at = k * 13 % hs.len();
            hs[at] = (hs[at] + 1) % s.p;
            hs
        })
        .collect();
    for (call, lied) in [("rehearse, fair", false), ("rehearse, disagree", true)] {
        let hs = |k: usize| if lied { &lies[k] } else { &w.deals[k].hs };
        let mut found = [0; 3];
        t.line(
            &name(call),
            |k, look| {
                let r = ours::rehearse(s, w.m(k), &w.deals[k].gs, hs(k), &mut found);
                give(look, || digest(r, if found[0] == 1 { &found[..1] } else { &found }), r | found[0])
            },
            |k, look| {
                let r = reference::rehearse(s, w.m(k), &w.deals[k].gs, hs(k));
                give(look, || of(&r, &[]), r.values[0])
            },
        );
    }
    for terms in [0, 2, 64] {
        let mut r = Random(terms as u64);
        let drawn: Vec<[Vec<u16>; 2]> = (0..TURN).map(|_| [r.elements(s.p, terms), r.elements(s.p, terms)]).collect();
        let (rounds, mut share) = (alike(terms), [0; 2]);
        t.line(
            &name(&format!("combine {terms}")),
            |k, look| {
                let r = ours::combine(s.p, &drawn[k][0], &drawn[k][1], &rounds[k], &mut share);
                give(look, || digest(r, &share), r | share[0])
            },
            |k, look| {
                let r = reference::combine(s.p, &drawn[k][0], &drawn[k][1], &rounds[k]);
                give(look, || of(&r, &[]), r.values[0])
            },
        );
        if terms == 64 {
            let rounds = apart(terms);
            t.line(
                &name("combine 64, refused 19"),
                |k, _| ours::combine(s.p, &drawn[k][0], &drawn[k][1], &rounds[k], &mut share) as u64,
                |k, _| reference::combine(s.p, &drawn[k][0], &drawn[k][1], &rounds[k]).number as u64,
            );
        }
    }

    let few = (s.e as usize).min(n);
    for (who, sets) in [("e members", w.sets(few, false)), ("d members", w.sets(d.min(n), true)), ("all", vec![everyone(s); TURN])] {
        let mut yes = 0;
        t.line(
            &name(&format!("determines, {who}")),
            |k, look| {
                let r = ours::determines(s, w.m(k), sets[k], &mut yes);
                give(look, || digest(r, &[yes]), r | yes)
            },
            |k, look| {
                let r = reference::determines(s, w.m(k), sets[k]);
                give(look, || of(&r, &[]), r.values[0])
            },
        );
        t.line(
            &name(&format!("private, {who}")),
            |k, look| {
                let r = ours::private(s, w.m(k), sets[k], &mut yes);
                give(look, || digest(r, &[yes]), r | yes)
            },
            |k, look| {
                let r = reference::private(s, w.m(k), sets[k]);
                give(look, || of(&r, &[]), r.values[0])
            },
        );
        let (mut row, mut other) = ([0; 32], [0; 32]);
        let (mut kind, mut steps) = (0, 0);
        // Which sweeping vector is written is left open, so that it is not compared, but tested to be one.
        t.line(
            &name(&format!("judge_set, {who}")),
            |k, look| {
                let q = (k % l) as u16;
                let r = ours::judge_set(s, w.m(k), sets[k], q, &mut row, &mut kind, &mut steps);
                assert!(!look || reference::is_of_kind(s, w.m(k), sets[k], q, kind, &row));
                give(look, || digest(r, &[&[kind, steps][..], if kind == 2 { &[] } else { &row }].concat()), r | kind)
            },
            |k, look| {
                let r = reference::judge_set(s, w.m(k), sets[k], (k % l) as u16, &mut other);
                give(look, || of(&r, if r.values[0] == 2 { &[] } else { &other }), r.values[0])
            },
        );
        let shares: Vec<Vec<u16>> = (0..TURN).map(|k| w.shares(k, sets[k], k % l)).collect();
        let mut changed = shares.clone();
        for (k, x) in changed.iter_mut().enumerate() {
            let at = k % x.len();
            x[at] = (x[at] + 1) % s.p;
        }
        let mut position = 0;
        let count = shares[0].len();
        for (case, handed, rounds) in
            [("", &shares, alike(count)), (", one share changed", &changed, alike(count)), (", refused 19", &shares, apart(count))]
        {
            // the round of one share agrees with itself
            if count == 1 && case == ", refused 19" {
                continue;
            }
            t.line(
                &name(&format!("open, {who}{case}")),
                |k, look| {
                    let r = ours::open(s, w.m(k), sets[k], &handed[k], &rounds[k], &mut a[..l], &mut position);
                    give(look, || digest(r, if r == 0 { &a[..l] } else { &[] }), r)
                },
                |k, look| {
                    let r = reference::open(s, w.m(k), sets[k], &handed[k], &rounds[k], &mut b[..l]);
                    give(look, || digest(r.number, if r.number == 0 { &b[..l] } else { &[] }), r.number)
                },
            );
        }
    }
    // the most work: all holders, and every position has a sweeping vector, since no row has an entry in a secret column
    let unseen: Vec<Vec<u16>> =
        (0..TURN).map(|k| w.m(k).iter().enumerate().map(|(at, &x)| if at % d < l { 0 } else { x }).collect()).collect();
    let mut yes = 0;
    t.line(
        &name("private, all, yes"),
        |k, look| {
            let r = ours::private(s, &unseen[k], everyone(s), &mut yes);
            give(look, || digest(r, &[yes]), r | yes)
        },
        |k, look| {
            let r = reference::private(s, &unseen[k], everyone(s));
            give(look, || of(&r, &[]), r.values[0])
        },
    );
}

/// Two dealings tied by a map.
pub fn mapped(t: &mut Table, w: &World) {
    let s = w.s;
    let (d, n) = (s.d(), s.n as usize);
    let name = |call: &str| format!("{call} p {}", s.p);
    let holder = |k: usize| k * 7 % n;
    let parts = |size: usize| [vec![0u16; size], vec![0; size], vec![0; size], vec![0; size]];
    let (mut a, mut b) = (parts(d), parts(d));
    t.line(
        &name("deal_mapped"),
        |k, look| {
            let r = ours::deal_mapped(s, w.m(k), w.deals[k].mapped(), holder(k) as u16, a.each_mut().map(|x| &mut x[..]));
            give(look, || digest(r, &a.concat()), r)
        },
        |k, look| {
            let r = reference::deal_mapped(s, w.m(k), w.deals[k].mapped(), holder(k) as u16, b.each_mut().map(|x| &mut x[..]));
            give(look, || of(&r, &b.concat()), r.number)
        },
    );
    let (mut a, mut b) = (parts(n * d), parts(n * d));
    t.line(
        &name("deal_mapped_all"),
        |k, look| {
            let r = ours::deal_mapped_all(s, w.m(k), w.deals[k].mapped(), a.each_mut().map(|x| &mut x[..]));
            give(look, || digest(r, &a.concat()), r)
        },
        |k, look| {
            let r = reference::deal_mapped_all(s, w.m(k), w.deals[k].mapped(), b.each_mut().map(|x| &mut x[..]));
            give(look, || of(&r, &b.concat()), r.number)
        },
    );
    let mut too_high: Vec<Vec<u16>> = w.deals.iter().map(|x| x.twin.random.clone()).collect();
    too_high.iter_mut().for_each(|random| *random.last_mut().unwrap() = s.p);
    let from = |k: usize| reference::Mapped { random2: &too_high[k], ..w.deals[k].mapped() };
    t.line(
        &name("deal_mapped_all, refused 4"),
        |k, _| ours::deal_mapped_all(s, w.m(k), from(k), a.each_mut().map(|x| &mut x[..])) as u64,
        |k, _| reference::deal_mapped_all(s, w.m(k), from(k), b.each_mut().map(|x| &mut x[..])).number as u64,
    );

    // One value of the second dealing differs; or the map is another one.
    let mut wrong: Vec<Vec<u16>> = (0..TURN).map(|k| w.second(k, holder(k)).values.to_vec()).collect();
    for (k, values) in wrong.iter_mut().enumerate() {
        values[k * 5 % n] = (values[k * 5 % n] + 1) % s.p;
    }
    let mut another: Vec<Vec<u16>> = w.deals.iter().map(|x| x.twin.phi.clone()).collect();
    another.iter_mut().for_each(|phi| phi[0] = (phi[0] + 1) % s.p);
    let judged = |case: usize, k: usize| {
        let x = w.second(k, holder(k));
        [x, Second { values: &wrong[k], ..x }, Second { phi: &another[k], ..x }][case]
    };
    for (case, call) in ["judge_mapped, accept", "judge_mapped, reject", "judge_mapped, another map"].iter().enumerate() {
        let (mut verdict, mut named) = (0, 0);
        t.line(
            &name(call),
            |k, look| {
                let r = ours::judge_mapped(s, w.m(k), w.h(k, holder(k)), w.values(k, holder(k)), judged(case, k), &mut verdict, &mut named);
                let said = if verdict == 1 { &[1][..] } else { &[0, named][..] };
                give(look, || digest(r, said), r | verdict)
            },
            |k, look| {
                let r = reference::judge_mapped(s, w.m(k), w.h(k, holder(k)), w.values(k, holder(k)), judged(case, k));
                give(look, || of(&r, &[]), r.values[0])
            },
        );
    }
}

/// Zero dealings, and refreshes.
pub fn zeros(t: &mut Table, w: &World) {
    let s = w.s;
    let (l, d, e, n) = (s.l as usize, s.d(), s.e as usize, s.n as usize);
    let name = |call: &str| format!("{call} p {}", s.p);
    let holder = |k: usize| k * 7 % n;
    let (mut gs, mut hs) = (vec![0u16; n * d], vec![0u16; n * e]);
    let (mut other_gs, mut other_hs) = (vec![0u16; n * d], vec![0u16; n * e]);
    t.line(
        &name("deal_zero"),
        |k, look| {
            let r = ours::deal_zero(s, w.m(k), &w.deals[k].zero.random, holder(k) as u16, &mut gs[..d], &mut hs[..e]);
            give(look, || digest(r, &[&gs[..d], &hs[..e]].concat()), r)
        },
        |k, look| {
            let r = reference::deal_zero(s, w.m(k), &w.deals[k].zero.random, holder(k) as u16, &mut other_gs[..d], &mut other_hs[..e]);
            give(look, || of(&r, &[&other_gs[..d], &other_hs[..e]].concat()), r.number)
        },
    );
    t.line(
        &name("deal_zero_all"),
        |k, look| {
            let r = ours::deal_zero_all(s, w.m(k), &w.deals[k].zero.random, &mut gs, &mut hs);
            give(look, || digest(r, &[&gs[..], &hs].concat()), r)
        },
        |k, look| {
            let r = reference::deal_zero_all(s, w.m(k), &w.deals[k].zero.random, &mut other_gs, &mut other_hs);
            give(look, || of(&r, &[&other_gs[..], &other_hs].concat()), r.number)
        },
    );
    let mut too_high: Vec<Vec<u16>> = w.deals.iter().map(|x| x.zero.random.clone()).collect();
    too_high.iter_mut().for_each(|random| *random.last_mut().unwrap() = s.p);
    t.line(
        &name("deal_zero_all, refused 4"),
        |k, _| ours::deal_zero_all(s, w.m(k), &too_high[k], &mut gs, &mut hs) as u64,
        |k, _| reference::deal_zero_all(s, w.m(k), &too_high[k], &mut other_gs, &mut other_hs).number as u64,
    );

    let mut wrong: Vec<Vec<u16>> = (0..TURN).map(|k| w.zero(k, holder(k))[2].to_vec()).collect();
    for (k, values) in wrong.iter_mut().enumerate() {
        values[k * 5 % n] = (values[k * 5 % n] + 1) % s.p;
    }
    for (call, rejects) in [("judge_zero, accept", false), ("judge_zero, reject", true)] {
        let received = |k: usize| if rejects { &wrong[k][..] } else { w.zero(k, holder(k))[2] };
        let (mut verdict, mut named) = (0, 0);
        t.line(
            &name(call),
            |k, look| {
                let r = ours::judge_zero(s, w.m(k), w.zero(k, holder(k))[1], received(k), &mut verdict, &mut named);
                let said = if verdict == 1 { &[1][..] } else { &[0, named][..] };
                give(look, || digest(r, said), r | verdict)
            },
            |k, look| {
                let r = reference::judge_zero(s, w.m(k), w.zero(k, holder(k))[1], received(k));
                give(look, || of(&r, &[]), r.values[0])
            },
        );
    }

    let shares = |k: usize| [w.g(k, holder(k))[k % l], w.zero(k, holder(k))[0][k % l]];
    let mut fresh = [0; 2];
    // By a pointer, so that the reference is called as ours is and not copied into the loop.
    let theirs: fn(u16, u16, u16, u16) -> Answer = black_box(reference::refresh);
    t.line(
        &name("refresh"),
        |k, look| {
            let [share, zero] = shares(k);
            let r = ours::refresh(s.p, share, 4095 * k as u16, zero, &mut fresh);
            give(look, || digest(r, &fresh), r | fresh[0])
        },
        |k, look| {
            let [share, zero] = shares(k);
            let r = theirs(s.p, share, 4095 * k as u16, zero);
            give(look, || of(&r, &[]), r.values[0])
        },
    );
    t.line(
        &name("refresh, refused 18"),
        |k, _| {
            let [share, zero] = shares(k);
            ours::refresh(s.p, share, 65535, zero, &mut fresh) as u64
        },
        |k, _| {
            let [share, zero] = shares(k);
            theirs(s.p, share, 65535, zero).number as u64
        },
    );
}

/// Corrections and signed constants, which take p 65521 alone.
pub fn corrections(t: &mut Table, w: &World) {
    let s = w.s;
    let (l, d) = (s.l as usize, s.d());
    let name = |call: &str| format!("{call} p {}", s.p);
    let mut r = Random(10);
    // as many as one dealing has secrets
    let drawn: Vec<Vec<i32>> = (0..TURN).map(|_| r.corrections(l * l)).collect();
    let beyond: Vec<Vec<i32>> = drawn.iter().map(|x| [&x[..x.len() - 1], &[32761]].concat()).collect();
    let held: Vec<Vec<u16>> = drawn.iter().map(|x| x.iter().map(|x| x.rem_euclid(65521) as u16).collect()).collect();
    let (mut a, mut b) = (vec![0u16; l * l], vec![0u16; l * l]);
    t.line(
        &name("hold_corrections"),
        |k, look| {
            let r = ours::hold_corrections(s.p, &drawn[k], &mut a);
            give(look, || digest(r, &a), r | a[k])
        },
        |k, look| {
            let r = reference::hold_corrections(s.p, &drawn[k], &mut b);
            give(look, || of(&r, &b), r.number | b[k])
        },
    );
    t.line(
        &name("hold_corrections, refused 22"),
        |k, _| ours::hold_corrections(s.p, &beyond[k], &mut a) as u64,
        |k, _| reference::hold_corrections(s.p, &beyond[k], &mut b).number as u64,
    );
    let (mut c, mut e) = (vec![0i32; l * l], vec![0i32; l * l]);
    t.line(
        &name("read_corrections"),
        |k, look| {
            let r = ours::read_corrections(s.p, &held[k], &mut c);
            give(look, || digest(r, &halves(&c)), r | c[k] as u16)
        },
        |k, look| {
            let r = reference::read_corrections(s.p, &held[k], &mut e);
            give(look, || of(&r, &halves(&e)), r.number | e[k] as u16)
        },
    );
    for terms in [0, 2, 64] {
        let drawn: Vec<(Vec<i32>, Vec<u16>)> = (0..TURN).map(|_| (r.corrections(terms), r.elements(s.p, terms))).collect();
        let (rounds, mut share) = (alike(terms), [0; 2]);
        t.line(
            &name(&format!("combine_signed {terms}")),
            |k, look| {
                let r = ours::combine_signed(s.p, &drawn[k].0, &drawn[k].1, &rounds[k], &mut share);
                give(look, || digest(r, &share), r | share[0])
            },
            |k, look| {
                let r = reference::combine_signed(s.p, &drawn[k].0, &drawn[k].1, &rounds[k]);
                give(look, || of(&r, &[]), r.values[0])
            },
        );
    }
    for (who, sets) in [("d members", w.sets(d, true)), ("all", vec![everyone(s); TURN])] {
        let shares: Vec<Vec<u16>> = (0..TURN).map(|k| w.shares(k, sets[k], k % l)).collect();
        let rounds = alike(shares[0].len());
        let mut position = 0;
        t.line(
            &name(&format!("open_signed, {who}")),
            |k, look| {
                let r = ours::open_signed(s, w.m(k), sets[k], &shares[k], &rounds[k], &mut c[..l], &mut position);
                give(look, || digest(r, &halves(&c[..l])), r)
            },
            |k, look| {
                let r = reference::open_signed(s, w.m(k), sets[k], &shares[k], &rounds[k], &mut e[..l]);
                give(look, || of(&r, &halves(&e[..l])), r.number)
            },
        );
    }
}

/// Board keys. Their setup is fixed, so that the reference makes its matrix in each call; ours has it built in.
pub fn keys(t: &mut Table) {
    let w = &board();
    let keys: Vec<Vec<u8>> = (0..TURN).map(|k| w.key(k)).collect();
    let (mut a, mut b) = ([0; 112], [0; 112]);
    let (mut c, mut e) = ([0; 112], [0; 112]);
    t.line(
        "deal_key",
        |k, look| {
            let r = ours::deal_key(&keys[k], &w.deals[k].random, &mut a, &mut c);
            give(look, || digest(r, &[a, c].concat()), r)
        },
        |k, look| {
            let r = reference::deal_key(&keys[k], &w.deals[k].random, &mut b, &mut e);
            give(look, || of(&r, &[b, e].concat()), r.number)
        },
    );
    let too_high: Vec<Vec<u16>> = w.deals.iter().map(|x| [&x.random[..32], &[257]].concat()).collect();
    t.line(
        "deal_key, refused 4",
        |k, _| ours::deal_key(&keys[k], &too_high[k], &mut a, &mut c) as u64,
        |k, _| reference::deal_key(&keys[k], &too_high[k], &mut b, &mut e).number as u64,
    );

    // The same keys with a 256 at one position, which opens to no key.
    let mut no_keys = board();
    for (k, deal) in no_keys.deals.iter_mut().enumerate() {
        deal.secrets[k] = 256;
        reference::deal_all(w.s, &deal.m, &deal.secrets, &deal.random, &mut deal.gs, &mut deal.hs);
    }
    for count in [6, 7, 8, 16] {
        let sets = if count == 16 { vec![0xffff; TURN] } else { w.sets(count, false) };
        let shares: Vec<Vec<u16>> = (0..TURN).map(|k| w.key_shares(k, sets[k])).collect();
        let with_256: Vec<Vec<u16>> = (0..TURN).map(|k| no_keys.key_shares(k, sets[k])).collect();
        let mut changed = shares.clone();
        for (k, x) in changed.iter_mut().enumerate() {
            let at = k * 5 % x.len();
            x[at] = (x[at] + 1) % 257;
        }
        let (mut key, mut other, mut position) = ([0; 16], [0; 16], 0);
        let mut line = |case: &str, handed: &[Vec<u16>], rounds: &[Vec<u16>]| {
            t.line(
                &format!("open_key, {count} members{case}"),
                |k, look| {
                    let r = ours::open_key(sets[k], &handed[k], &rounds[k], &mut key, &mut position);
                    give(look, || digest(r, &if r == 0 { wide(&key) } else { vec![] }), r)
                },
                |k, look| {
                    let r = reference::open_key(sets[k], &handed[k], &rounds[k], &mut other);
                    give(look, || digest(r.number, &if r.number == 0 { wide(&other) } else { vec![] }), r.number)
                },
            );
        };
        let rounds = alike(4 * count);
        line("", &shares, &rounds);
        if count > 7 {
            line(", one share changed", &changed, &rounds);
        }
        if count > 6 {
            line(", a 256", &with_256, &rounds);
        }
        line(", refused 19", &shares, &apart(4 * count));
    }
}
