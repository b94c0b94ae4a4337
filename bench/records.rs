//! The calls on records and on a holder's file against the same calls of the reference.

use crate::inputs::*;
use crate::measure::*;
use crate::{ours, TURN};
use reference::Answer;

/// A writer's records, one for each input, kept for its reader.
fn made(size: usize, write: &dyn Fn(usize, &mut [u8]) -> Answer) -> Vec<Vec<u8>> {
    (0..TURN)
        .map(|k| {
            let mut out = vec![0; size];
            assert_eq!(write(k, &mut out).number, 0);
            out
        })
        .collect()
}

pub fn records(t: &mut Table, w: &World) {
    let s = w.s;
    let (l, d, n) = (s.l as usize, s.d(), s.n as usize);
    let name = |call: &str| format!("{call} p {}", s.p);
    let holder = |k: usize| (k * 7 % n) as u16;
    let dealing = |k: usize| 1 + 4095 * k as u16;
    let (mut x, mut y) = (vec![0u8; 10 + 2 * n * d], vec![0u8; 10 + 2 * n * d]);

    t.line(
        &name("write_setup"),
        |k, look| {
            let r = ours::write_setup(s, w.m(k), &mut x);
            give(look, || digest(r, &wide(&x)), r)
        },
        |k, look| {
            let r = reference::write_setup(s, w.m(k), &mut y);
            give(look, || of(&r, &wide(&y)), r.number)
        },
    );
    let written = made(10 + 2 * n * d, &|k, out| reference::write_setup(s, w.m(k), out));
    let mut four = [0; 4];
    t.line(
        &name("read_setup_head"),
        |k, look| {
            let r = ours::read_setup_head(&written[k], &mut four);
            give(look, || digest(r, &four), r)
        },
        |k, look| {
            let r = reference::read_setup_head(&written[k]);
            give(look, || of(&r, &[]), r.number)
        },
    );
    let (mut a, mut b) = (vec![0u16; n * d], vec![0u16; n * d]);
    let (mut c, mut e) = (vec![0u16; d], vec![0u16; d]);
    t.line(
        &name("read_setup_matrix"),
        |k, look| {
            let r = ours::read_setup_matrix(&written[k], &mut a);
            give(look, || digest(r, &a), r)
        },
        |k, look| {
            let r = reference::read_setup_matrix(&written[k], &mut b);
            give(look, || of(&r, &b), r.number)
        },
    );

    let size = 6 + 4 * d;
    let part = |k: usize| (w.g(k, holder(k) as usize), w.h(k, holder(k) as usize));
    t.line(
        &name("write_dealing"),
        |k, look| {
            let (g, h) = part(k);
            let r = ours::write_dealing(s, dealing(k), holder(k), g, h, &mut x[..size]);
            give(look, || digest(r, &wide(&x[..size])), r)
        },
        |k, look| {
            let (g, h) = part(k);
            let r = reference::write_dealing(s, dealing(k), holder(k), g, h, &mut y[..size]);
            give(look, || of(&r, &wide(&y[..size])), r.number)
        },
    );
    let written = made(size, &|k, out| reference::write_dealing(s, dealing(k), holder(k), part(k).0, part(k).1, out));
    let mut two = [0; 2];
    t.line(
        &name("read_dealing"),
        |k, look| {
            let r = ours::read_dealing(s, &written[k], &mut a[..d], &mut c, &mut two);
            give(look, || digest(r, &[&two[..], &a[..d], &c].concat()), r)
        },
        |k, look| {
            let r = reference::read_dealing(s, &written[k], &mut b[..d], &mut e);
            give(look, || of(&r, &[&b[..d], &e].concat()), r.number)
        },
    );

    let value = |k: usize| w.values(k, holder(k) as usize)[k % n];
    t.line(
        &name("write_pair_value"),
        |k, look| {
            let r = ours::write_pair_value(s, dealing(k), (k % n) as u16, holder(k), value(k), &mut x[..10]);
            give(look, || digest(r, &wide(&x[..10])), r)
        },
        |k, look| {
            let r = reference::write_pair_value(s, dealing(k), (k % n) as u16, holder(k), value(k), &mut y[..10]);
            give(look, || of(&r, &wide(&y[..10])), r.number)
        },
    );
    let written = made(10, &|k, out| reference::write_pair_value(s, dealing(k), (k % n) as u16, holder(k), value(k), out));
    t.line(
        &name("read_pair_value"),
        |k, look| {
            let r = ours::read_pair_value(s, &written[k], &mut four);
            give(look, || digest(r, &four), r)
        },
        |k, look| {
            let r = reference::read_pair_value(s, &written[k]);
            give(look, || of(&r, &[]), r.number)
        },
    );

    let verdict = |k: usize| (k % 3 > 0) as u16;
    t.line(
        &name("write_verdict"),
        |k, look| {
            let r = ours::write_verdict(s, dealing(k), holder(k), verdict(k), &mut x[..8]);
            give(look, || digest(r, &wide(&x[..8])), r)
        },
        |k, look| {
            let r = reference::write_verdict(s, dealing(k), holder(k), verdict(k), &mut y[..8]);
            give(look, || of(&r, &wide(&y[..8])), r.number)
        },
    );
    let written = made(8, &|k, out| reference::write_verdict(s, dealing(k), holder(k), verdict(k), out));
    let mut three = [0; 3];
    t.line(
        &name("read_verdict"),
        |k, look| {
            let r = ours::read_verdict(s, &written[k], &mut three);
            give(look, || digest(r, &three), r)
        },
        |k, look| {
            let r = reference::read_verdict(s, &written[k]);
            give(look, || of(&r, &[]), r.number)
        },
    );

    let share = |k: usize| [dealing(k), holder(k), (k % l) as u16, w.g(k, holder(k) as usize)[k % l], 4096 * k as u16];
    t.line(
        &name("write_share"),
        |k, look| {
            let r = ours::write_share(s, share(k), &mut x[..12]);
            give(look, || digest(r, &wide(&x[..12])), r)
        },
        |k, look| {
            let r = reference::write_share(s, share(k), &mut y[..12]);
            give(look, || of(&r, &wide(&y[..12])), r.number)
        },
    );
    let written = made(12, &|k, out| reference::write_share(s, share(k), out));
    let mut five = [0; 5];
    t.line(
        &name("read_share"),
        |k, look| {
            let r = ours::read_share(s, &written[k], &mut five);
            give(look, || digest(r, &five), r)
        },
        |k, look| {
            let r = reference::read_share(s, &written[k]);
            give(look, || of(&r, &[]), r.number)
        },
    );
    // The same share at the next round, in turn the second record and the first.
    let newer = made(12, &|k, out| {
        let [dealing, holder, column, value, round] = share(k);
        reference::write_share(s, [dealing, holder, column, (value + 1) % s.p, round + 1], out)
    });
    let pair = |k: usize| if k % 2 == 0 { (&written[k], &newer[k]) } else { (&newer[k], &written[k]) };
    let mut which = 0;
    t.line(
        &name("superseding"),
        |k, look| {
            let (first, second) = pair(k);
            let r = ours::superseding(s, first, second, &mut which);
            give(look, || digest(r, &[which]), r | which)
        },
        |k, look| {
            let (first, second) = pair(k);
            let r = reference::superseding(s, first, second);
            give(look, || of(&r, &[]), r.values[0])
        },
    );
}

/// The records of a second dealing.
pub fn mapped(t: &mut Table, w: &World) {
    let s = w.s;
    let (l, d, n) = (s.l as usize, s.d(), s.n as usize);
    let name = |call: &str| format!("{call} p {}", s.p);
    let holder = |k: usize| (k * 7 % n) as u16;
    let dealing = |k: usize| 1 + 4095 * k as u16;
    let size = 6 + 4 * d + 2 * l * l;
    let (mut x, mut y) = (vec![0u8; size], vec![0u8; size]);
    let part = |k: usize| w.second_part(k, holder(k) as usize);
    t.line(
        &name("write_mapped_dealing"),
        |k, look| {
            let r = ours::write_mapped_dealing(s, dealing(k), holder(k), part(k), &mut x);
            give(look, || digest(r, &wide(&x)), r)
        },
        |k, look| {
            let r = reference::write_mapped_dealing(s, dealing(k), holder(k), part(k), &mut y);
            give(look, || of(&r, &wide(&y)), r.number)
        },
    );
    let written = made(size, &|k, out| reference::write_mapped_dealing(s, dealing(k), holder(k), part(k), out));
    let lists = || [vec![0u16; d], vec![0; d], vec![0; l * l]];
    let (mut a, mut b, mut two) = (lists(), lists(), [0; 2]);
    t.line(
        &name("read_mapped_dealing"),
        |k, look| {
            let r = ours::read_mapped_dealing(s, &written[k], a.each_mut().map(|x| &mut x[..]), &mut two);
            give(look, || digest(r, &[&two[..], &a.concat()].concat()), r)
        },
        |k, look| {
            let r = reference::read_mapped_dealing(s, &written[k], b.each_mut().map(|x| &mut x[..]));
            give(look, || of(&r, &b.concat()), r.number)
        },
    );

    let value = |k: usize| w.second(k, holder(k) as usize).values[k % n];
    t.line(
        &name("write_mapped_pair_value"),
        |k, look| {
            let r = ours::write_mapped_pair_value(s, dealing(k), (k % n) as u16, holder(k), value(k), &mut x[..10]);
            give(look, || digest(r, &wide(&x[..10])), r)
        },
        |k, look| {
            let r = reference::write_mapped_pair_value(s, dealing(k), (k % n) as u16, holder(k), value(k), &mut y[..10]);
            give(look, || of(&r, &wide(&y[..10])), r.number)
        },
    );
    let written = made(10, &|k, out| reference::write_mapped_pair_value(s, dealing(k), (k % n) as u16, holder(k), value(k), out));
    let mut four = [0; 4];
    t.line(
        &name("read_mapped_pair_value"),
        |k, look| {
            let r = ours::read_mapped_pair_value(s, &written[k], &mut four);
            give(look, || digest(r, &four), r)
        },
        |k, look| {
            let r = reference::read_mapped_pair_value(s, &written[k]);
            give(look, || of(&r, &[]), r.number)
        },
    );
}

/// The record of a zero dealing.
pub fn zeros(t: &mut Table, w: &World) {
    let s = w.s;
    let (d, e, n) = (s.d(), s.e as usize, s.n as usize);
    let name = |call: &str| format!("{call} p {}", s.p);
    let holder = |k: usize| (k * 7 % n) as u16;
    let dealing = |k: usize| 1 + 4095 * k as u16;
    let size = 6 + 2 * d + 2 * e;
    let (mut x, mut y) = (vec![0u8; size], vec![0u8; size]);
    let part = |k: usize| w.zero(k, holder(k) as usize);
    t.line(
        &name("write_zero_dealing"),
        |k, look| {
            let [g, h, _] = part(k);
            let r = ours::write_zero_dealing(s, dealing(k), holder(k), g, h, &mut x);
            give(look, || digest(r, &wide(&x)), r)
        },
        |k, look| {
            let [g, h, _] = part(k);
            let r = reference::write_zero_dealing(s, dealing(k), holder(k), g, h, &mut y);
            give(look, || of(&r, &wide(&y)), r.number)
        },
    );
    let written = made(size, &|k, out| {
        let [g, h, _] = part(k);
        reference::write_zero_dealing(s, dealing(k), holder(k), g, h, out)
    });
    let lists = || (vec![0u16; d], vec![0; e]);
    let ((mut g, mut h), (mut other_g, mut other_h), mut two) = (lists(), lists(), [0; 2]);
    t.line(
        &name("read_zero_dealing"),
        |k, look| {
            let r = ours::read_zero_dealing(s, &written[k], &mut g, &mut h, &mut two);
            give(look, || digest(r, &[&two[..], &g, &h].concat()), r)
        },
        |k, look| {
            let r = reference::read_zero_dealing(s, &written[k], &mut other_g, &mut other_h);
            give(look, || of(&r, &[&other_g[..], &other_h].concat()), r.number)
        },
    );
}

/// Sound files of accepted dealings, without and with a second dealing, and of zero dealings.
pub fn files(t: &mut Table, w: &World) {
    let (mut out, mut other) = ([0u8; reference::TEXT], [0u8; reference::TEXT]);
    let (mut count, mut byte) = (0, 0);
    let (mut contents, mut others) = ([0u16; reference::CONTENTS], [0u16; reference::CONTENTS]);
    for (words, kind) in [("", Kind::Plain), (", with a map", Kind::Mapped), (", of zeros", Kind::Zero)] {
        let name = |call: &str| format!("{call}{words} p {}", w.s.p);
        let files: Vec<Vec<u8>> = (0..TURN).map(|k| file(w, k, k as u16 * 7 % w.s.n, kind)).collect();
        t.line(
            &name("read_file"),
            |k, look| {
                let r = ours::read_file(&files[k], &mut contents, &mut byte);
                give(look, || digest(r, &contents), r)
            },
            |k, look| {
                let r = reference::read_file(&files[k], &mut others);
                give(look, || of(&r, &others), r.number)
            },
        );
        t.line(
            &name("holder_file"),
            |k, look| {
                let r = ours::holder_file(&files[k], &mut out, &mut count, &mut byte);
                give(look, || digest(r, &[&[count as u16][..], &wide(&out[..count])].concat()), r)
            },
            |k, look| {
                let r = reference::holder_file(&files[k], &mut other);
                give(look, || of(&r, &wide(&other[..r.values[0] as usize])), r.number)
            },
        );
    }
}
