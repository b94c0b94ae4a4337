//! The library's calls on slices, with the reference's parameters.

use crate::raw::*;
use reference::{Mapped, Params, Parts, Second};

pub fn points(s: Params, m: &mut [u16]) -> u16 {
    unsafe { mavdrusek_points(s.p, s.l, s.e, s.n, m.as_mut_ptr(), m.len()) }
}
#[rustfmt::skip]
pub fn deal(s: Params, m: &[u16], secrets: &[u16], random: &[u16], holder: u16, g: &mut [u16], h: &mut [u16]) -> u16 {
    unsafe { mavdrusek_deal(s.p, s.l, s.e, s.n, m.as_ptr(), m.len(), secrets.as_ptr(), secrets.len(), random.as_ptr(), random.len(), holder,
                            g.as_mut_ptr(), g.len(), h.as_mut_ptr(), h.len()) }
}
#[rustfmt::skip]
pub fn deal_all(s: Params, m: &[u16], secrets: &[u16], random: &[u16], gs: &mut [u16], hs: &mut [u16]) -> u16 {
    unsafe { mavdrusek_deal_all(s.p, s.l, s.e, s.n, m.as_ptr(), m.len(), secrets.as_ptr(), secrets.len(), random.as_ptr(), random.len(),
                                gs.as_mut_ptr(), gs.len(), hs.as_mut_ptr(), hs.len()) }
}
#[rustfmt::skip]
pub fn deal_mapped(s: Params, m: &[u16], x: Mapped, holder: u16, [g, h, g2, h2]: Parts) -> u16 {
    unsafe { mavdrusek_deal_mapped(s.p, s.l, s.e, s.n, m.as_ptr(), m.len(), x.secrets.as_ptr(), x.secrets.len(), x.random.as_ptr(),
                                   x.random.len(), x.phi.as_ptr(), x.phi.len(), x.random2.as_ptr(), x.random2.len(), holder, g.as_mut_ptr(),
                                   g.len(), h.as_mut_ptr(), h.len(), g2.as_mut_ptr(), g2.len(), h2.as_mut_ptr(), h2.len()) }
}
#[rustfmt::skip]
pub fn deal_mapped_all(s: Params, m: &[u16], x: Mapped, [gs, hs, gs2, hs2]: Parts) -> u16 {
    unsafe { mavdrusek_deal_mapped_all(s.p, s.l, s.e, s.n, m.as_ptr(), m.len(), x.secrets.as_ptr(), x.secrets.len(), x.random.as_ptr(),
                                       x.random.len(), x.phi.as_ptr(), x.phi.len(), x.random2.as_ptr(), x.random2.len(), gs.as_mut_ptr(),
                                       gs.len(), hs.as_mut_ptr(), hs.len(), gs2.as_mut_ptr(), gs2.len(), hs2.as_mut_ptr(), hs2.len()) }
}
#[rustfmt::skip]
pub fn deal_zero(s: Params, m: &[u16], random: &[u16], holder: u16, g: &mut [u16], h: &mut [u16]) -> u16 {
    unsafe { mavdrusek_deal_zero(s.p, s.l, s.e, s.n, m.as_ptr(), m.len(), random.as_ptr(), random.len(), holder, g.as_mut_ptr(), g.len(),
                                 h.as_mut_ptr(), h.len()) }
}
#[rustfmt::skip]
pub fn deal_zero_all(s: Params, m: &[u16], random: &[u16], gs: &mut [u16], hs: &mut [u16]) -> u16 {
    unsafe { mavdrusek_deal_zero_all(s.p, s.l, s.e, s.n, m.as_ptr(), m.len(), random.as_ptr(), random.len(), gs.as_mut_ptr(), gs.len(),
                                     hs.as_mut_ptr(), hs.len()) }
}
pub fn pair_value(s: Params, m: &[u16], g: &[u16], to: u16, value: &mut u16) -> u16 {
    unsafe { mavdrusek_pair_value(s.p, s.l, s.e, s.n, m.as_ptr(), m.len(), g.as_ptr(), g.len(), to, value) }
}
#[rustfmt::skip]
pub fn judge(s: Params, m: &[u16], h: &[u16], values: &[u16], verdict: &mut u16, named: &mut u16) -> u16 {
    unsafe { mavdrusek_judge(s.p, s.l, s.e, s.n, m.as_ptr(), m.len(), h.as_ptr(), h.len(), values.as_ptr(), values.len(), verdict, named) }
}
#[rustfmt::skip]
pub fn judge_mapped(s: Params, m: &[u16], h: &[u16], values: &[u16], x: Second, verdict: &mut u16, named: &mut u16) -> u16 {
    unsafe { mavdrusek_judge_mapped(s.p, s.l, s.e, s.n, m.as_ptr(), m.len(), h.as_ptr(), h.len(), values.as_ptr(), values.len(),
                                    x.phi.as_ptr(), x.phi.len(), x.h.as_ptr(), x.h.len(), x.values.as_ptr(), x.values.len(), verdict, named) }
}
#[rustfmt::skip]
pub fn judge_zero(s: Params, m: &[u16], h: &[u16], values: &[u16], verdict: &mut u16, named: &mut u16) -> u16 {
    unsafe { mavdrusek_judge_zero(s.p, s.l, s.e, s.n, m.as_ptr(), m.len(), h.as_ptr(), h.len(), values.as_ptr(), values.len(), verdict,
                                  named) }
}
#[rustfmt::skip]
pub fn outcome(s: Params, g: &[u16], verdicts: &[u16], shares: &mut [u16], kept: &mut u16, named: &mut u16) -> u16 {
    unsafe { mavdrusek_outcome(s.p, s.l, s.e, s.n, g.as_ptr(), g.len(), verdicts.as_ptr(), verdicts.len(), shares.as_mut_ptr(),
                               shares.len(), kept, named) }
}
#[rustfmt::skip]
pub fn rehearse(s: Params, m: &[u16], gs: &[u16], hs: &[u16], found: &mut [u16; 3]) -> u16 {
    let [fair, checker, sender] = found;
    unsafe { mavdrusek_rehearse(s.p, s.l, s.e, s.n, m.as_ptr(), m.len(), gs.as_ptr(), gs.len(), hs.as_ptr(), hs.len(), fair, checker,
                                sender) }
}
#[rustfmt::skip]
pub fn combine(p: u16, constants: &[u16], shares: &[u16], rounds: &[u16], [value, round]: &mut [u16; 2]) -> u16 {
    unsafe { mavdrusek_combine(p, constants.as_ptr(), constants.len(), shares.as_ptr(), shares.len(), rounds.as_ptr(), rounds.len(), value,
                               round) }
}
pub fn refresh(p: u16, share: u16, round: u16, zero: u16, [value, next]: &mut [u16; 2]) -> u16 {
    unsafe { mavdrusek_refresh(p, share, round, zero, value, next) }
}
pub fn determines(s: Params, m: &[u16], set: u32, yes: &mut u16) -> u16 {
    unsafe { mavdrusek_determines(s.p, s.l, s.e, s.n, m.as_ptr(), m.len(), set, yes) }
}
pub fn private(s: Params, m: &[u16], set: u32, yes: &mut u16) -> u16 {
    unsafe { mavdrusek_private(s.p, s.l, s.e, s.n, m.as_ptr(), m.len(), set, yes) }
}
pub fn judge_set(s: Params, m: &[u16], set: u32, position: u16, out: &mut [u16], kind: &mut u16, steps: &mut u16) -> u16 {
    unsafe { mavdrusek_judge_set(s.p, s.l, s.e, s.n, m.as_ptr(), m.len(), set, position, out.as_mut_ptr(), out.len(), kind, steps) }
}
#[rustfmt::skip]
pub fn open(s: Params, m: &[u16], set: u32, shares: &[u16], rounds: &[u16], secrets: &mut [u16], position: &mut u16) -> u16 {
    unsafe { mavdrusek_open(s.p, s.l, s.e, s.n, m.as_ptr(), m.len(), set, shares.as_ptr(), shares.len(), rounds.as_ptr(), rounds.len(),
                            secrets.as_mut_ptr(), secrets.len(), position) }
}
pub fn hold_corrections(p: u16, corrections: &[i32], residues: &mut [u16]) -> u16 {
    unsafe { mavdrusek_hold_corrections(p, corrections.as_ptr(), corrections.len(), residues.as_mut_ptr(), residues.len()) }
}
pub fn read_corrections(p: u16, residues: &[u16], corrections: &mut [i32]) -> u16 {
    unsafe { mavdrusek_read_corrections(p, residues.as_ptr(), residues.len(), corrections.as_mut_ptr(), corrections.len()) }
}
#[rustfmt::skip]
pub fn combine_signed(p: u16, constants: &[i32], shares: &[u16], rounds: &[u16], [value, round]: &mut [u16; 2]) -> u16 {
    unsafe { mavdrusek_combine_signed(p, constants.as_ptr(), constants.len(), shares.as_ptr(), shares.len(), rounds.as_ptr(), rounds.len(),
                                      value, round) }
}
#[rustfmt::skip]
pub fn open_signed(s: Params, m: &[u16], set: u32, shares: &[u16], rounds: &[u16], corrections: &mut [i32], position: &mut u16) -> u16 {
    unsafe { mavdrusek_open_signed(s.p, s.l, s.e, s.n, m.as_ptr(), m.len(), set, shares.as_ptr(), shares.len(), rounds.as_ptr(),
                                   rounds.len(), corrections.as_mut_ptr(), corrections.len(), position) }
}
#[rustfmt::skip]
pub fn deal_key(key: &[u8], random: &[u16], gs: &mut [u16], hs: &mut [u16]) -> u16 {
    unsafe { mavdrusek_deal_key(key.as_ptr(), key.len(), random.as_ptr(), random.len(), gs.as_mut_ptr(), gs.len(), hs.as_mut_ptr(),
                                hs.len()) }
}
#[rustfmt::skip]
pub fn open_key(set: u32, shares: &[u16], rounds: &[u16], key: &mut [u8], position: &mut u16) -> u16 {
    unsafe { mavdrusek_open_key(set, shares.as_ptr(), shares.len(), rounds.as_ptr(), rounds.len(), key.as_mut_ptr(), key.len(), position) }
}
pub fn write_setup(s: Params, m: &[u16], out: &mut [u8]) -> u16 {
    unsafe { mavdrusek_write_setup(s.p, s.l, s.e, s.n, m.as_ptr(), m.len(), out.as_mut_ptr(), out.len()) }
}
#[rustfmt::skip]
pub fn write_dealing(s: Params, dealing: u16, holder: u16, g: &[u16], h: &[u16], out: &mut [u8]) -> u16 {
    unsafe { mavdrusek_write_dealing(s.p, s.l, s.e, s.n, dealing, holder, g.as_ptr(), g.len(), h.as_ptr(), h.len(), out.as_mut_ptr(),
                                     out.len()) }
}
pub fn write_pair_value(s: Params, dealing: u16, from: u16, to: u16, value: u16, out: &mut [u8]) -> u16 {
    unsafe { mavdrusek_write_pair_value(s.p, s.l, s.e, s.n, dealing, from, to, value, out.as_mut_ptr(), out.len()) }
}
#[rustfmt::skip]
pub fn write_mapped_dealing(s: Params, dealing: u16, holder: u16, [g, h, phi]: [&[u16]; 3], out: &mut [u8]) -> u16 {
    unsafe { mavdrusek_write_mapped_dealing(s.p, s.l, s.e, s.n, dealing, holder, g.as_ptr(), g.len(), h.as_ptr(), h.len(), phi.as_ptr(),
                                            phi.len(), out.as_mut_ptr(), out.len()) }
}
pub fn write_mapped_pair_value(s: Params, dealing: u16, from: u16, to: u16, value: u16, out: &mut [u8]) -> u16 {
    unsafe { mavdrusek_write_mapped_pair_value(s.p, s.l, s.e, s.n, dealing, from, to, value, out.as_mut_ptr(), out.len()) }
}
#[rustfmt::skip]
pub fn write_zero_dealing(s: Params, dealing: u16, holder: u16, g: &[u16], h: &[u16], out: &mut [u8]) -> u16 {
    unsafe { mavdrusek_write_zero_dealing(s.p, s.l, s.e, s.n, dealing, holder, g.as_ptr(), g.len(), h.as_ptr(), h.len(), out.as_mut_ptr(),
                                          out.len()) }
}
pub fn write_verdict(s: Params, dealing: u16, holder: u16, verdict: u16, out: &mut [u8]) -> u16 {
    unsafe { mavdrusek_write_verdict(s.p, s.l, s.e, s.n, dealing, holder, verdict, out.as_mut_ptr(), out.len()) }
}
pub fn write_share(s: Params, [dealing, holder, column, value, round]: [u16; 5], out: &mut [u8]) -> u16 {
    unsafe { mavdrusek_write_share(s.p, s.l, s.e, s.n, dealing, holder, column, value, round, out.as_mut_ptr(), out.len()) }
}
pub fn read_setup_head(part: &[u8], x: &mut [u16; 4]) -> u16 {
    let [p, l, e, n] = x;
    unsafe { mavdrusek_read_setup_head(part.as_ptr(), part.len(), p, l, e, n) }
}
pub fn read_setup_matrix(part: &[u8], m: &mut [u16]) -> u16 {
    unsafe { mavdrusek_read_setup_matrix(part.as_ptr(), part.len(), m.as_mut_ptr(), m.len()) }
}
#[rustfmt::skip]
pub fn read_dealing(s: Params, part: &[u8], g: &mut [u16], h: &mut [u16], x: &mut [u16; 2]) -> u16 {
    let [dealing, holder] = x;
    unsafe { mavdrusek_read_dealing(s.p, s.l, s.e, s.n, part.as_ptr(), part.len(), g.as_mut_ptr(), g.len(), h.as_mut_ptr(), h.len(),
                                    dealing, holder) }
}
pub fn read_pair_value(s: Params, part: &[u8], x: &mut [u16; 4]) -> u16 {
    let [dealing, from, to, value] = x;
    unsafe { mavdrusek_read_pair_value(s.p, s.l, s.e, s.n, part.as_ptr(), part.len(), dealing, from, to, value) }
}
#[rustfmt::skip]
pub fn read_mapped_dealing(s: Params, part: &[u8], [g, h, phi]: [&mut [u16]; 3], x: &mut [u16; 2]) -> u16 {
    let [dealing, holder] = x;
    unsafe { mavdrusek_read_mapped_dealing(s.p, s.l, s.e, s.n, part.as_ptr(), part.len(), g.as_mut_ptr(), g.len(), h.as_mut_ptr(), h.len(),
                                           phi.as_mut_ptr(), phi.len(), dealing, holder) }
}
pub fn read_mapped_pair_value(s: Params, part: &[u8], x: &mut [u16; 4]) -> u16 {
    let [dealing, from, to, value] = x;
    unsafe { mavdrusek_read_mapped_pair_value(s.p, s.l, s.e, s.n, part.as_ptr(), part.len(), dealing, from, to, value) }
}
#[rustfmt::skip]
pub fn read_zero_dealing(s: Params, part: &[u8], g: &mut [u16], h: &mut [u16], x: &mut [u16; 2]) -> u16 {
    let [dealing, holder] = x;
    unsafe { mavdrusek_read_zero_dealing(s.p, s.l, s.e, s.n, part.as_ptr(), part.len(), g.as_mut_ptr(), g.len(), h.as_mut_ptr(), h.len(),
                                         dealing, holder) }
}
pub fn read_verdict(s: Params, part: &[u8], x: &mut [u16; 3]) -> u16 {
    let [dealing, holder, verdict] = x;
    unsafe { mavdrusek_read_verdict(s.p, s.l, s.e, s.n, part.as_ptr(), part.len(), dealing, holder, verdict) }
}
pub fn read_share(s: Params, part: &[u8], x: &mut [u16; 5]) -> u16 {
    let [dealing, holder, column, value, round] = x;
    unsafe { mavdrusek_read_share(s.p, s.l, s.e, s.n, part.as_ptr(), part.len(), dealing, holder, column, value, round) }
}
pub fn superseding(s: Params, first: &[u8], second: &[u8], which: &mut u16) -> u16 {
    unsafe { mavdrusek_superseding(s.p, s.l, s.e, s.n, first.as_ptr(), first.len(), second.as_ptr(), second.len(), which) }
}
pub fn read_file(file: &[u8], contents: &mut [u16], byte: &mut usize) -> u16 {
    unsafe { mavdrusek_read_file(file.as_ptr(), file.len(), contents.as_mut_ptr(), contents.len(), byte) }
}
pub fn holder_file(file: &[u8], out: &mut [u8], count: &mut usize, byte: &mut usize) -> u16 {
    unsafe { mavdrusek_holder_file(file.as_ptr(), file.len(), out.as_mut_ptr(), out.len(), count, byte) }
}
