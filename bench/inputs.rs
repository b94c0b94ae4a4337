//! Inputs: setups, dealings, sets and files, drawn from a seed.

use crate::TURN;
use reference::{Mapped, Params, Second};

/// SplitMix64.
pub struct Random(pub u64);

impl Random {
    pub fn next(&mut self) -> u64 {
        self.0 = self.0.wrapping_add(0x9E3779B97F4A7C15);
        let mut z = self.0;
        z = (z ^ z >> 30).wrapping_mul(0xBF58476D1CE4E5B9);
        z = (z ^ z >> 27).wrapping_mul(0x94D049BB133111EB);
        z ^ z >> 31
    }
    pub fn below(&mut self, n: usize) -> usize {
        (self.next() % n as u64) as usize
    }
    pub fn elements(&mut self, p: u16, n: usize) -> Vec<u16> {
        (0..n).map(|_| self.below(p as usize) as u16).collect()
    }
    pub fn corrections(&mut self, n: usize) -> Vec<i32> {
        (0..n).map(|_| self.below(65521) as i32 - 32760).collect()
    }
    pub fn shuffle<T>(&mut self, xs: &mut [T]) {
        for i in (1..xs.len()).rev() {
            xs.swap(i, self.below(i + 1));
        }
    }
    /// So many holders out of n.
    pub fn set(&mut self, n: u16, members: usize) -> u32 {
        let mut set = 0u32;
        while (set.count_ones() as usize) < members {
            set |= 1 << self.below(n as usize);
        }
        set
    }
}

pub struct Deal {
    pub m: Vec<u16>,
    pub secrets: Vec<u16>,
    pub random: Vec<u16>,
    pub gs: Vec<u16>,
    pub hs: Vec<u16>,
    /// The values that each holder receives, by receiver and then by sender.
    pub values: Vec<u16>,
    pub twin: Twin,
    pub zero: Zero,
}

/// A second dealing, tied to the first by a map.
pub struct Twin {
    pub phi: Vec<u16>,
    pub random: Vec<u16>,
    pub gs: Vec<u16>,
    pub hs: Vec<u16>,
    pub values: Vec<u16>,
}

/// A zero dealing; a holder's part of `hs` has e entries.
pub struct Zero {
    pub random: Vec<u16>,
    pub gs: Vec<u16>,
    pub hs: Vec<u16>,
    pub values: Vec<u16>,
}

impl Deal {
    fn new(s: Params, m: Vec<u16>, r: &mut Random, maps: &mut Random, zeros: &mut Random) -> Deal {
        let (l, d, n) = (s.l as usize, s.d(), s.n as usize);
        let (secrets, random) = (r.elements(s.p, l * l), r.elements(s.p, d * d - l * l));
        let (mut gs, mut hs) = (vec![0; n * d], vec![0; n * d]);
        reference::deal_all(s, &m, &secrets, &random, &mut gs, &mut hs);
        let received =
            |gs: &[u16]| (0..n * n).map(|k| reference::pair_value(s, &m, &gs[k % n * d..][..d], (k / n) as u16).values[0]).collect();
        let (phi, random2) = (maps.elements(s.p, l * l), maps.elements(s.p, s.e as usize * d));
        let (mut gs2, mut hs2) = (vec![0; n * d], vec![0; n * d]);
        let from = Mapped { secrets: &secrets, random: &random, phi: &phi, random2: &random2 };
        reference::deal_mapped_all(s, &m, from, [&mut gs.clone(), &mut hs.clone(), &mut gs2, &mut hs2]);
        let twin = Twin { phi, random: random2, values: received(&gs2), gs: gs2, hs: hs2 };
        let random0 = zeros.elements(s.p, s.e as usize * d);
        let (mut gs0, mut hs0) = (vec![0; n * d], vec![0; n * s.e as usize]);
        reference::deal_zero_all(s, &m, &random0, &mut gs0, &mut hs0);
        let zero = Zero { random: random0, values: received(&gs0), gs: gs0, hs: hs0 };
        Deal { values: received(&gs), m, secrets, random, gs, hs, twin, zero }
    }

    /// What both dealings are made from.
    pub fn mapped(&self) -> Mapped<'_> {
        Mapped { secrets: &self.secrets, random: &self.random, phi: &self.twin.phi, random2: &self.twin.random }
    }
}

pub struct World {
    pub s: Params,
    pub deals: Vec<Deal>,
}

impl World {
    /// A dealing for each input. Its holders stand in another order each time, so that the matrix changes too.
    pub fn new(p: u16, l: u16, e: u16, n: u16) -> World {
        World::with(p, l, e, n, true)
    }

    pub fn with(p: u16, l: u16, e: u16, n: u16, turned: bool) -> World {
        let s = Params { p, l, e, n };
        let (mut r, mut maps, mut zeros) = (Random(p as u64), Random(!p as u64), Random(p as u64 + 65536));
        let mut m = vec![0; s.entries()];
        // Where the field has too few points, any matrix by which all holders determine the secrets.
        if reference::points(s, &mut m).number != 0 {
            while reference::determines(s, &m, everyone(s)).values[0] == 0 {
                m = r.elements(p, s.entries());
            }
        }
        let mut rows: Vec<Vec<u16>> = m.chunks(s.d()).map(|row| row.to_vec()).collect();
        let deals = (0..TURN)
            .map(|_| {
                if turned {
                    r.shuffle(&mut rows);
                }
                Deal::new(s, rows.concat(), &mut r, &mut maps, &mut zeros)
            })
            .collect();
        World { s, deals }
    }

    pub fn m(&self, k: usize) -> &[u16] {
        &self.deals[k].m
    }
    pub fn g(&self, k: usize, i: usize) -> &[u16] {
        &self.deals[k].gs[i * self.s.d()..][..self.s.d()]
    }
    pub fn h(&self, k: usize, i: usize) -> &[u16] {
        &self.deals[k].hs[i * self.s.d()..][..self.s.d()]
    }
    pub fn values(&self, k: usize, i: usize) -> &[u16] {
        &self.deals[k].values[i * self.s.n as usize..][..self.s.n as usize]
    }
    /// What holder i judges of the second dealing.
    pub fn second(&self, k: usize, i: usize) -> Second<'_> {
        let (x, d, n) = (&self.deals[k].twin, self.s.d(), self.s.n as usize);
        Second { phi: &x.phi, h: &x.hs[i * d..][..d], values: &x.values[i * n..][..n] }
    }
    /// Holder i's part of the second dealing, and the map.
    pub fn second_part(&self, k: usize, i: usize) -> [&[u16]; 3] {
        let (x, d) = (&self.deals[k].twin, self.s.d());
        [&x.gs[i * d..][..d], &x.hs[i * d..][..d], &x.phi]
    }
    /// Holder i's part of the zero dealing, and the values that it receives in it.
    pub fn zero(&self, k: usize, i: usize) -> [&[u16]; 3] {
        let (x, d, e, n) = (&self.deals[k].zero, self.s.d(), self.s.e as usize, self.s.n as usize);
        [&x.gs[i * d..][..d], &x.hs[i * e..][..e], &x.values[i * n..][..n]]
    }
    /// Shares of column b of dealing k, by rising holder.
    pub fn shares(&self, k: usize, set: u32, b: usize) -> Vec<u16> {
        members(set).map(|i| self.g(k, i)[b]).collect()
    }
    /// The key of dealing k, where its secrets are bytes.
    pub fn key(&self, k: usize) -> Vec<u8> {
        self.deals[k].secrets.iter().map(|&x| x as u8).collect()
    }
    /// Shares of all four columns of a key, by column and then by rising holder.
    pub fn key_shares(&self, k: usize, set: u32) -> Vec<u16> {
        (0..4).flat_map(|b| self.shares(k, set, b)).collect()
    }
    /// Sets of so many members, one for each input; if asked, such that determine the secrets.
    pub fn sets(&self, members: usize, determining: bool) -> Vec<u32> {
        let mut r = Random(members as u64);
        (0..TURN)
            .map(|k| loop {
                let set = r.set(self.s.n, members);
                if !determining || reference::determines(self.s, self.m(k), set).values[0] == 1 {
                    return set;
                }
            })
            .collect()
    }
}

pub fn everyone(s: Params) -> u32 {
    if s.n == 32 {
        u32::MAX
    } else {
        (1 << s.n) - 1
    }
}

pub fn members(set: u32) -> impl Iterator<Item = usize> {
    (0..32).filter(move |i| set >> i & 1 == 1)
}

/// The board's setup, one matrix for all keys, and keys of bytes.
pub fn board() -> World {
    let mut w = World::with(257, 4, 3, 16, false);
    let mut r = Random(9400);
    for deal in &mut w.deals {
        deal.secrets = r.elements(256, 16);
        reference::deal_all(w.s, &deal.m, &deal.secrets, &deal.random, &mut deal.gs, &mut deal.hs);
    }
    w
}

/// What a holder's file is of: a dealing, two that are tied by a map, or a zero dealing.
#[derive(Clone, Copy, PartialEq)]
pub enum Kind {
    Plain,
    Mapped,
    Zero,
}

/// A holder's file of an accepted dealing.
pub fn file(w: &World, k: usize, holder: u16, kind: Kind) -> Vec<u8> {
    let (s, i) = (w.s, holder as usize);
    let mut bytes = vec![0; 10 + 2 * s.entries()];
    reference::write_setup(s, w.m(k), &mut bytes);
    let [g, h, values] = if kind == Kind::Zero { w.zero(k, i) } else { [w.g(k, i), w.h(k, i), w.values(k, i)] };
    let mut record = vec![0; 6 + 2 * g.len() + 2 * h.len()];
    match kind {
        Kind::Zero => reference::write_zero_dealing(s, 7, holder, g, h, &mut record),
        _ => reference::write_dealing(s, 7, holder, g, h, &mut record),
    };
    bytes.extend(record);
    if kind == Kind::Mapped {
        let mut record = vec![0; 6 + 4 * s.d() + 2 * s.l as usize * s.l as usize];
        reference::write_mapped_dealing(s, 7, holder, w.second_part(k, i), &mut record);
        bytes.extend(record);
    }
    for (j, &value) in (0..).zip(values) {
        let mut record = [0; 10];
        reference::write_pair_value(s, 7, j, holder, value, &mut record);
        bytes.extend(record);
    }
    if kind == Kind::Mapped {
        for (j, &value) in (0..).zip(w.second(k, i).values) {
            let mut record = [0; 10];
            reference::write_mapped_pair_value(s, 7, j, holder, value, &mut record);
            bytes.extend(record);
        }
    }
    for j in 0..s.n {
        let mut record = [0; 8];
        reference::write_verdict(s, 7, j, 1, &mut record);
        bytes.extend(record);
    }
    bytes
}

/// So many rounds for each input: all of one round, the inputs at different ones.
pub fn alike(count: usize) -> Vec<Vec<u16>> {
    (0..TURN).map(|k| vec![4095 * k as u16; count]).collect()
}

/// The same, but that the last is another.
pub fn apart(count: usize) -> Vec<Vec<u16>> {
    let mut all = alike(count);
    all.iter_mut().for_each(|x| *x.last_mut().unwrap() += 1);
    all
}
