//! Seeded draws of cases: sizes, matrices, calls in order, and damage. Calls that take shares are drawn without rounds, and an SH without its round;
//! `with_rounds` puts them in.

use crate::cases::*;
use reference::*;

/// SplitMix64.
pub struct Random(pub u64);

impl Random {
    pub fn next(&mut self) -> u64 {
        self.0 = self.0.wrapping_add(0x9E3779B97F4A7C15);
        let mut z = self.0;
        z = (z ^ z >> 30).wrapping_mul(0xBF58476D1CE4E5B9);
        z = (z ^ z >> 27).wrapping_mul(0x94D049BB133111EB);
        z ^ z >> 31
    }
    pub fn below(&mut self, n: usize) -> usize {
        (self.next() % n as u64) as usize
    }
    pub fn chance(&mut self, one_in: usize) -> bool {
        self.below(one_in) == 0
    }
    pub fn one<T: Copy>(&mut self, of: &[T]) -> T {
        of[self.below(of.len())]
    }
    pub fn elements(&mut self, p: u16, n: usize) -> Vec<u16> {
        (0..n).map(|_| self.below(p as usize) as u16).collect()
    }
    pub fn shuffle<T>(&mut self, xs: &mut [T]) {
        for k in (1..xs.len()).rev() {
            xs.swap(k, self.below(k + 1));
        }
    }
    /// So many holders out of n.
    pub fn set(&mut self, n: usize, size: usize) -> u32 {
        let mut set = 0u32;
        while (set.count_ones() as usize) < size {
            set |= 1 << self.below(n);
        }
        set
    }
    /// A round: the first or the last ones, or any.
    pub fn round(&mut self) -> u16 {
        let any = self.next() as u16;
        self.one(&[0, 1, 65534, 65535, any, any])
    }
    /// Corrections or constants: the ends of the range, 0, those next to them, or any.
    pub fn corrections(&mut self, n: usize) -> Vec<i32> {
        let mut one = || {
            let any = self.below(65521) as i32 - 32760;
            self.one(&[-32760, -32759, -1, 0, 1, 32759, 32760, any, any, any])
        };
        (0..n).map(|_| one()).collect()
    }
    /// A number beyond the range: one past it, near p or a multiple of it, at the ends of 32 bits, or any.
    pub fn beyond(&mut self) -> i32 {
        let any = 32761 + self.below(i32::MAX as usize - 32761) as i32;
        self.one(&[-32761, 32761, -65521, 65521, -65520, 65536, 131042, i32::MIN, i32::MAX, any, -any])
    }
    /// What a lent buffer holds before a call.
    pub fn noise(&mut self, n: usize) -> Vec<u16> {
        self.elements(u16::MAX, n)
    }
    pub fn noise_bytes(&mut self, n: usize) -> Vec<u8> {
        (0..n).map(|_| self.below(256) as u8).collect()
    }
}

// The kinds of matrix.
pub const ZERO: usize = 0;
pub const REPEATED: usize = 1;
pub const DEPENDENT: usize = 2;
pub const POINTS: usize = 3;
pub const ARBITRARY: usize = 5;
pub const SPARSE: usize = 6;
pub const SUPPLIED: usize = 7;
pub const TIED: usize = 8;

// The sorts of a row that is a combination of others: 0, one of them, a multiple of one, the sum of two, and one with a factor other than 0 for each.
pub const NONE: usize = 0;
pub const COPY: usize = 1;
pub const MULTIPLE: usize = 2;
pub const SUM: usize = 3;
pub const EACH: usize = 4;

/// A combination of rows of d entries, of one of these sorts; of no rows it is 0.
pub fn combination(r: &mut Random, p: u16, rows: &[u16], d: usize, sort: usize) -> Vec<u16> {
    let mut factors = vec![0; rows.len() / d];
    if !factors.is_empty() {
        let (one, other) = (r.below(factors.len()), r.below(factors.len()));
        let mut factor = || 1 + r.below(p as usize - 1) as u64;
        match sort {
            NONE => {}
            COPY => factors[one] = 1,
            MULTIPLE => factors[one] = factor(),
            SUM => [one, other].iter().for_each(|&k| factors[k] += 1),
            _ => factors.iter_mut().for_each(|x| *x = factor()),
        }
    }
    (0..d).map(|c| (rows.chunks(d).zip(&factors).map(|(row, x)| row[c] as u64 * x % p as u64).sum::<u64>() % p as u64) as u16).collect()
}

/// What a case is drawn from.
pub struct Draw<'a> {
    r: &'a mut Random,
    s: Params,
    m: Vec<u16>,
}

impl<'a> Draw<'a> {
    /// Small sizes, now and then the largest, and a matrix of any kind but sparse.
    pub fn new(r: &'a mut Random) -> Self {
        let p = PRIMES[r.below(5)];
        let large = r.chance(12);
        let pick = |r: &mut Random, small: usize, most: usize| if large { most } else { 1 + r.below(small) } as u16;
        let (l, e, n) = (pick(r, 3, 8), pick(r, 3, 8), pick(r, 6, 32));
        let s = Params { p, l, e, n };
        let m = r.elements(p, s.entries());
        let kind = r.below(6);
        Draw::of(r, s, m, kind)
    }

    /// Any sizes and a matrix of any kind.
    pub fn any(r: &'a mut Random) -> Self {
        let p = PRIMES[r.below(5)];
        let s = Params { p, l: 1 + r.below(8) as u16, e: 1 + r.below(8) as u16, n: 1 + r.below(32) as u16 };
        let kind = r.below(7);
        Draw::with(r, s, kind)
    }

    /// More holders than columns, mostly, so that many sets determine the secrets.
    pub fn wide(r: &'a mut Random) -> Self {
        let p = PRIMES[r.below(5)];
        let s = Params { p, l: 1 + r.below(2) as u16, e: 1 + r.below(2) as u16, n: 4 + r.below(7) as u16 };
        let kind = r.one(&[REPEATED, POINTS, ARBITRARY, SPARSE]);
        Draw::with(r, s, kind)
    }

    /// A supplier's matrix.
    fn supplied(r: &'a mut Random) -> Self {
        let p = PRIMES[r.below(5)];
        let s = Params { p, l: 1 + r.below(4) as u16, e: 1 + r.below(4) as u16, n: 1 + r.below(8) as u16 };
        Draw::with(r, s, SUPPLIED)
    }

    /// A matrix with many rows that are combinations of lower ones, now and then of the largest sizes.
    fn tied(r: &'a mut Random) -> Self {
        let p = PRIMES[r.below(5)];
        let large = r.chance(8);
        let pick = |r: &mut Random, small: usize, most: usize| if large { most } else { 1 + r.below(small) } as u16;
        let (l, e, n) = (pick(r, 4, 8), pick(r, 4, 8), pick(r, 12, 32));
        Draw::with(r, Params { p, l, e, n }, TIED)
    }

    /// The p of corrections, small sizes, now and then the largest, and a matrix of any kind.
    fn signed(r: &'a mut Random) -> Self {
        let large = r.chance(12);
        let pick = |r: &mut Random, small: usize, most: usize| if large { most } else { 1 + r.below(small) } as u16;
        let (l, e, n) = (pick(r, 3, 8), pick(r, 2, 8), pick(r, 10, 32));
        let kind = r.below(9);
        Draw::with(r, Params { p: CORRECTION_PRIME, l, e, n }, kind)
    }

    pub fn with(r: &'a mut Random, s: Params, kind: usize) -> Self {
        let m = r.elements(s.p, s.entries());
        Draw::of(r, s, m, kind)
    }

    fn of(r: &'a mut Random, s: Params, mut m: Vec<u16>, kind: usize) -> Self {
        let (d, n) = (s.d(), s.n as usize);
        match kind {
            ZERO => m.fill(0),
            REPEATED => {
                for i in 1..n {
                    if r.chance(2) {
                        let from = r.below(i);
                        m.copy_within(from * d..(from + 1) * d, i * d);
                    }
                }
            }
            DEPENDENT => {
                for i in 2..n {
                    for c in 0..d {
                        m[i * d + c] = ((m[c] as u64 * (i as u64 + 1) + m[d + c] as u64) % s.p as u64) as u16;
                    }
                }
            }
            POINTS | 4 => {
                points(s, &mut m);
            }
            SUPPLIED => {
                for i in 0..n {
                    match r.below(5) {
                        0 => {
                            m[i * d..(i + 1) * d].fill(0);
                            m[i * d + r.below(d)] = 1;
                        }
                        1 => m[i * d..(i + 1) * d].fill(0),
                        2 if i > 0 => {
                            let from = r.below(i);
                            m.copy_within(from * d..(from + 1) * d, i * d);
                        }
                        _ => {}
                    }
                }
            }
            TIED => {
                // entries of 0 in half of the matrices, so that pivots stand in another order than the columns
                if r.chance(2) {
                    m.iter_mut().for_each(|x| *x = if r.chance(2) { *x } else { 0 });
                }
                for i in 0..n {
                    let sort = r.below(10);
                    if sort <= EACH {
                        let row = combination(r, s.p, &m[..i * d], d, sort);
                        m[i * d..(i + 1) * d].copy_from_slice(&row);
                    }
                }
            }
            SPARSE => m.iter_mut().for_each(|x| *x = if r.chance(3) { *x } else { 0 }),
            _ => {}
        }
        Draw { r, s, m }
    }

    /// Empty, all, any, or about as many members as there are columns.
    fn set(&mut self) -> u32 {
        let n = self.s.n as usize;
        let all = if n == 32 { u32::MAX } else { (1 << n) - 1 };
        match self.r.below(8) {
            0 => 0,
            1 | 2 => all,
            3 | 4 => {
                let size = (self.s.d() + self.r.below(3)).saturating_sub(1).min(n);
                self.r.set(n, size)
            }
            _ => self.r.next() as u32 & all,
        }
    }

    /// The parts of an honest dealing: secrets, random entries, every g, every h.
    fn dealing(&mut self) -> (Vec<u16>, Vec<u16>, Vec<u16>, Vec<u16>) {
        let (s, l, d) = (self.s, self.s.l as usize, self.s.d());
        let (secrets, random) = (self.r.elements(s.p, l * l), self.r.elements(s.p, d * d - l * l));
        let (mut gs, mut hs) = (vec![0; s.entries()], vec![0; s.entries()]);
        deal_all(s, &self.m, &secrets, &random, &mut gs, &mut hs);
        (secrets, random, gs, hs)
    }

    /// A map: 0, the identity, or any.
    pub fn map(&mut self) -> Vec<u16> {
        let l = self.s.l as usize;
        match self.r.below(5) {
            0 => vec![0; l * l],
            1 => (0..l * l).map(|k| (k / l == k % l) as u16).collect(),
            _ => self.r.elements(self.s.p, l * l),
        }
    }

    /// An honest dealing with this map.
    pub fn mapped(&mut self, phi: &[u16]) -> MappedDealing {
        let (s, l, d) = (self.s, self.s.l as usize, self.s.d());
        let (secrets, random) = (self.r.elements(s.p, l * l), self.r.elements(s.p, d * d - l * l));
        let random2 = self.r.elements(s.p, s.e as usize * d);
        let mut parts = [(); 4].map(|_| vec![0; s.entries()]);
        let from = Mapped { secrets: &secrets, random: &random, phi, random2: &random2 };
        deal_mapped_all(s, &self.m, from, parts.each_mut().map(|x| &mut x[..]));
        MappedDealing { from: vec![self.m.clone(), secrets, random, phi.to_vec(), random2], parts }
    }

    /// What holder i of this dealing has received.
    pub fn received(&self, x: &MappedDealing, i: usize) -> Received {
        let part = |k: usize| x.parts[k][i * self.s.d()..(i + 1) * self.s.d()].to_vec();
        let (values, values2) = (self.values(&x.parts[0], i), self.values(&x.parts[2], i));
        Received { holder: i as u16, g: part(0), g2: part(2), judged: vec![self.m.clone(), part(1), values, x.from[3].clone(), part(3), values2] }
    }

    /// The values from every holder that agree with this h.
    pub fn agreeing(&self, h: &[u16]) -> Vec<u16> {
        (0..self.s.n).map(|j| pair_value(self.s, &self.m, h, j).values[0]).collect()
    }

    /// The records of a holder's file with a DF: SU, DL, DF, then PV, PF and VD.
    pub fn records_of(&self, number: u16, x: &Received, verdicts: &[u16]) -> Vec<Vec<u16>> {
        let Received { holder, g, g2, judged } = x;
        let [m, h, values, phi, h2, values2] = &judged[..] else { panic!("not what is judged with a map: {judged:?}") };
        let s = self.s;
        let mut all = vec![[&[SU, s.p, s.l, s.e, s.n], &m[..]].concat()];
        all.push([&[DL, number, *holder], &g[..], h].concat());
        all.push([&[DF, number, *holder], &g2[..], h2, phi].concat());
        all.extend((0..s.n).map(|j| vec![PV, number, j, *holder, values[j as usize]]));
        all.extend((0..s.n).map(|j| vec![PF, number, j, *holder, values2[j as usize]]));
        all.extend((0..s.n).map(|j| vec![VD, number, j, verdicts[j as usize]]));
        all
    }

    /// An honest zero dealing: its random entries, every g and every h.
    pub fn zero(&mut self) -> ZeroDealing {
        let s = self.s;
        let random = self.r.elements(s.p, s.e as usize * s.d());
        let (mut gs, mut hs) = (vec![0; s.entries()], vec![0; s.n as usize * s.e as usize]);
        deal_zero_all(s, &self.m, &random, &mut gs, &mut hs);
        ZeroDealing { random, gs, hs }
    }

    /// What holder i of this zero dealing has received.
    pub fn received_zero(&self, x: &ZeroDealing, i: usize) -> ReceivedZero {
        let (d, e) = (self.s.d(), self.s.e as usize);
        let (g, h) = (x.gs[i * d..(i + 1) * d].to_vec(), x.hs[i * e..(i + 1) * e].to_vec());
        ReceivedZero { holder: i as u16, g, judged: vec![self.m.clone(), h, self.values(&x.gs, i)] }
    }

    /// The records of a zero dealing's file: SU, DZ, then PV and VD.
    pub fn zero_records_of(&self, number: u16, x: &ReceivedZero, verdicts: &[u16]) -> Vec<Vec<u16>> {
        let ReceivedZero { holder, g, judged } = x;
        let [m, h, values] = &judged[..] else { panic!("not what is judged of a zero dealing: {judged:?}") };
        let s = self.s;
        let mut all = vec![[&[SU, s.p, s.l, s.e, s.n], &m[..]].concat()];
        all.push([&[DZ, number, *holder], &g[..], h].concat());
        all.extend((0..s.n).map(|j| vec![PV, number, j, *holder, values[j as usize]]));
        all.extend((0..s.n).map(|j| vec![VD, number, j, verdicts[j as usize]]));
        all
    }

    /// The values that holder i receives in an honest dealing.
    fn values(&self, gs: &[u16], i: usize) -> Vec<u16> {
        let d = self.s.d();
        (0..self.s.n as usize).map(|j| pair_value(self.s, &self.m, &gs[j * d..(j + 1) * d], i as u16).values[0]).collect()
    }

    /// The shares that a vector gives a set.
    fn shares(&self, v: &[u16], set: u32) -> Vec<u16> {
        (0..self.s.n).filter(|i| set >> i & 1 == 1).map(|i| pair_value(self.s, &self.m, v, i).values[0]).collect()
    }

    /// The opening of a key by a set, each column with the shares that its vector gives.
    pub fn opening(&mut self, set: u32, columns: &[Vec<u16>; 4]) -> Case {
        let shares = columns.iter().flat_map(|v| self.shares(v, set)).collect();
        let mut c = Case { call: OPEN_KEY, numbers: [0; 9], words: vec![shares], bytes: self.r.noise_bytes(KEY) };
        c.choose(set);
        c
    }

    fn spoil(&mut self, xs: &mut [u16]) {
        if !xs.is_empty() {
            let k = self.r.below(xs.len());
            xs[k] = self.r.below(self.s.p as usize) as u16;
        }
    }

    /// A record that its writer takes, as words.
    pub fn record(&mut self, mark: u16) -> Vec<u16> {
        let (s, r) = (self.s, &mut *self.r);
        let number = 1 + r.below(65535) as u16;
        let (i, j) = (r.below(s.n as usize) as u16, r.below(s.n as usize) as u16);
        let value = r.below(s.p as usize) as u16;
        match mark {
            SU => [&[SU, s.p, s.l, s.e, s.n], &self.m[..]].concat(),
            DL => [vec![DL, number, i], r.elements(s.p, 2 * s.d())].concat(),
            PV => vec![PV, number, i, j, value],
            VD => vec![VD, number, i, r.below(2) as u16],
            DF => [vec![DF, number, i], r.elements(s.p, 2 * s.d() + s.l as usize * s.l as usize)].concat(),
            PF => vec![PF, number, i, j, value],
            DZ => [vec![DZ, number, i], r.elements(s.p, s.d() + s.e as usize)].concat(),
            _ if r.chance(3) => vec![SH, 0, i, 0, value],
            _ => vec![SH, number, i, r.below(s.l as usize) as u16, value],
        }
    }

    /// A call in order.
    pub fn case(&mut self, call: u16) -> Case {
        let (s, d, l, n) = (self.s, self.s.d(), self.s.l as usize, self.s.n as usize);
        let mut c = Case { call, numbers: setup_numbers(s), words: vec![], bytes: vec![] };
        let m = self.m.clone();
        match call {
            0 => c.words = vec![self.r.noise(s.entries())],
            1 => {
                let (secrets, random, ..) = self.dealing();
                c.numbers[4] = self.r.below(n) as u16;
                c.words = vec![m, secrets, random, self.r.noise(d), self.r.noise(d)];
            }
            2 => {
                let (secrets, random, ..) = self.dealing();
                c.words = vec![m, secrets, random, self.r.noise(s.entries()), self.r.noise(s.entries())];
            }
            3 => {
                c.numbers[4] = self.r.below(n) as u16;
                c.words = vec![m, self.r.elements(s.p, d)];
            }
            4 => {
                let (_, _, gs, hs) = self.dealing();
                let i = self.r.below(n);
                let mut values = self.values(&gs, i);
                while self.r.chance(2) {
                    self.spoil(&mut values);
                }
                c.words = vec![m, hs[i * d..(i + 1) * d].to_vec(), values];
            }
            5 => {
                let mut verdicts = vec![1; n];
                while self.r.chance(2) {
                    verdicts[self.r.below(n)] = 0;
                }
                c.words = vec![self.r.elements(s.p, d), verdicts, self.r.noise(l)];
            }
            6 => {
                let (_, _, mut gs, mut hs) = self.dealing();
                while self.r.chance(2) {
                    if self.r.chance(2) { self.spoil(&mut gs) } else { self.spoil(&mut hs) }
                }
                c.words = vec![m, gs, hs];
            }
            7 => {
                let k = [1, 2, 63, 64, 1 + self.r.below(20)][self.r.below(5)];
                c.words = vec![self.r.elements(s.p, k), self.r.elements(s.p, k)];
            }
            8..=11 | OPEN_SIGNED => {
                let set = self.set();
                c.choose(set);
                c.words = vec![m];
                if call == 8 {
                    c.numbers[6] = self.r.below(l) as u16;
                    c.words.push(self.r.noise(32));
                }
                if call == 11 || call == OPEN_SIGNED {
                    let v = self.r.elements(s.p, d);
                    let mut shares = self.shares(&v, set);
                    while self.r.chance(3) {
                        self.spoil(&mut shares);
                    }
                    c.words.extend([shares, self.r.noise(if call == 11 { l } else { 2 * l })]);
                }
            }
            HOLD | READ_BACK => {
                let k = [0, 1, 64, 1 + self.r.below(20), 1 + self.r.below(263)][self.r.below(5)];
                let corrections = self.r.corrections(k);
                c.words = match call {
                    HOLD => vec![signed_words(&corrections), self.r.noise(k)],
                    _ => vec![corrections.iter().map(|x| x.rem_euclid(65521) as u16).collect(), self.r.noise(2 * k)],
                };
            }
            COMBINE_SIGNED => {
                let k = [1, 2, 63, 64, self.r.below(20)][self.r.below(5)];
                c.words = vec![signed_words(&self.r.corrections(k)), self.r.elements(s.p, k)];
            }
            DEAL_KEY => {
                c.numbers = [0; 9];
                c.words = vec![self.r.elements(s.p, d * d - l * l), self.r.noise(s.entries()), self.r.noise(s.entries())];
                c.bytes = self.r.noise_bytes(KEY);
            }
            OPEN_KEY => {
                let set = self.set();
                let mut columns = [(); 4].map(|_| [self.r.elements(256, l), self.r.elements(s.p, d - l)].concat());
                if self.r.chance(6) {
                    columns[self.r.below(4)][self.r.below(l)] = 256;
                }
                c = self.opening(set, &columns);
            }
            FILE => c.bytes = self.file(),
            13..=17 => {
                let record = self.record([SU, DL, PV, VD, SH][call as usize - 13]);
                c = writing(s, &record, self.r);
            }
            18..=23 => {
                let record = self.record([SU, SU, DL, PV, VD, SH][call as usize - 18]);
                c = reading(s, call, &record, self.r);
                if self.r.chance(4) {
                    let more = 1 + self.r.below(12);
                    c.bytes.extend(self.r.noise_bytes(more));
                }
            }
            DEAL_MAPPED | DEAL_MAPPED_ALL => {
                let phi = self.map();
                c.words = self.mapped(&phi).from;
                c.numbers[4] = if call == DEAL_MAPPED { self.r.below(n) as u16 } else { 0 };
                let size = if call == DEAL_MAPPED { d } else { s.entries() };
                c.words.extend((0..4).map(|_| self.r.noise(size)));
            }
            JUDGE_MAPPED => c.words = self.to_judge().judged,
            WRITE_DF | WRITE_PF => {
                let record = self.record([DF, PF][(call - WRITE_DF) as usize]);
                c = writing(s, &record, self.r);
            }
            READ_DF | READ_PF | READ_DZ => {
                let record = self.record(if call == READ_DZ { DZ } else { [DF, PF][(call - READ_DF) as usize] });
                c = reading(s, call, &record, self.r);
                if self.r.chance(4) {
                    let more = 1 + self.r.below(12);
                    c.bytes.extend(self.r.noise_bytes(more));
                }
            }
            DEAL_ZERO | DEAL_ZERO_ALL => {
                let random = self.zero().random;
                let (gs, hs) = if call == DEAL_ZERO { (d, d - l) } else { (s.entries(), n * (d - l)) };
                c.numbers[4] = if call == DEAL_ZERO { self.r.below(n) as u16 } else { 0 };
                c.words = vec![m, random, self.r.noise(gs), self.r.noise(hs)];
            }
            JUDGE_ZERO => c.words = self.zero_to_judge().judged,
            REFRESH => c.numbers[4..7].copy_from_slice(&[self.r.below(s.p as usize) as u16, self.r.round(), self.r.below(s.p as usize) as u16]),
            WRITE_DZ => {
                let record = self.record(DZ);
                c = writing(s, &record, self.r);
            }
            SUPERSEDING => {
                let parts = self.two_shares().map(|record| {
                    let more = if self.r.chance(4) { 1 + self.r.below(12) } else { 0 };
                    [bytes(&record), self.r.noise_bytes(more)].concat()
                });
                c = settling(s, &parts[0], &parts[1]);
            }
            _ => {}
        }
        c
    }

    /// Two SH: the same one twice, or the second with another value, another round, or both; now and then of another share.
    fn two_shares(&mut self) -> [Vec<u16>; 2] {
        let (mut first, other) = (self.record(SH), self.record(SH));
        first.push(self.r.round());
        let mut second = first.clone();
        if self.r.chance(2) {
            second[4] = other[4];
        }
        if !self.r.chance(3) {
            let any = self.r.round();
            second[5] = self.r.one(&[first[5].wrapping_add(1), first[5].wrapping_sub(1), any]);
        }
        if self.r.chance(6) {
            let k = 1 + self.r.below(3);
            second[k] = other[k];
        }
        [first, second]
    }

    /// What some holder has received in a dealing with a map: now and then with wrong values, with a second h that is none, or under another map.
    fn to_judge(&mut self) -> Received {
        let (phi, i) = (self.map(), self.r.below(self.s.n as usize));
        let dealing = self.mapped(&phi);
        let mut x = self.received(&dealing, i);
        match self.r.below(6) {
            0 => {
                x.judged[4] = self.r.elements(self.s.p, self.s.d());
                x.judged[5] = self.agreeing(&x.judged[4]);
            }
            1 => x.judged[3] = self.map(),
            _ => {}
        }
        while self.r.chance(3) {
            let k = self.r.one(&[2, 5]);
            self.spoil(&mut x.judged[k]);
        }
        x
    }

    /// What some holder has received in a zero dealing: now and then with wrong values, or with another h.
    fn zero_to_judge(&mut self) -> ReceivedZero {
        let i = self.r.below(self.s.n as usize);
        let dealing = self.zero();
        let mut x = self.received_zero(&dealing, i);
        while self.r.chance(3) {
            let k = self.r.one(&[1, 2, 2]);
            self.spoil(&mut x.judged[k]);
        }
        x
    }

    /// A holder's file as the rules have it, now and then with a changed value or verdict, or with a PV or VD out of its place.
    fn file(&mut self) -> Vec<u8> {
        let (s, d, n) = (self.s, self.s.d(), self.s.n as usize);
        let (_, _, gs, hs) = self.dealing();
        let i = self.r.below(n);
        let mut values = self.values(&gs, i);
        if self.r.chance(3) {
            self.spoil(&mut values);
        }
        let h = &hs[i * d..(i + 1) * d];
        let mut verdicts = vec![1; n];
        if self.r.chance(3) {
            verdicts[self.r.below(n)] = 0;
        }
        if !self.r.chance(5) {
            verdicts[i] = judge(s, &self.m, h, &values).values[0];
        }
        let number = 1 + self.r.below(65535) as u16;
        let mut rest: Vec<Vec<u16>> = (0..n as u16).map(|j| vec![PV, number, j, i as u16, values[j as usize]]).collect();
        rest.extend((0..n as u16).map(|j| vec![VD, number, j, verdicts[j as usize]]));
        let (a, b) = (self.r.below(2 * n), self.r.below(2 * n));
        match self.r.below(12) {
            0 => rest.rotate_left(a),
            1 => rest.swap(a, b),
            2 => rest[a] = rest[b].clone(),
            _ => {}
        }
        let mut words = vec![SU, s.p, s.l, s.e, s.n];
        words.extend(&self.m);
        words.extend([DL, number, i as u16]);
        words.extend(&gs[i * d..(i + 1) * d]);
        words.extend(h);
        words.extend(rest.iter().flatten());
        bytes(&words)
    }

    /// The verdicts in a file, the holder's own as its judgement has it; now and then a holder rejects, or the own VD is against the judgement.
    fn verdicts(&mut self, holder: u16, own: u16) -> Vec<u16> {
        let mut verdicts = vec![1; self.s.n as usize];
        if self.r.chance(3) {
            verdicts[self.r.below(self.s.n as usize)] = 0;
        }
        if !self.r.chance(8) {
            verdicts[holder as usize] = own;
        }
        verdicts
    }

    /// A file of these records; now and then one is out of its place, another, there twice or gone.
    fn misplaced(&mut self, mut all: Vec<Vec<u16>>) -> Vec<u8> {
        let (a, b) = (self.r.below(all.len()), 1 + self.r.below(all.len() - 1));
        match self.r.below(12) {
            0 => all[2..].rotate_left(a.max(2) - 2),
            1 => all.swap(a.max(1), b),
            2 => all[a] = all[b].clone(),
            3 => all.insert(b, all[a].clone()),
            4 => drop(all.remove(b)),
            _ => {}
        }
        bytes(&all.concat())
    }

    /// A holder's file with a DF as the rules have it, or with a fault.
    pub fn mapped_file(&mut self) -> Vec<u8> {
        let x = self.to_judge();
        let verdicts = self.verdicts(x.holder, x.verdict(self.s));
        let number = 1 + self.r.below(65535) as u16;
        self.misplaced(self.records_of(number, &x, &verdicts))
    }

    /// The file of a zero dealing as the rules have it, or with a fault.
    pub fn zero_file(&mut self) -> Vec<u8> {
        let x = self.zero_to_judge();
        let verdicts = self.verdicts(x.holder, x.verdict(self.s));
        let number = 1 + self.r.below(65535) as u16;
        self.misplaced(self.zero_records_of(number, &x, &verdicts))
    }
}

/// A dealing with a map: matrix, secrets, random entries, φ and second random entries; then every g, h, second g and second h.
pub struct MappedDealing {
    pub from: Vec<Vec<u16>>,
    pub parts: [Vec<u16>; 4],
}

/// What a holder has received in a dealing with a map: its g and second g, and what it judges, as the call takes it: matrix, h, values, φ, second h and
/// second values.
#[derive(Clone)]
pub struct Received {
    pub holder: u16,
    pub g: Vec<u16>,
    pub g2: Vec<u16>,
    pub judged: Vec<Vec<u16>>,
}

impl Received {
    /// The call that judges it.
    pub fn case(&self, s: Params) -> Case {
        Case { call: JUDGE_MAPPED, numbers: setup_numbers(s), words: self.judged.clone(), bytes: vec![] }
    }
    /// Its verdict, 1 or 0.
    pub fn verdict(&self, s: Params) -> u16 {
        self.case(s).run().places[0]
    }
}

/// A zero dealing: its random entries, then every g and every h.
pub struct ZeroDealing {
    pub random: Vec<u16>,
    pub gs: Vec<u16>,
    pub hs: Vec<u16>,
}

/// What a holder has received in a zero dealing: its g, and what it judges, as the call takes it: matrix, h and values.
#[derive(Clone)]
pub struct ReceivedZero {
    pub holder: u16,
    pub g: Vec<u16>,
    pub judged: Vec<Vec<u16>>,
}

impl ReceivedZero {
    /// The call that judges it.
    pub fn case(&self, s: Params) -> Case {
        Case { call: JUDGE_ZERO, numbers: setup_numbers(s), words: self.judged.clone(), bytes: vec![] }
    }
    /// Its verdict, 1 or 0.
    pub fn verdict(&self, s: Params) -> u16 {
        self.case(s).run().places[0]
    }
}

/// The numbers of a case on a setup.
pub fn setup_numbers(s: Params) -> [u16; 9] {
    [s.p, s.l, s.e, s.n, 0, 0, 0, 0, 0]
}

/// A case with the rounds of the shares that it is lent, as many as there are shares: `rounds` gives those of so many shares that go together. A board key's
/// are given column by column. An SH gets one behind its value, in a buffer of two bytes more; one that is cut short within its value stays as it is.
pub fn with_rounds(mut c: Case, mut rounds: impl FnMut(usize) -> Vec<u16>) -> Case {
    match c.call {
        7 | COMBINE_SIGNED => {
            let all = rounds(c.words[1].len());
            c.words.push(all);
        }
        11 | OPEN_SIGNED => {
            let all = rounds(c.words[1].len());
            c.words.insert(2, all);
        }
        OPEN_KEY => {
            let column = c.set().count_ones().max(1) as usize;
            let all = c.words[0].chunks(column).flat_map(|shares| rounds(shares.len())).collect();
            c.words.push(all);
        }
        17 => {
            c.numbers[8] = rounds(1)[0];
            c.bytes.extend(bytes(&[UNTOUCHED]));
        }
        23 if c.bytes.len() >= 10 => drop(c.bytes.splice(10..10, bytes(&rounds(1)))),
        _ => {}
    }
    c
}

/// The same with drawn rounds: mostly they agree; now and then one is another, or there is one too many or too few.
pub fn rounded(r: &mut Random, c: Case) -> Case {
    let mut c = with_rounds(c, |count| {
        let mut all = vec![r.round(); count];
        if count > 0 && r.chance(8) {
            all[r.below(count)] = r.round();
        }
        all
    });
    let at = [(7, 2), (11, 2), (OPEN_KEY, 1), (COMBINE_SIGNED, 2), (OPEN_SIGNED, 2)].into_iter().find(|x| x.0 == c.call);
    if let Some((_, at)) = at.filter(|_| r.chance(40)) {
        resize(r, &mut c.words[at]);
    }
    c
}

/// The call that writes this record.
pub fn writing(s: Params, record: &[u16], r: &mut Random) -> Case {
    let (call, x, words) = match record[0] {
        SU => (13, &record[..0], vec![record[5..].to_vec()]),
        DL => {
            let (g, h) = record[3..].split_at((record.len() - 3) / 2);
            (14, &record[1..3], vec![g.to_vec(), h.to_vec()])
        }
        PV => (15, &record[1..], vec![]),
        VD => (16, &record[1..], vec![]),
        DF => {
            let (g, rest) = record[3..].split_at(s.d());
            let (h, phi) = rest.split_at(s.d());
            (WRITE_DF, &record[1..3], vec![g.to_vec(), h.to_vec(), phi.to_vec()])
        }
        PF => (WRITE_PF, &record[1..], vec![]),
        DZ => {
            let (g, h) = record[3..].split_at(s.d());
            (WRITE_DZ, &record[1..3], vec![g.to_vec(), h.to_vec()])
        }
        _ => (17, &record[1..], vec![]),
    };
    let mut numbers = setup_numbers(s);
    numbers[4..4 + x.len()].copy_from_slice(x);
    Case { call, numbers, words, bytes: r.noise_bytes(2 * record.len()) }
}

/// A call that reads this record.
pub fn reading(s: Params, call: u16, record: &[u16], r: &mut Random) -> Case {
    let words = match call {
        19 => vec![r.noise(s.entries())],
        20 => vec![r.noise(s.d()), r.noise(s.d())],
        READ_DF => vec![r.noise(s.d()), r.noise(s.d()), r.noise(s.l as usize * s.l as usize)],
        READ_DZ => vec![r.noise(s.d()), r.noise(s.e as usize)],
        _ => vec![],
    };
    Case { call, numbers: setup_numbers(s), words, bytes: bytes(record) }
}

/// The call on two parts: which of the two SH at their start supersedes.
pub fn settling(s: Params, first: &[u8], second: &[u8]) -> Case {
    let mut numbers = setup_numbers(s);
    numbers[4] = first.len() as u16;
    Case { call: SUPERSEDING, numbers, words: vec![], bytes: [first, second].concat() }
}

/// Sets word k of some bytes, if it is there.
pub fn put(bytes: &mut [u8], k: usize, word: u16) {
    if let Some(at) = bytes.get_mut(2 * k..2 * k + 2) {
        at.copy_from_slice(&word.to_le_bytes());
    }
}

fn damage_file(r: &mut Random, bytes: &mut Vec<u8>) {
    match r.below(4) {
        0 => bytes.truncate(r.below(bytes.len() + 1)),
        1 => {
            let k = r.below(bytes.len().max(1));
            if k < bytes.len() {
                bytes[k] = r.below(256) as u8;
            }
        }
        2 => {
            let k = r.below(bytes.len() / 2 + 1) * 2;
            if k < bytes.len() {
                bytes[k] = [0, 1, 2, 3, 7, 8, 9, 32, 33, 255][r.below(10)];
            }
        }
        _ => {
            let (a, k) = (r.below(bytes.len() / 2 + 1) * 2, 2 * r.below(6));
            let b = (a + k).min(bytes.len());
            let part = bytes[a.min(b)..b].to_vec();
            bytes.extend(part);
        }
    }
    bytes.truncate(4096);
}

/// Makes a slice longer or shorter by one.
fn resize<T: Default>(r: &mut Random, x: &mut Vec<T>) {
    if r.chance(2) {
        x.push(T::default());
    } else {
        x.pop();
    }
}

/// Breaks a call on a board key: a length, an element, the set alone or with the shares of a member more or fewer, or a share.
fn damage_key(r: &mut Random, c: &mut Case) {
    match r.below(5) {
        0 => match r.below(c.words.len() + 1) {
            k if k < c.words.len() => resize(r, &mut c.words[k]),
            _ => resize(r, &mut c.bytes),
        },
        k @ (1 | 4) if !c.words[0].is_empty() => {
            let at = r.below(c.words[0].len());
            c.words[0][at] = if k == 1 { r.one(&[257, 258, 513, 65535]) } else { r.below(257) as u16 };
        }
        k @ (2 | 3) if c.call == OPEN_KEY => {
            let bit = r.below(32);
            c.choose(c.set() ^ 1 << bit);
            if k == 3 {
                let size = 4 * c.set().count_ones() as usize;
                c.words[0].resize(size, bit as u16);
            }
        }
        _ => {}
    }
}

/// Breaks the call on two SH, in one of some ways: where the first part ends or both do, a mark, a field or a byte of either.
fn damage_two(r: &mut Random, c: &mut Case, way: usize, limits: &[u16]) {
    let from = r.one(&[0, c.two_slices().0.len()]);
    match way {
        2 => c.numbers[4] = r.one(&[0, 1, 10, 11, 12, 13, 24, 65535]),
        3 => c.bytes.truncate(r.below(c.bytes.len() + 1)),
        4 => {
            let w = r.one(&[SU, DL, PV, VD, DF, PF, DZ, 0]);
            put(&mut c.bytes[from..], 0, w);
        }
        5 => {
            let k = r.below(c.bytes.len().max(1));
            if let Some(b) = c.bytes.get_mut(k) {
                *b = r.below(256) as u8;
            }
        }
        _ => {
            let (k, w) = (1 + r.below(5), r.one(limits));
            put(&mut c.bytes[from..], k, w);
        }
    }
}

/// Breaks a call on corrections or signed constants: a number of the setup, a length, a number beyond the range, an element, the set, or how many terms.
fn damage_signed(r: &mut Random, c: &mut Case) {
    let at = c.signed().unwrap();
    match r.below(7) {
        0 => c.numbers[0] = r.one(&[0, 2, 7, 251, 257, 65520, 65535]),
        1 if c.call == OPEN_SIGNED => c.numbers[1 + r.below(3)] = r.one(&[0, 1, 8, 9, 32, 33, 65535]),
        2 => match r.below(c.words.len()) {
            k if k == at => {
                let mut numbers = signed_numbers(&c.words[at]);
                resize(r, &mut numbers);
                c.words[at] = signed_words(&numbers);
            }
            k => resize(r, &mut c.words[k]),
        },
        1 | 3 | 4 if c.call == HOLD || c.call == COMBINE_SIGNED => {
            let mut numbers = signed_numbers(&c.words[at]);
            let k = r.below(numbers.len().max(1));
            if let Some(x) = numbers.get_mut(k) {
                *x = r.beyond();
            }
            c.words[at] = signed_words(&numbers);
        }
        3..=5 if !c.of().elements.is_empty() => {
            let list = r.one(c.of().elements);
            let k = r.below(c.words[list].len().max(1));
            if let Some(x) = c.words[list].get_mut(k) {
                *x = r.one(&[65521, 65522, 65535]);
            }
        }
        _ if c.call == OPEN_SIGNED => {
            let k = r.below(32);
            c.numbers[4 + k / 16] ^= 1 << (k % 16);
        }
        _ if c.call == COMBINE_SIGNED => {
            let k = r.one(&[0, 65]);
            c.words = vec![vec![0; 2 * k], vec![0; k]];
        }
        _ => {}
    }
}

/// Breaks a case: a length, an element, a number, a set, a record or a file.
fn damage(r: &mut Random, c: &mut Case) {
    if c.call == FILE {
        return damage_file(r, &mut c.bytes);
    }
    if c.call == DEAL_KEY || c.call == OPEN_KEY {
        return damage_key(r, c);
    }
    if SIGNED.contains(&c.call) {
        return damage_signed(r, c);
    }
    let [p, l, _, n, ..] = c.numbers;
    let limits = [0, 1, 2, l, l.wrapping_sub(1), n, n.wrapping_sub(1), p, p.wrapping_sub(1), 9, 33, 65535];
    match r.below(8) {
        0 => c.numbers[0] = r.one(&[0, 1, 3, 7, 257, 65520, 65535]),
        1 => c.numbers[1 + r.below(3)] = r.one(&[0, 1, 8, 9, 32, 33, 65535]),
        way if c.call == SUPERSEDING => damage_two(r, c, way, &limits),
        2 => match r.below(c.words.len() + 1) {
            k if k < c.words.len() => resize(r, &mut c.words[k]),
            _ if c.of().bytes != Bytes::None => resize(r, &mut c.bytes),
            _ => {}
        },
        3 if !c.words.is_empty() => {
            let k = r.below(c.words.len());
            let at = r.below(c.words[k].len().max(1));
            if let Some(x) = c.words[k].get_mut(at) {
                *x = r.one(&[p, p.wrapping_add(1), 65535]);
            }
        }
        3 | 4 if c.of().bytes == Bytes::Read => {
            let (k, w) = (r.below(c.bytes.len() / 2 + 1), r.one(&limits));
            put(&mut c.bytes, k, w);
        }
        4 => c.numbers[4 + r.below(4)] = r.one(&limits),
        5 if c.of().bytes == Bytes::Read => {
            let w = match c.call {
                READ_DZ => r.one(&[SU, DL, PV, VD, SH, DF, PF, DZ, 0]),
                call if MAPPED.contains(&call) => r.one(&[SU, DL, PV, VD, SH, DF, PF, 0]),
                _ => r.one(&[SU, DL, PV, VD, SH, 0]),
            };
            put(&mut c.bytes, 0, w);
        }
        6 if c.of().bytes == Bytes::Read => c.bytes.truncate(r.below(c.bytes.len() + 1)),
        7 if c.of().bytes == Bytes::Read => {
            let k = r.below(c.bytes.len().max(1));
            if let Some(b) = c.bytes.get_mut(k) {
                *b = r.below(256) as u8;
            }
        }
        _ if c.call == REFRESH => c.numbers[5] = r.one(&[65534, 65535]),
        _ => match c.call {
            5 if !c.words[1].is_empty() => {
                let k = r.below(c.words[1].len());
                c.words[1][k] = 2;
            }
            7 => {
                c.words = vec![vec![0; r.one(&[0, 65])]; 2];
                if r.chance(3) {
                    c.words[r.below(2)].push(1);
                }
            }
            8..=11 => {
                let k = r.below(32);
                c.numbers[4 + k / 16] ^= 1 << (k % 16);
            }
            FIELD => c.numbers[0] = r.next() as u16,
            _ => {}
        },
    }
}

/// Leaves most cases in order and damages some, once or twice.
pub fn damaged(r: &mut Random, mut c: Case) -> Case {
    if r.chance(3) {
        damage(r, &mut c);
        if r.chance(3) {
            damage(r, &mut c);
        }
    }
    c
}

/// A case of a call.
pub fn draw(r: &mut Random, call: u16) -> Case {
    let on_a_set = (8..=11).contains(&call);
    if call == DEAL_KEY || call == OPEN_KEY {
        let c = Draw::with(r, BOARD, POINTS).case(call);
        return damaged(r, c);
    }
    if SIGNED.contains(&call) {
        let c = Draw::signed(r).case(call);
        return damaged(r, c);
    }
    let c = match r.below(8) {
        0 => Draw::any(r).case(call),
        1..=4 if on_a_set => Draw::wide(r).case(call),
        _ => Draw::new(r).case(call),
    };
    damaged(r, c)
}

/// A case of a call on a set, on a supplier's matrix: unit rows, zero rows, repeated rows and any.
pub fn supplied(r: &mut Random, call: u16) -> Case {
    let c = Draw::supplied(r).case(call);
    damaged(r, c)
}

/// A case of a call on a set, on a matrix with many rows that are combinations of lower ones.
pub fn tied(r: &mut Random, call: u16) -> Case {
    let c = Draw::tied(r).case(call);
    damaged(r, c)
}

/// A holder's file with a DF.
pub fn with_second(r: &mut Random) -> Case {
    let bytes = if r.chance(8) { Draw::any(r).mapped_file() } else { Draw::new(r).mapped_file() };
    damaged(r, Case { call: FILE, numbers: [0; 9], words: vec![], bytes })
}

/// The file of a zero dealing.
pub fn with_zeros(r: &mut Random) -> Case {
    let bytes = if r.chance(8) { Draw::any(r).zero_file() } else { Draw::new(r).zero_file() };
    damaged(r, Case { call: FILE, numbers: [0; 9], words: vec![], bytes })
}
