//! Document 01, with the requests of document 02 that have landed (A1 to A10), in plain safe Rust: every call and the holder's file, written from the
//! documents in the most direct way. It shares nothing with the proved library; the two are compared on many inputs.

/// A refusal's number (0: none) and the values given beside it.
#[derive(Clone, Debug, PartialEq, Eq)]
pub struct Answer {
    pub number: u16,
    pub values: Vec<u16>,
}

pub fn refused(number: u16) -> Answer {
    Answer { number, values: vec![] }
}

pub fn given(values: &[u16]) -> Answer {
    Answer { number: 0, values: values.to_vec() }
}

pub const PRIMES: [u16; 5] = [2, 7, 251, 257, 65521];

/// The numbers of a setup.
#[derive(Clone, Copy, Debug, PartialEq, Eq)]
pub struct Params {
    pub p: u16,
    pub l: u16,
    pub e: u16,
    pub n: u16,
}

impl Params {
    pub fn d(&self) -> usize {
        self.l as usize + self.e as usize
    }
    pub fn entries(&self) -> usize {
        self.n as usize * self.d()
    }
    fn limits(&self) -> Vec<u16> {
        let mut found = vec![];
        if !PRIMES.contains(&self.p) {
            found.push(1);
        }
        if !(1..=8).contains(&self.l) || !(1..=8).contains(&self.e) || !(1..=32).contains(&self.n) {
            found.push(2);
        }
        found
    }
}

/// The refusals that apply; the lowest is given, but 22 comes before all others, and 18 and 19 come after 5 and before 6.
struct Faults(Vec<u16>);

impl Faults {
    fn of(s: &Params) -> Self {
        Faults(s.limits())
    }
    fn when(&mut self, number: u16, test: bool) {
        if test {
            self.0.push(number);
        }
    }
    fn length<T>(&mut self, xs: &[T], needed: usize) {
        self.when(3, xs.len() != needed);
    }
    fn elements(&mut self, p: u16, xs: &[u16]) {
        self.when(4, xs.iter().any(|&x| x >= p));
    }
    /// Shares of different rounds.
    fn rounds(&mut self, rounds: &[u16]) {
        self.when(19, rounds.iter().any(|round| round != &rounds[0]));
    }
    /// Corrections or constants beyond the range.
    fn signed(&mut self, numbers: &[i32]) {
        self.when(22, numbers.iter().any(|x| !CORRECTIONS.contains(x)));
    }
    fn lowest(&self) -> Option<u16> {
        self.0.iter().copied().min_by_key(|&number| match number {
            22 => (0, number),
            18 | 19 => (5, number),
            _ => (number, 0),
        })
    }
    fn check(&self) -> Result<(), u16> {
        self.lowest().map_or(Ok(()), Err)
    }
}

fn times(p: u16, a: u16, b: u16) -> u16 {
    (a as u64 * b as u64 % p as u64) as u16
}

fn plus(p: u16, a: u16, b: u16) -> u16 {
    ((a as u64 + b as u64) % p as u64) as u16
}

fn minus(p: u16, a: u16, b: u16) -> u16 {
    plus(p, a, p - b)
}

/// a to the p − 2, the inverse of a nonzero a (Fermat).
fn inverse(p: u16, a: u16) -> u16 {
    let mut result = 1 % p;
    let mut base = a;
    let mut k = p - 2;
    while k > 0 {
        if k & 1 == 1 {
            result = times(p, result, base);
        }
        base = times(p, base, base);
        k >>= 1;
    }
    result
}

fn dot(p: u16, u: impl Iterator<Item = u16>, v: impl Iterator<Item = u16>) -> u16 {
    u.zip(v).fold(0, |sum, (a, b)| plus(p, sum, times(p, a, b)))
}

fn row<'a>(s: &Params, m: &'a [u16], i: usize) -> &'a [u16] {
    &m[i * s.d()..(i + 1) * s.d()]
}

// ---- dealing and judging

/// Whether p is one of the five.
pub fn field(p: u16) -> Answer {
    if PRIMES.contains(&p) { given(&[]) } else { refused(1) }
}

/// The points matrix: row i gives, from the values at 0 .. d − 1, the value at d + i.
pub fn points(s: Params, matrix: &mut [u16]) -> Answer {
    let mut f = Faults::of(&s);
    f.length(matrix, s.entries());
    f.when(15, s.d() + s.n as usize > s.p as usize);
    if let Some(k) = f.lowest() {
        return refused(k);
    }
    let d = s.d();
    for i in 0..s.n as usize {
        for j in 0..d {
            let (mut above, mut below) = (1 % s.p, 1 % s.p);
            for t in 0..d {
                if t != j {
                    above = times(s.p, above, minus(s.p, (d + i) as u16, t as u16));
                    below = times(s.p, below, minus(s.p, j as u16, t as u16));
                }
            }
            matrix[i * d + j] = times(s.p, above, inverse(s.p, below));
        }
    }
    given(&[])
}

/// F by rows: position k of secret vector b in row k and column b, the lent entries elsewhere, row by row.
fn dealt(s: &Params, secrets: &[u16], random: &[u16]) -> Vec<Vec<u16>> {
    let (l, d) = (s.l as usize, s.d());
    let mut lent = random.iter();
    (0..d)
        .map(|k| (0..d).map(|b| if k < l && b < l { secrets[b * l + k] } else { *lent.next().unwrap() }).collect())
        .collect()
}

fn part_h(s: &Params, m: &[u16], f: &[Vec<u16>], i: usize) -> Vec<u16> {
    f.iter().map(|r| dot(s.p, r.iter().copied(), row(s, m, i).iter().copied())).collect()
}

fn part_g(s: &Params, m: &[u16], f: &[Vec<u16>], i: usize) -> Vec<u16> {
    (0..s.d()).map(|b| dot(s.p, row(s, m, i).iter().copied(), f.iter().map(|r| r[b]))).collect()
}

fn deal_faults(s: &Params, m: &[u16], secrets: &[u16], random: &[u16]) -> Faults {
    let mut f = Faults::of(s);
    f.length(m, s.entries());
    f.length(secrets, s.l as usize * s.l as usize);
    f.length(random, s.d() * s.d() - s.l as usize * s.l as usize);
    f.elements(s.p, m);
    f.elements(s.p, secrets);
    f.elements(s.p, random);
    f
}

pub fn deal(s: Params, m: &[u16], secrets: &[u16], random: &[u16], holder: u16, g: &mut [u16], h: &mut [u16]) -> Answer {
    let mut f = deal_faults(&s, m, secrets, random);
    f.length(g, s.d());
    f.length(h, s.d());
    f.when(5, holder >= s.n);
    if let Some(k) = f.lowest() {
        return refused(k);
    }
    let all = dealt(&s, secrets, random);
    h.copy_from_slice(&part_h(&s, m, &all, holder as usize));
    g.copy_from_slice(&part_g(&s, m, &all, holder as usize));
    given(&[])
}

pub fn deal_all(s: Params, m: &[u16], secrets: &[u16], random: &[u16], gs: &mut [u16], hs: &mut [u16]) -> Answer {
    let mut f = deal_faults(&s, m, secrets, random);
    f.length(gs, s.entries());
    f.length(hs, s.entries());
    if let Some(k) = f.lowest() {
        return refused(k);
    }
    let (all, d) = (dealt(&s, secrets, random), s.d());
    for i in 0..s.n as usize {
        hs[i * d..(i + 1) * d].copy_from_slice(&part_h(&s, m, &all, i));
        gs[i * d..(i + 1) * d].copy_from_slice(&part_g(&s, m, &all, i));
    }
    given(&[])
}

/// φ of the first ℓ entries of a vector: position k is row k of φ times them.
fn image(s: &Params, phi: &[u16], v: &[u16]) -> Vec<u16> {
    phi.chunks(s.l as usize).map(|r| dot(s.p, r.iter().copied(), v.iter().copied())).collect()
}

/// F_φ by rows: the first ℓ entries of every column are φ of those of F, the last e rows are the second lent entries, row by row.
fn dealt_mapped(s: &Params, f: &[Vec<u16>], phi: &[u16], random2: &[u16]) -> Vec<Vec<u16>> {
    let mut second = vec![vec![0; s.d()]; s.l as usize];
    for b in 0..s.d() {
        let column: Vec<u16> = f.iter().map(|r| r[b]).collect();
        for (r, x) in second.iter_mut().zip(image(s, phi, &column)) {
            r[b] = x;
        }
    }
    second.extend(random2.chunks(s.d()).map(|r| r.to_vec()));
    second
}

/// What a dealing with a map is made from: the secrets, the random entries, φ by rows, and the random entries of the second array.
#[derive(Clone, Copy)]
pub struct Mapped<'a> {
    pub secrets: &'a [u16],
    pub random: &'a [u16],
    pub phi: &'a [u16],
    pub random2: &'a [u16],
}

/// A part, or every part: the g and h of the first dealing, then those of the second.
pub type Parts<'a> = [&'a mut [u16]; 4];

fn deal_mapped_faults(s: &Params, m: &[u16], from: Mapped, parts: &Parts, size: usize) -> Faults {
    let mut f = deal_faults(s, m, from.secrets, from.random);
    f.length(from.phi, s.l as usize * s.l as usize);
    f.length(from.random2, s.e as usize * s.d());
    f.elements(s.p, from.phi);
    f.elements(s.p, from.random2);
    parts.iter().for_each(|part| f.length(part, size));
    f
}

/// F and F_φ by rows.
fn both_dealt(s: &Params, from: Mapped) -> [Vec<Vec<u16>>; 2] {
    let first = dealt(s, from.secrets, from.random);
    let second = dealt_mapped(s, &first, from.phi, from.random2);
    [first, second]
}

/// Holder i's parts of both arrays, in the order of `Parts`; of each h is made before g.
fn both_parts(s: &Params, m: &[u16], [first, second]: &[Vec<Vec<u16>>; 2], i: usize) -> [Vec<u16>; 4] {
    let (h, g) = (part_h(s, m, first, i), part_g(s, m, first, i));
    let (h2, g2) = (part_h(s, m, second, i), part_g(s, m, second, i));
    [g, h, g2, h2]
}

pub fn deal_mapped(s: Params, m: &[u16], from: Mapped, holder: u16, parts: Parts) -> Answer {
    let mut f = deal_mapped_faults(&s, m, from, &parts, s.d());
    f.when(5, holder >= s.n);
    if let Some(k) = f.lowest() {
        return refused(k);
    }
    for (out, part) in parts.into_iter().zip(both_parts(&s, m, &both_dealt(&s, from), holder as usize)) {
        out.copy_from_slice(&part);
    }
    given(&[])
}

pub fn deal_mapped_all(s: Params, m: &[u16], from: Mapped, mut parts: Parts) -> Answer {
    if let Some(k) = deal_mapped_faults(&s, m, from, &parts, s.entries()).lowest() {
        return refused(k);
    }
    let arrays = both_dealt(&s, from);
    for i in 0..s.n as usize {
        for (out, part) in parts.iter_mut().zip(both_parts(&s, m, &arrays, i)) {
            out[i * s.d()..(i + 1) * s.d()].copy_from_slice(&part);
        }
    }
    given(&[])
}

/// F of a zero dealing by rows: ℓ rows of zeros, then e lent rows.
fn dealt_zero(s: &Params, random: &[u16]) -> Vec<Vec<u16>> {
    let mut all = vec![vec![0; s.d()]; s.l as usize];
    all.extend(random.chunks(s.d()).map(|r| r.to_vec()));
    all
}

/// Holder i's h of a zero dealing: the last e entries, those of the lent rows.
fn part_zero_h(s: &Params, m: &[u16], f: &[Vec<u16>], i: usize) -> Vec<u16> {
    part_h(s, m, &f[s.l as usize..], i)
}

fn deal_zero_faults(s: &Params, m: &[u16], random: &[u16]) -> Faults {
    let mut f = Faults::of(s);
    f.length(m, s.entries());
    f.length(random, s.e as usize * s.d());
    f.elements(s.p, m);
    f.elements(s.p, random);
    f
}

pub fn deal_zero(s: Params, m: &[u16], random: &[u16], holder: u16, g: &mut [u16], h: &mut [u16]) -> Answer {
    let mut f = deal_zero_faults(&s, m, random);
    f.length(g, s.d());
    f.length(h, s.e as usize);
    f.when(5, holder >= s.n);
    if let Some(k) = f.lowest() {
        return refused(k);
    }
    let all = dealt_zero(&s, random);
    h.copy_from_slice(&part_zero_h(&s, m, &all, holder as usize));
    g.copy_from_slice(&part_g(&s, m, &all, holder as usize));
    given(&[])
}

pub fn deal_zero_all(s: Params, m: &[u16], random: &[u16], gs: &mut [u16], hs: &mut [u16]) -> Answer {
    let (d, e) = (s.d(), s.e as usize);
    let mut f = deal_zero_faults(&s, m, random);
    f.length(gs, s.entries());
    f.length(hs, s.n as usize * e);
    if let Some(k) = f.lowest() {
        return refused(k);
    }
    let all = dealt_zero(&s, random);
    for i in 0..s.n as usize {
        hs[i * e..(i + 1) * e].copy_from_slice(&part_zero_h(&s, m, &all, i));
        gs[i * d..(i + 1) * d].copy_from_slice(&part_g(&s, m, &all, i));
    }
    given(&[])
}

fn value_for(s: &Params, m: &[u16], g: &[u16], i: usize) -> u16 {
    dot(s.p, g.iter().copied(), row(s, m, i).iter().copied())
}

fn due_from(s: &Params, m: &[u16], h: &[u16], j: usize) -> u16 {
    dot(s.p, row(s, m, j).iter().copied(), h.iter().copied())
}

pub fn pair_value(s: Params, m: &[u16], g: &[u16], to: u16) -> Answer {
    let mut f = Faults::of(&s);
    f.length(m, s.entries());
    f.length(g, s.d());
    f.elements(s.p, m);
    f.elements(s.p, g);
    f.when(5, to >= s.n);
    match f.lowest() {
        Some(k) => refused(k),
        None => given(&[value_for(&s, m, g, to as usize)]),
    }
}

/// None accepts, Some(j) rejects and names the lowest j that differs.
fn judgement(s: &Params, m: &[u16], h: &[u16], values: &[u16]) -> Option<u16> {
    (0..s.n).find(|&j| values[j as usize] != due_from(s, m, h, j as usize))
}

/// 1, or 0 and the holder named.
fn named(found: Option<u16>) -> Answer {
    match found {
        None => given(&[1]),
        Some(j) => given(&[0, j]),
    }
}

pub fn judge(s: Params, m: &[u16], h: &[u16], values: &[u16]) -> Answer {
    let mut f = Faults::of(&s);
    f.length(m, s.entries());
    f.length(h, s.d());
    f.length(values, s.n as usize);
    f.elements(s.p, m);
    f.elements(s.p, h);
    f.elements(s.p, values);
    match f.lowest() {
        Some(k) => refused(k),
        None => named(judgement(&s, m, h, values)),
    }
}

/// Named by a rejection where only the check of the map fails: no holder.
pub const REJECT_MAP: u16 = 65535;

/// The second dealing as its holder judges it.
#[derive(Clone, Copy)]
pub struct Second<'a> {
    pub phi: &'a [u16],
    pub h: &'a [u16],
    pub values: &'a [u16],
}

/// None accepts; Some(j) rejects and names the lowest j that differs in either dealing, or REJECT_MAP where only the map fails.
fn judgement_mapped(s: &Params, m: &[u16], h: &[u16], values: &[u16], second: Second) -> Option<u16> {
    let wrong = [judgement(s, m, h, values), judgement(s, m, second.h, second.values)];
    match wrong.into_iter().flatten().min() {
        None if second.h[..s.l as usize] != image(s, second.phi, h) => Some(REJECT_MAP),
        lowest => lowest,
    }
}

pub fn judge_mapped(s: Params, m: &[u16], h: &[u16], values: &[u16], second: Second) -> Answer {
    let mut f = Faults::of(&s);
    f.length(m, s.entries());
    f.length(h, s.d());
    f.length(values, s.n as usize);
    f.length(second.phi, s.l as usize * s.l as usize);
    f.length(second.h, s.d());
    f.length(second.values, s.n as usize);
    for xs in [m, h, values, second.phi, second.h, second.values] {
        f.elements(s.p, xs);
    }
    match f.lowest() {
        Some(k) => refused(k),
        None => named(judgement_mapped(&s, m, h, values, second)),
    }
}

/// None accepts; Some(j) rejects and names the lowest j whose value is not the last e entries of its row times h.
fn judgement_zero(s: &Params, m: &[u16], h: &[u16], values: &[u16]) -> Option<u16> {
    (0..s.n).find(|&j| {
        let last = &row(s, m, j as usize)[s.l as usize..];
        values[j as usize] != dot(s.p, last.iter().copied(), h.iter().copied())
    })
}

pub fn judge_zero(s: Params, m: &[u16], h: &[u16], values: &[u16]) -> Answer {
    let mut f = Faults::of(&s);
    f.length(m, s.entries());
    f.length(h, s.e as usize);
    f.length(values, s.n as usize);
    for xs in [m, h, values] {
        f.elements(s.p, xs);
    }
    match f.lowest() {
        Some(k) => refused(k),
        None => named(judgement_zero(&s, m, h, values)),
    }
}

pub fn outcome(s: Params, g: &[u16], verdicts: &[u16], shares: &mut [u16]) -> Answer {
    let mut f = Faults::of(&s);
    f.length(g, s.d());
    f.length(verdicts, s.n as usize);
    f.length(shares, s.l as usize);
    f.elements(s.p, g);
    f.when(12, verdicts.iter().any(|&v| v > 1));
    if let Some(k) = f.lowest() {
        return refused(k);
    }
    let found = (0..s.n).find(|&i| verdicts[i as usize] == 0);
    if found.is_none() {
        shares.copy_from_slice(&g[..s.l as usize]);
    }
    named(found)
}

pub fn rehearse(s: Params, m: &[u16], gs: &[u16], hs: &[u16]) -> Answer {
    let mut f = Faults::of(&s);
    f.length(m, s.entries());
    f.length(gs, s.entries());
    f.length(hs, s.entries());
    f.elements(s.p, m);
    f.elements(s.p, gs);
    f.elements(s.p, hs);
    if let Some(k) = f.lowest() {
        return refused(k);
    }
    for i in 0..s.n as usize {
        for j in 0..s.n as usize {
            if value_for(&s, m, row(&s, gs, j), i) != due_from(&s, m, row(&s, hs, i), j) {
                return given(&[0, i as u16, j as u16]);
            }
        }
    }
    given(&[1])
}

/// The share of a combination and its round, that of its shares; the empty one has round 0.
pub fn combine(p: u16, constants: &[u16], shares: &[u16], rounds: &[u16]) -> Answer {
    let mut f = Faults(vec![]);
    f.when(1, !PRIMES.contains(&p));
    f.length(shares, constants.len());
    f.length(rounds, constants.len());
    f.when(3, constants.len() > 64);
    f.elements(p, constants);
    f.elements(p, shares);
    f.rounds(rounds);
    match f.lowest() {
        Some(k) => refused(k),
        None => given(&[dot(p, constants.iter().copied(), shares.iter().copied()), rounds.first().copied().unwrap_or(0)]),
    }
}

/// A share and a zero share of the same column as one share of the next round.
pub fn refresh(p: u16, share: u16, round: u16, zero: u16) -> Answer {
    let mut f = Faults(vec![]);
    f.when(1, !PRIMES.contains(&p));
    f.elements(p, &[share, zero]);
    f.when(18, round == 65535);
    match f.lowest() {
        Some(k) => refused(k),
        None => given(&[plus(p, share, zero), round + 1]),
    }
}

// ---- sets and openings

fn members(set: u32) -> Vec<usize> {
    (0..32).filter(|i| set >> i & 1 == 1).collect()
}

/// Solves the rows (coefficients, then the right side) by Gauss-Jordan elimination in the order of A6: columns from left to right, the pivot being the
/// topmost unused row with an entry other than 0, scaled to 1; no row moves. Gives the solution with 0 at each unknown without a pivot, if there is one,
/// and the number of row steps, that is, of multiples of a pivot row subtracted from another row.
fn solve(p: u16, mut rows: Vec<Vec<u16>>, unknowns: usize) -> (Option<Vec<u16>>, u16) {
    // The column of each row's pivot, where it is used.
    let mut pivots = vec![None; rows.len()];
    let mut steps = 0;
    for c in 0..unknowns {
        let Some(top) = (0..rows.len()).find(|&r| pivots[r].is_none() && rows[r][c] != 0) else { continue };
        pivots[top] = Some(c);
        let k = inverse(p, rows[top][c]);
        for x in rows[top].iter_mut() {
            *x = times(p, *x, k);
        }
        for r in 0..rows.len() {
            let factor = rows[r][c];
            if r != top && factor != 0 {
                for x in 0..=unknowns {
                    let t = times(p, factor, rows[top][x]);
                    rows[r][x] = minus(p, rows[r][x], t);
                }
                steps += 1;
            }
        }
    }
    let mut solution = vec![0; unknowns];
    for (row, pivot) in rows.iter().zip(pivots) {
        match pivot {
            Some(c) => solution[c] = row[unknowns],
            None if row[unknowns] != 0 => return (None, steps),
            None => {}
        }
    }
    (Some(solution), steps)
}

/// The reconstruction row for position q, if there is one, and the row steps of its elimination: the members' rows as columns, by rising holder, with the
/// unit vector of q beside them. It has 0 at each member whose matrix row is a combination of those of lower members: that column has no pivot.
fn reconstruction_row(s: &Params, m: &[u16], set: u32, q: usize) -> (Option<Vec<u16>>, u16) {
    let ms = members(set);
    let rows = (0..s.d())
        .map(|c| ms.iter().map(|&i| row(s, m, i)[c]).chain([(c == q) as u16]).collect())
        .collect();
    solve(s.p, rows, ms.len())
}

/// A sweeping vector for position q: the last e entries solve against column q.
fn sweeping_vector(s: &Params, m: &[u16], set: u32, q: usize) -> Option<Vec<u16>> {
    let (l, e) = (s.l as usize, s.e as usize);
    let rows = members(set)
        .iter()
        .map(|&i| {
            let r = row(s, m, i);
            r[l..].iter().copied().chain([minus(s.p, 0, r[q])]).collect()
        })
        .collect();
    let tail = solve(s.p, rows, e).0?;
    Some((0..l).map(|c| (c == q) as u16).chain(tail).collect())
}

fn set_faults(s: &Params, m: &[u16], set: u32) -> Faults {
    let mut f = Faults::of(s);
    f.length(m, s.entries());
    f.elements(s.p, m);
    f.when(5, s.n < 32 && set >> s.n != 0);
    f
}

/// 1 row, 2 vector, 0 neither, and the row steps of the row's elimination, whatever it finds; the buffer holds the row or a vector, then zeros.
pub fn judge_set(s: Params, m: &[u16], set: u32, position: u16, out: &mut [u16]) -> Answer {
    let mut f = set_faults(&s, m, set);
    f.length(out, 32);
    f.when(5, position >= s.l);
    if let Some(k) = f.lowest() {
        return refused(k);
    }
    let q = position as usize;
    let (found, steps) = reconstruction_row(&s, m, set, q);
    let (kind, found) = match found {
        Some(r) => (1, r),
        None => match sweeping_vector(&s, m, set, q) {
            Some(w) => (2, w),
            None => (0, vec![]),
        },
    };
    out.fill(0);
    out[..found.len()].copy_from_slice(&found);
    given(&[kind, steps])
}

/// For each row whether it is a combination of those before it: nothing is left of it once multiples of what was left of them are subtracted.
fn combinations(p: u16, rows: &[&[u16]]) -> Vec<bool> {
    let mut kept: Vec<Vec<u16>> = vec![];
    let mut found = vec![];
    for row in rows {
        let mut left = row.to_vec();
        for x in &kept {
            let at = x.iter().position(|&a| a != 0).unwrap();
            let factor = times(p, left[at], inverse(p, x[at]));
            for (a, &b) in left.iter_mut().zip(x) {
                *a = minus(p, *a, times(p, factor, b));
            }
        }
        found.push(left.iter().all(|&a| a == 0));
        if found.last() == Some(&false) {
            kept.push(left);
        }
    }
    found
}

/// Whether what judge_set wrote is the row or some vector, as the kind says, followed by zeros.
pub fn is_of_kind(s: Params, m: &[u16], set: u32, position: u16, kind: u16, out: &[u16]) -> bool {
    let (ms, d, q) = (members(set), s.d(), position as usize);
    let width = [0, ms.len(), d][kind as usize];
    let right = match kind {
        1 => {
            let rows: Vec<&[u16]> = ms.iter().map(|&i| row(&s, m, i)).collect();
            (0..d).all(|c| dot(s.p, out.iter().copied(), rows.iter().map(|r| r[c])) == (c == q) as u16)
                && combinations(s.p, &rows).iter().zip(out).all(|(&tied, &x)| !tied || x == 0)
        }
        2 => {
            ms.iter().all(|&i| due_from(&s, m, &out[..d], i) == 0)
                && (0..s.l as usize).all(|c| out[c] == (c == q) as u16)
        }
        _ => true,
    };
    right && out.iter().all(|&x| x < s.p) && out[width..].iter().all(|&x| x == 0)
}

fn no_row(s: &Params, m: &[u16], set: u32) -> Option<u16> {
    (0..s.l).find(|&q| reconstruction_row(s, m, set, q as usize).0.is_none())
}

pub fn determines(s: Params, m: &[u16], set: u32) -> Answer {
    match set_faults(&s, m, set).lowest() {
        Some(k) => refused(k),
        None => given(&[no_row(&s, m, set).is_none() as u16]),
    }
}

pub fn private(s: Params, m: &[u16], set: u32) -> Answer {
    match set_faults(&s, m, set).lowest() {
        Some(k) => refused(k),
        None => given(&[(0..s.l as usize).all(|q| sweeping_vector(&s, m, set, q).is_some()) as u16]),
    }
}

pub fn open(s: Params, m: &[u16], set: u32, shares: &[u16], rounds: &[u16], secrets: &mut [u16]) -> Answer {
    let mut f = set_faults(&s, m, set);
    f.length(shares, set.count_ones() as usize);
    f.length(rounds, set.count_ones() as usize);
    f.length(secrets, s.l as usize);
    f.elements(s.p, shares);
    f.rounds(rounds);
    if let Some(k) = f.lowest() {
        return refused(k);
    }
    if let Some(q) = no_row(&s, m, set) {
        return Answer { number: 6, values: vec![q] };
    }
    let rows = members(set).iter().zip(shares).map(|(&i, &x)| row(&s, m, i).iter().copied().chain([x]).collect()).collect();
    match solve(s.p, rows, s.d()).0 {
        None => refused(7),
        Some(v) => {
            secrets.copy_from_slice(&v[..s.l as usize]);
            given(&[])
        }
    }
}

// ---- corrections

/// The corrections that there are, in hundredths of a second, and the constants beside them.
pub const CORRECTIONS: std::ops::RangeInclusive<i32> = -32760..=32760;
/// The one p that they are held with.
pub const CORRECTION_PRIME: u16 = 65521;

/// The remainder of an integer.
fn remainder(x: i64) -> u16 {
    x.rem_euclid(CORRECTION_PRIME as i64) as u16
}

/// The correction that has this remainder.
fn correction(residue: u16) -> i32 {
    let x = residue as i32;
    if CORRECTIONS.contains(&x) { x } else { x - CORRECTION_PRIME as i32 }
}

/// Corrections as their remainders.
pub fn hold_corrections(p: u16, corrections: &[i32], residues: &mut [u16]) -> Answer {
    let mut f = Faults(vec![]);
    f.signed(corrections);
    f.when(1, p != CORRECTION_PRIME);
    f.length(residues, corrections.len());
    if let Some(k) = f.lowest() {
        return refused(k);
    }
    for (residue, &x) in residues.iter_mut().zip(corrections) {
        *residue = remainder(x as i64);
    }
    given(&[])
}

/// Remainders read back into the range.
pub fn read_corrections(p: u16, residues: &[u16], corrections: &mut [i32]) -> Answer {
    let mut f = Faults(vec![]);
    f.when(1, p != CORRECTION_PRIME);
    f.length(corrections, residues.len());
    f.elements(p, residues);
    if let Some(k) = f.lowest() {
        return refused(k);
    }
    for (x, &residue) in corrections.iter_mut().zip(residues) {
        *x = correction(residue);
    }
    given(&[])
}

/// The share of a combination with signed constants and its round: the remainder of the exact sum.
pub fn combine_signed(p: u16, constants: &[i32], shares: &[u16], rounds: &[u16]) -> Answer {
    let mut f = Faults(vec![]);
    f.signed(constants);
    f.when(1, p != CORRECTION_PRIME);
    f.length(shares, constants.len());
    f.length(rounds, constants.len());
    f.when(3, constants.len() > 64);
    f.elements(p, shares);
    f.rounds(rounds);
    if let Some(k) = f.lowest() {
        return refused(k);
    }
    let sum: i64 = constants.iter().zip(shares).map(|(&c, &x)| c as i64 * x as i64).sum();
    given(&[remainder(sum), rounds.first().copied().unwrap_or(0)])
}

/// The opening, whose secrets are read back into the range.
pub fn open_signed(s: Params, m: &[u16], set: u32, shares: &[u16], rounds: &[u16], corrections: &mut [i32]) -> Answer {
    if s.p != CORRECTION_PRIME {
        return refused(1);
    }
    let mut secrets = vec![0; corrections.len()];
    let answer = open(s, m, set, shares, rounds, &mut secrets);
    if answer.number == 0 {
        for (x, &residue) in corrections.iter_mut().zip(&secrets) {
            *x = correction(residue);
        }
    }
    answer
}

// ---- board keys

/// The setup of every board key; its matrix is the points matrix.
pub const BOARD: Params = Params { p: 257, l: 4, e: 3, n: 16 };
/// Bytes of a board key.
pub const KEY: usize = 16;

fn board_matrix() -> Vec<u16> {
    let mut m = vec![0; BOARD.entries()];
    points(BOARD, &mut m);
    m
}

/// Every holder's part of a key: byte 4b + k is position k of column b.
pub fn deal_key(key: &[u8], random: &[u16], gs: &mut [u16], hs: &mut [u16]) -> Answer {
    let secrets: Vec<u16> = key.iter().map(|&byte| byte as u16).collect();
    deal_all(BOARD, &board_matrix(), &secrets, random, gs, hs)
}

/// Four openings, of the set's shares of column 0, then of 1, 2 and 3, each with its rounds. A position of 256 is no byte: 16, where all four open.
pub fn open_key(set: u32, shares: &[u16], rounds: &[u16], key: &mut [u8]) -> Answer {
    let (m, count) = (board_matrix(), set.count_ones() as usize);
    let mut f = set_faults(&BOARD, &m, set);
    f.length(shares, 4 * count);
    f.length(rounds, 4 * count);
    f.length(key, KEY);
    f.elements(BOARD.p, shares);
    rounds.chunks(count.max(1)).for_each(|column| f.rounds(column));
    if let Some(k) = f.lowest() {
        return refused(k);
    }
    let mut opened = [0; KEY];
    for b in 0..4 {
        let column = b * count..(b + 1) * count;
        let answer = open(BOARD, &m, set, &shares[column.clone()], &rounds[column], &mut opened[4 * b..4 * b + 4]);
        if answer.number != 0 {
            return answer;
        }
    }
    if opened.contains(&256) {
        return refused(16);
    }
    for (byte, x) in key.iter_mut().zip(opened) {
        *byte = x as u8;
    }
    given(&[])
}

// ---- records

pub const SU: u16 = 0x5553;
pub const DL: u16 = 0x4C44;
pub const PV: u16 = 0x5650;
pub const VD: u16 = 0x4456;
pub const SH: u16 = 0x4853;
pub const DF: u16 = 0x4644;
pub const PF: u16 = 0x4650;
pub const DZ: u16 = 0x5A44;

/// Words as bytes, low byte first.
pub fn bytes(words: &[u16]) -> Vec<u8> {
    words.iter().flat_map(|w| [(w % 256) as u8, (w / 256) as u8]).collect()
}

fn word(bytes: &[u8], k: usize) -> u16 {
    bytes[2 * k] as u16 + 256 * bytes[2 * k + 1] as u16
}

fn dealing_faults(s: &Params, dealing: u16, holder: u16, g: &[u16], h: &[u16]) -> Faults {
    let mut f = Faults(vec![]);
    f.elements(s.p, g);
    f.elements(s.p, h);
    f.when(5, holder >= s.n);
    f.when(9, dealing == 0);
    f
}

fn pair_faults(s: &Params, [dealing, from, to, value]: [u16; 4]) -> Faults {
    let mut f = Faults(vec![]);
    f.elements(s.p, &[value]);
    f.when(5, from >= s.n || to >= s.n);
    f.when(9, dealing == 0);
    f
}

fn verdict_faults(s: &Params, [dealing, holder, verdict]: [u16; 3]) -> Faults {
    let mut f = Faults(vec![]);
    f.when(5, holder >= s.n);
    f.when(9, dealing == 0);
    f.when(12, verdict > 1);
    f
}

/// Any round has its place.
fn share_faults(s: &Params, [dealing, holder, column, value, _]: [u16; 5]) -> Faults {
    let mut f = Faults(vec![]);
    f.elements(s.p, &[value]);
    f.when(5, holder >= s.n || column >= s.l || dealing == 0 && column != 0);
    f
}

/// Writes a record of these words into a buffer of just its length, or gives the lowest refusal: of the setup, of that length or in `f`.
fn write(s: Params, words: &[u16], mut f: Faults, out: &mut [u8]) -> Answer {
    f.0.extend(s.limits());
    f.length(out, 2 * words.len());
    if let Some(k) = f.lowest() {
        return refused(k);
    }
    out.copy_from_slice(&bytes(words));
    given(&[])
}

/// SU: the setup's numbers and its matrix.
pub fn write_setup(s: Params, m: &[u16], out: &mut [u8]) -> Answer {
    let mut f = Faults(vec![]);
    f.length(m, s.entries());
    f.elements(s.p, m);
    write(s, &[&[SU, s.p, s.l, s.e, s.n], m].concat(), f, out)
}

/// DL: a holder's part of a dealing.
pub fn write_dealing(s: Params, dealing: u16, holder: u16, g: &[u16], h: &[u16], out: &mut [u8]) -> Answer {
    let mut f = dealing_faults(&s, dealing, holder, g, h);
    f.length(g, s.d());
    f.length(h, s.d());
    write(s, &[&[DL, dealing, holder], g, h].concat(), f, out)
}

/// DF: a holder's part of a second dealing, and φ.
pub fn write_mapped_dealing(s: Params, dealing: u16, holder: u16, [g, h, phi]: [&[u16]; 3], out: &mut [u8]) -> Answer {
    let mut f = dealing_faults(&s, dealing, holder, g, h);
    f.elements(s.p, phi);
    f.length(g, s.d());
    f.length(h, s.d());
    f.length(phi, s.l as usize * s.l as usize);
    write(s, &[&[DF, dealing, holder], g, h, phi].concat(), f, out)
}

/// DZ: a holder's part of a zero dealing.
pub fn write_zero_dealing(s: Params, dealing: u16, holder: u16, g: &[u16], h: &[u16], out: &mut [u8]) -> Answer {
    let mut f = dealing_faults(&s, dealing, holder, g, h);
    f.length(g, s.d());
    f.length(h, s.e as usize);
    write(s, &[&[DZ, dealing, holder], g, h].concat(), f, out)
}

/// PV: the value that one holder sends another.
pub fn write_pair_value(s: Params, dealing: u16, from: u16, to: u16, value: u16, out: &mut [u8]) -> Answer {
    write(s, &[PV, dealing, from, to, value], pair_faults(&s, [dealing, from, to, value]), out)
}

/// PF: the same of the second dealing.
pub fn write_mapped_pair_value(s: Params, dealing: u16, from: u16, to: u16, value: u16, out: &mut [u8]) -> Answer {
    write(s, &[PF, dealing, from, to, value], pair_faults(&s, [dealing, from, to, value]), out)
}

/// VD: a holder's verdict, 1 accept or 0 reject.
pub fn write_verdict(s: Params, dealing: u16, holder: u16, verdict: u16, out: &mut [u8]) -> Answer {
    write(s, &[VD, dealing, holder, verdict], verdict_faults(&s, [dealing, holder, verdict]), out)
}

/// SH: a holder's share of a column, or of a combination under the dealing number 0, and its round.
pub fn write_share(s: Params, fields: [u16; 5], out: &mut [u8]) -> Answer {
    write(s, &[&[SH], &fields[..]].concat(), share_faults(&s, fields), out)
}

/// The mark that a part starts with.
fn mark(part: &[u8]) -> Result<u16, u16> {
    if part.len() < 2 { Err(3) } else { Ok(word(part, 0)) }
}

/// The mark must be this one.
fn expect(part: &[u8], wanted: u16) -> Result<(), u16> {
    if mark(part)? == wanted { Ok(()) } else { Err(8) }
}

/// The first words of a part, unless it is cut short.
fn words(part: &[u8], count: usize) -> Result<Vec<u16>, u16> {
    if part.len() < 2 * count {
        return Err(3);
    }
    Ok((0..count).map(|k| word(part, k)).collect())
}

/// The fields behind the mark of a record of N of them.
fn fields<const N: usize>(part: &[u8]) -> Result<[u16; N], u16> {
    let all = words(part, 1 + N)?;
    Ok(std::array::from_fn(|k| all[1 + k]))
}

/// The numbers and the matrix of an SU, whose mark was seen: the numbers after ten bytes, then the length. The entries are not looked at.
fn setup_fields(part: &[u8]) -> Result<(Params, Vec<u16>), u16> {
    let [p, l, e, n] = fields(part)?;
    let s = Params { p, l, e, n };
    Faults::of(&s).check()?;
    Ok((s, words(part, 5 + s.entries())?.split_off(5)))
}

/// The same, entries and all.
fn setup_record(part: &[u8]) -> Result<(Params, Vec<u16>), u16> {
    let (s, m) = setup_fields(part)?;
    if m.iter().any(|&x| x >= s.p) { Err(4) } else { Ok((s, m)) }
}

/// Dealing number, holder, g and h of a DL, whose h has d entries, or of a DZ, whose h has e; the mark was seen.
fn dealing_fields(s: &Params, part: &[u8], entries: usize) -> Result<(u16, u16, Vec<u16>, Vec<u16>), u16> {
    let mut g = words(part, 3 + s.d() + entries)?;
    let h = g.split_off(3 + s.d());
    let (dealing, holder) = (g[1], g[2]);
    g.drain(..3);
    dealing_faults(s, dealing, holder, &g, &h).check()?;
    Ok((dealing, holder, g, h))
}

/// A DF whose mark was seen: dealing number and holder, then g, h and φ.
type MappedFields = ([u16; 2], [Vec<u16>; 3]);

/// The fields of a DF whose mark was seen, and the refusals that they give.
fn mapped_fields(s: &Params, part: &[u8]) -> Result<(MappedFields, Faults), u16> {
    let all = words(part, 3 + 2 * s.d() + s.l as usize * s.l as usize)?;
    let (g, rest) = all[3..].split_at(s.d());
    let (h, phi) = rest.split_at(s.d());
    let mut f = dealing_faults(s, all[1], all[2], g, h);
    f.elements(s.p, phi);
    Ok((([all[1], all[2]], [g, h, phi].map(|x| x.to_vec())), f))
}

fn answer(found: Result<Vec<u16>, u16>) -> Answer {
    found.map_or_else(refused, |values| given(&values))
}

/// The four numbers of the SU that a part starts with.
pub fn read_setup_head(part: &[u8]) -> Answer {
    answer(expect(part, SU).and_then(|()| setup_record(part)).map(|(s, _)| vec![s.p, s.l, s.e, s.n]))
}

/// The matrix of the SU that a part starts with; the lent length is tested after the numbers and before the entries.
pub fn read_setup_matrix(part: &[u8], matrix: &mut [u16]) -> Answer {
    let found = expect(part, SU).and_then(|()| setup_fields(part)).and_then(|(s, m)| {
        let mut f = Faults(vec![]);
        f.length(matrix, s.entries());
        f.elements(s.p, &m);
        f.check()?;
        matrix.copy_from_slice(&m);
        Ok(vec![])
    });
    answer(found)
}

/// Reads a record other than SU at the start of a part: what is lent first, then the mark, then the rest.
fn read(lent: Faults, part: &[u8], wanted: u16, rest: impl FnOnce() -> Result<Vec<u16>, u16>) -> Answer {
    answer(lent.check().and_then(|()| expect(part, wanted)).and_then(|()| rest()))
}

/// A DL or a DZ, whose h has so many entries.
fn read_part(s: Params, part: &[u8], wanted: u16, entries: usize, g: &mut [u16], h: &mut [u16]) -> Answer {
    let mut lent = Faults::of(&s);
    lent.length(g, s.d());
    lent.length(h, entries);
    read(lent, part, wanted, || {
        let (dealing, holder, row, column) = dealing_fields(&s, part, entries)?;
        g.copy_from_slice(&row);
        h.copy_from_slice(&column);
        Ok(vec![dealing, holder])
    })
}

/// The dealing number and holder of a DL, with its g and h.
pub fn read_dealing(s: Params, part: &[u8], g: &mut [u16], h: &mut [u16]) -> Answer {
    read_part(s, part, DL, s.d(), g, h)
}

/// The dealing number and holder of a DZ, with its g and h.
pub fn read_zero_dealing(s: Params, part: &[u8], g: &mut [u16], h: &mut [u16]) -> Answer {
    read_part(s, part, DZ, s.e as usize, g, h)
}

/// The dealing number and holder of a DF, with its g, h and φ.
pub fn read_mapped_dealing(s: Params, part: &[u8], [g, h, phi]: [&mut [u16]; 3]) -> Answer {
    let mut lent = Faults::of(&s);
    lent.length(g, s.d());
    lent.length(h, s.d());
    lent.length(phi, s.l as usize * s.l as usize);
    read(lent, part, DF, || {
        let ((numbers, lists), f) = mapped_fields(&s, part)?;
        f.check()?;
        for (out, list) in [g, h, phi].into_iter().zip(lists) {
            out.copy_from_slice(&list);
        }
        Ok(numbers.to_vec())
    })
}

/// The four fields of a PV or a PF.
fn read_pair(s: Params, part: &[u8], wanted: u16) -> Answer {
    read(Faults::of(&s), part, wanted, || {
        let x = fields(part)?;
        pair_faults(&s, x).check()?;
        Ok(x.to_vec())
    })
}

/// The four fields of a PV.
pub fn read_pair_value(s: Params, part: &[u8]) -> Answer {
    read_pair(s, part, PV)
}

/// The four fields of a PF.
pub fn read_mapped_pair_value(s: Params, part: &[u8]) -> Answer {
    read_pair(s, part, PF)
}

/// The three fields of a VD.
pub fn read_verdict(s: Params, part: &[u8]) -> Answer {
    read(Faults::of(&s), part, VD, || {
        let x = fields(part)?;
        verdict_faults(&s, x).check()?;
        Ok(x.to_vec())
    })
}

/// The five fields of an SH whose mark was seen.
fn share_fields(s: &Params, part: &[u8]) -> Result<[u16; 5], u16> {
    let x = fields(part)?;
    share_faults(s, x).check()?;
    Ok(x)
}

/// The five fields of an SH.
pub fn read_share(s: Params, part: &[u8]) -> Answer {
    read(Faults::of(&s), part, SH, || Ok(share_fields(&s, part)?.to_vec()))
}

/// Which of the two SH that two parts start with supersedes, 1 or 2: the one with the higher round, and the first of two that are alike. All that the reader
/// refuses in the first comes before anything in the second, then 21, then 20.
pub fn superseding(s: Params, first: &[u8], second: &[u8]) -> Answer {
    read(Faults::of(&s), first, SH, || {
        let [dealing, holder, column, value, round] = share_fields(&s, first)?;
        expect(second, SH)?;
        let [dealing2, holder2, column2, value2, round2] = share_fields(&s, second)?;
        if (dealing, holder, column) != (dealing2, holder2, column2) || dealing == 0 || dealing2 == 0 {
            return Err(21);
        }
        if round == round2 && value != value2 {
            return Err(20);
        }
        Ok(vec![if round2 > round { 2 } else { 1 }])
    })
}

// ---- the holder's file

struct Holder {
    s: Params,
    m: Vec<u16>,
    dealing: u16,
    holder: u16,
    g: Vec<u16>,
    h: Vec<u16>,
    /// The part is that of a DZ.
    zero: bool,
    /// The g, h and φ of a DF.
    second: Option<[Vec<u16>; 3]>,
    /// From holder 0 on.
    values: Vec<u16>,
    /// The same of the second dealing.
    values2: Vec<u16>,
    /// Of holder 0 on.
    verdicts: Vec<u16>,
}

/// The refusal and the byte where the faulty record starts.
type Fault = (u16, usize);

/// The mark that a part of a file starts with: one with a place there, or 10 for a second SU, DL, DF or DZ, or 8.
fn mark_in_place(part: &[u8], place: &[u16], seen: &[u16]) -> Result<u16, u16> {
    match mark(part)? {
        x if seen.contains(&x) => Err(10),
        x if place.contains(&x) => Ok(x),
        _ => Err(8),
    }
}

/// The SU of a file.
fn first_record(part: &[u8]) -> Result<(Params, Vec<u16>), u16> {
    mark_in_place(part, &[SU], &[])?;
    setup_record(part)
}

/// The DL or DZ of a file: a holder that has received nothing yet, and the record's size.
fn second_record(s: Params, m: Vec<u16>, part: &[u8]) -> Result<(Holder, usize), u16> {
    let zero = mark_in_place(part, &[DL, DZ], &[SU])? == DZ;
    let entries = if zero { s.e as usize } else { s.d() };
    let (dealing, holder, g, h) = dealing_fields(&s, part, entries)?;
    let x = Holder { s, m, dealing, holder, g, h, zero, second: None, values: vec![], values2: vec![], verdicts: vec![] };
    Ok((x, 6 + 2 * s.d() + 2 * entries))
}

/// Takes in the DF of a file, whose mark was seen, and gives its size.
fn second_dealing(x: &mut Holder, part: &[u8]) -> Result<usize, u16> {
    let (([dealing, holder], lists), mut f) = mapped_fields(&x.s, part)?;
    f.when(5, holder != x.holder);
    f.when(9, dealing != x.dealing);
    f.check()?;
    x.second = Some(lists);
    Ok(6 + 4 * x.s.d() + 2 * x.s.l as usize * x.s.l as usize)
}

/// Takes in a PV, PF or VD and gives its size. They come in one order, the PV by sender, with a DF the PF by sender, then the VD by holder: one before the
/// next that is due is there twice, one behind it comes too early.
fn later_record(x: &mut Holder, part: &[u8]) -> Result<usize, u16> {
    let (place, seen): (&[u16], &[u16]) = match x.second {
        Some(_) => (&[PV, PF, VD], &[SU, DL, DF]),
        None if x.zero => (&[PV, VD], &[SU, DZ]),
        None => (&[PV, VD], &[SU, DL]),
    };
    let mark = mark_in_place(part, place, seen)?;
    let n = x.s.n as usize;
    let due = x.values.len() + x.values2.len() + x.verdicts.len();
    let in_turn = |f: &mut Faults, before: usize, holder: u16| {
        f.when(10, before + (holder as usize) < due);
        f.when(17, before + holder as usize > due);
    };
    if mark == VD {
        let all @ [dealing, from, verdict] = fields(part)?;
        let mut f = verdict_faults(&x.s, all);
        f.when(9, dealing != x.dealing);
        in_turn(&mut f, if x.second.is_some() { 2 * n } else { n }, from);
        f.check()?;
        x.verdicts.push(verdict);
        return Ok(8);
    }
    let all @ [dealing, from, to, value] = fields(part)?;
    let mut f = pair_faults(&x.s, all);
    f.when(5, to != x.holder);
    f.when(9, dealing != x.dealing);
    in_turn(&mut f, if mark == PF { n } else { 0 }, from);
    f.check()?;
    if mark == PF { &mut x.values2 } else { &mut x.values }.push(value);
    Ok(10)
}

/// All records of a file.
fn read_records(file: &[u8]) -> Result<Holder, Fault> {
    let missing = (11, file.len());
    if file.is_empty() {
        return Err(missing);
    }
    let (s, m) = first_record(file).map_err(|k| (k, 0))?;
    let mut at = 10 + 2 * s.entries();
    if at == file.len() {
        return Err(missing);
    }
    let (mut x, size) = second_record(s, m, &file[at..]).map_err(|k| (k, at))?;
    at += size;
    if !x.zero && mark(&file[at..]) == Ok(DF) {
        at += second_dealing(&mut x, &file[at..]).map_err(|k| (k, at))?;
    }
    while at < file.len() {
        at += later_record(&mut x, &file[at..]).map_err(|k| (k, at))?;
    }
    if x.verdicts.len() == s.n as usize { Ok(x) } else { Err(missing) }
}

/// What a file that keeps the rules says.
struct Contents {
    s: Params,
    dealing: u16,
    holder: u16,
    /// The sender that the own judgement rejects, or REJECT_MAP.
    rejected: Option<u16>,
    /// The holder that the outcome names.
    aborted: Option<u16>,
    shares: Vec<u16>,
    /// With a DF, the shares of the second dealing.
    mapped: Option<Vec<u16>>,
    /// It has a DZ.
    zero: bool,
}

/// Reads a file to its end, and judges.
fn contents_of(file: &[u8]) -> Result<Contents, Fault> {
    let x = read_records(file)?;
    let rejected = match &x.second {
        None if x.zero => judgement_zero(&x.s, &x.m, &x.h, &x.values),
        None => judgement(&x.s, &x.m, &x.h, &x.values),
        Some([_, h, phi]) => judgement_mapped(&x.s, &x.m, &x.h, &x.values, Second { phi, h, values: &x.values2 }),
    };
    if x.verdicts[x.holder as usize] != rejected.is_none() as u16 {
        return Err((13, file.len()));
    }
    let aborted = x.verdicts.iter().position(|&v| v == 0).map(|i| i as u16);
    let kept = |g: &[u16]| if aborted.is_none() { g[..x.s.l as usize].to_vec() } else { vec![] };
    let mapped = x.second.as_ref().map(|[g, ..]| kept(g));
    Ok(Contents { s: x.s, dealing: x.dealing, holder: x.holder, rejected, aborted, shares: kept(&x.g), mapped, zero: x.zero })
}

/// What the holder program prints of a file's contents.
fn text(c: &Contents) -> String {
    let mut text = format!("setup {} {} {} {}\n", c.s.p, c.s.l, c.s.e, c.s.n);
    text += &format!("dealing {} holder {}\n", c.dealing, c.holder);
    text += &match c.rejected {
        None => "verdict accept\n".to_string(),
        Some(REJECT_MAP) => "verdict reject map\n".to_string(),
        Some(j) => format!("verdict reject {j}\n"),
    };
    text += &match c.aborted {
        None => "outcome kept\n".to_string(),
        Some(i) => format!("outcome aborted {i}\n"),
    };
    for (b, share) in c.shares.iter().enumerate() {
        text += &format!("share {b} {share}\n");
    }
    for (b, share) in c.mapped.iter().flatten().enumerate() {
        text += &format!("mapped {b} {share}\n");
    }
    text
}

/// What the holder program prints for a file of at most 4,096 bytes.
pub fn holder(file: &[u8]) -> String {
    match contents_of(file) {
        Ok(contents) => text(&contents),
        Err((k, at)) => format!("refused {k} at {at}\n"),
    }
}

fn refused_at((number, byte): Fault) -> Answer {
    Answer { number, values: vec![byte as u16] }
}

/// How many numbers a file's contents are.
pub const CONTENTS: usize = 27;
/// Bytes lent for a file's text.
pub const TEXT: usize = 512;

/// What a file says, into a buffer of CONTENTS entries; a refusal of the file with its byte.
pub fn read_file(file: &[u8], contents: &mut [u16]) -> Answer {
    if file.len() > 4096 || contents.len() != CONTENTS {
        return refused(3);
    }
    match contents_of(file) {
        Ok(c) => {
            let named = |x: Option<u16>| [x.is_none() as u16, x.unwrap_or(0)];
            contents.fill(0);
            contents[..6].copy_from_slice(&[c.s.p, c.s.l, c.s.e, c.s.n, c.dealing, c.holder]);
            contents[6..8].copy_from_slice(&named(c.rejected));
            contents[8..10].copy_from_slice(&named(c.aborted));
            contents[10..10 + c.shares.len()].copy_from_slice(&c.shares);
            contents[18] = if c.zero { 2 } else { 0 };
            if let Some(mapped) = c.mapped {
                contents[18] = 1;
                contents[19..19 + mapped.len()].copy_from_slice(&mapped);
            }
            given(&[])
        }
        Err(fault) => refused_at(fault),
    }
}

/// The text of a file, into a buffer of TEXT bytes, and how many of them it is; a refusal of the file with its byte.
pub fn holder_file(file: &[u8], out: &mut [u8]) -> Answer {
    if file.len() > 4096 || out.len() != TEXT {
        return refused(3);
    }
    match contents_of(file) {
        Ok(c) => {
            let text = text(&c);
            out[..text.len()].copy_from_slice(text.as_bytes());
            given(&[text.len() as u16])
        }
        Err(fault) => refused_at(fault),
    }
}
