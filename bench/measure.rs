//! Interleaved repeats, medians, and the lines that are printed.

use crate::TURN;
use reference::Answer;
use std::hint::black_box;
use std::time::Instant;

/// A contender: runs its call on so many inputs.
pub type Runner<'a> = Box<dyn FnMut(usize) + 'a>;

/// The call on input k; its second parameter asks for a digest of what it gave.
pub fn runner<'a>(mut call: impl FnMut(usize, bool) -> u64 + 'a) -> Runner<'a> {
    let mut k = 0;
    Box::new(move |count| {
        for _ in 0..count {
            black_box(call(black_box(k), false));
            k = (k + 1) % TURN;
        }
    })
}

pub fn nanoseconds(run: &mut Runner, count: usize) -> f64 {
    let start = Instant::now();
    run(count);
    start.elapsed().as_nanos() as f64
}

pub fn median(mut xs: Vec<f64>) -> f64 {
    xs.sort_by(f64::total_cmp);
    xs[xs.len() / 2]
}

/// The median time of one call of each contender, all in turns: each turn is some 100 microseconds of calls, and whole rounds of inputs.
pub fn medians(contenders: &mut [Runner], rounds: usize) -> Vec<f64> {
    let counts: Vec<usize> = contenders
        .iter_mut()
        .map(|run| {
            let mut count = TURN;
            while nanoseconds(run, count) < 1e5 {
                count *= 2;
            }
            count
        })
        .collect();
    let mut times = vec![vec![]; contenders.len()];
    for round in 0..rounds {
        for turn in 0..contenders.len() {
            // Who runs first changes, so that nobody always follows the same neighbour.
            let who = (turn + round) % contenders.len();
            times[who].push(nanoseconds(&mut contenders[who], counts[who]) / counts[who] as f64);
        }
    }
    times.into_iter().map(median).collect()
}

pub const ROUNDS: usize = 41;

pub struct Table {
    /// Measures above the target, with their ratio.
    pub slower: Vec<String>,
    pub measures: usize,
    pub highest: (f64, String),
}

impl Table {
    /// One line: ours and the reference on the same inputs. Both must give the same.
    pub fn line<'a>(&mut self, name: &str, ours: impl FnMut(usize, bool) -> u64 + 'a, theirs: impl FnMut(usize, bool) -> u64 + 'a) {
        let (mut ours, mut theirs) = (ours, theirs);
        for k in 0..TURN {
            assert_eq!(ours(k, true), theirs(k, true), "{name}: the two give different answers on input {k}");
        }
        let mut both = [runner(ours), runner(theirs)];
        let mut t = medians(&mut both, ROUNDS);
        // One disturbed measure is no result: above the target it is taken again, longer, and that one counts.
        if t[0] / t[1] > 1.05 {
            t = medians(&mut both, 4 * ROUNDS);
        }
        let ratio = t[0] / t[1];
        println!("{name:40} {:10.1} {:10.1} {ratio:7.3}", t[0], t[1]);
        self.measures += 1;
        if ratio > self.highest.0 {
            self.highest = (ratio, name.to_string());
        }
        if ratio > 1.05 {
            self.slower.push(format!("{name} {ratio:.2}"));
        }
    }
}

impl Table {
    /// Says whether the target is reached, and gives it.
    pub fn verdict(&self) -> bool {
        let words = format!("no call slower than the reference (ratio at most 1.05), {} measures", self.measures);
        let reached = self.slower.is_empty();
        if reached {
            println!("{words}: reached, {:.3} at most ({})", self.highest.0, self.highest.1);
        } else {
            println!("{words}: not reached: {} of them: {}", self.slower.len(), self.slower.join("; "));
        }
        reached
    }
}

/// FNV-1a.
pub fn digest(number: u16, values: &[u16]) -> u64 {
    [number].iter().chain(values).fold(0xcbf29ce484222325, |h, &x| (h ^ x as u64).wrapping_mul(0x100000001b3))
}

/// What a call's runner gives: the whole digest where it is asked for, else some number that keeps the call from being left out.
#[inline(always)]
pub fn give(look: bool, whole: impl FnOnce() -> u64, quick: u16) -> u64 {
    match look {
        true => whole(),
        false => quick as u64,
    }
}

pub fn of(a: &Answer, buffers: &[u16]) -> u64 {
    digest(a.number, &[&a.values[..], buffers].concat())
}

pub fn wide(bytes: &[u8]) -> Vec<u16> {
    bytes.iter().map(|&b| b as u16).collect()
}

pub fn halves(numbers: &[i32]) -> Vec<u16> {
    numbers.iter().flat_map(|&x| [x as u16, (x >> 16) as u16]).collect()
}

/// One of the targets: a ratio and what it may be at most.
pub struct Target {
    pub words: String,
    pub ratio: Option<f64>,
    pub most: f64,
}

impl Target {
    /// Says whether the target is reached, and gives it. One that cannot be measured here is not missed.
    pub fn verdict(&self) -> bool {
        match self.ratio {
            None => println!("{}: not measured, the peer is not here", self.words),
            Some(r) if r <= self.most => println!("{}: reached, {r:.3}", self.words),
            Some(r) => println!("{}: not reached: {r:.3}, target {}", self.words, self.most),
        }
        self.ratio.is_none_or(|r| r <= self.most)
    }
}

pub fn target(words: &str, ratio: Option<f64>, most: f64) -> Target {
    Target { words: words.to_string(), ratio, most }
}

/// Contenders with their names; the first is ours.
pub struct Race<'a> {
    names: Vec<&'a str>,
    runs: Vec<Runner<'a>>,
    times: Vec<f64>,
}

impl<'a> Race<'a> {
    pub fn new(ours: impl FnMut(usize, bool) -> u64 + 'a) -> Self {
        Race { names: vec!["ours"], runs: vec![runner(ours)], times: vec![] }
    }
    pub fn with(&mut self, name: &'a str, call: impl FnMut(usize, bool) -> u64 + 'a) {
        self.names.push(name);
        self.runs.push(runner(call));
    }
    /// Runs it and prints a line: every time, and ours as a ratio to each peer's.
    pub fn run(&mut self, what: &str) {
        self.times = medians(&mut self.runs, 4 * ROUNDS);
        let mut text = format!("{what}: ours {:.0}", self.times[0]);
        for (name, x) in self.names[1..].iter().zip(&self.times[1..]) {
            text += &format!(", {name} {x:.0} (ratio {:.3})", self.times[0] / x);
        }
        println!("{text}");
    }
    /// Ours to a peer's.
    pub fn ratio(&self, name: &str) -> Option<f64> {
        self.between("ours", name)
    }
    /// One contender's to another's.
    pub fn between(&self, one: &str, other: &str) -> Option<f64> {
        let time = |name: &str| self.names.iter().position(|&x| x == name).map(|k| self.times[k]);
        Some(time(one)? / time(other)?)
    }
}
