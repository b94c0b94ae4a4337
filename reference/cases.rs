//! Cases: one call with all that it is lent, how it is stored for the program `cases`, and what the reference answers.
//!
//! A stored case is a head of 20 words (16 bits, low byte first): the call by its number in CALLS; nine numbers; the lengths of nine slices of words and of
//! one of bytes. Behind it stand those slices, in this order. The numbers are p, ℓ, e, n; then a holder; or a set's low and high half and a position; or the
//! fields of a record to be written, of an SH all five; or a share, its round and a zero share to be refreshed; or the length of the first of two slices of
//! bytes. The slices of words are in the order of the call's parameters, rounds right behind their shares; of signed numbers, which are corrections or
//! constants, each is two words, in two's complement, the low half first. The slice of bytes is the record or file read, the buffer written, or a board key;
//! of the call that takes two slices of bytes it is both, one behind the other.
//!
//! What is stored of it is one line, a space after each number: the number returned, the places in the order of the call's parameters, then every slice that
//! may be written, signed numbers with their sign. A place holds 7777 before the call. Of a holder's file the line has the number, the count and the byte,
//! then its text. Of two SH it has the number and the place, then what the two proved calls beside the exported one give: the number once more, and the bytes
//! of the part, if any.

use reference::*;
use std::fmt::Write;

/// The slice of bytes of a call: none, one that is read, or one that is written.
#[derive(Clone, Copy, PartialEq)]
pub enum Bytes {
    None,
    Read,
    Written,
}

pub struct Call {
    pub name: &'static str,
    /// The refusals that it has.
    pub refusals: &'static [u16],
    /// How many values it gives.
    pub places: usize,
    /// The slices of words that it reads as field elements.
    pub elements: &'static [usize],
    /// The slices of words that it may write.
    pub written: &'static [usize],
    pub bytes: Bytes,
}

type Of = &'static [usize];

const fn call(name: &'static str, refusals: &'static [u16], places: usize, elements: Of, written: Of, bytes: Bytes) -> Call {
    Call { name, refusals, places, elements, written, bytes }
}

pub const CALLS: [Call; 46] = [
    call("points", &[1, 2, 3, 15], 0, &[], &[0], Bytes::None),
    call("deal", &[1, 2, 3, 4, 5], 0, &[0, 1, 2], &[3, 4], Bytes::None),
    call("deal to all", &[1, 2, 3, 4], 0, &[0, 1, 2], &[3, 4], Bytes::None),
    call("pair value", &[1, 2, 3, 4, 5], 1, &[0, 1], &[], Bytes::None),
    call("judge", &[1, 2, 3, 4], 2, &[0, 1, 2], &[], Bytes::None),
    call("outcome", &[1, 2, 3, 4, 12], 2, &[0], &[2], Bytes::None),
    call("rehearse", &[1, 2, 3, 4], 3, &[0, 1, 2], &[], Bytes::None),
    call("combine", &[1, 3, 4, 19], 2, &[0, 1], &[], Bytes::None),
    call("judge a set", &[1, 2, 3, 4, 5], 2, &[0], &[1], Bytes::None),
    call("determines", &[1, 2, 3, 4, 5], 1, &[0], &[], Bytes::None),
    call("private", &[1, 2, 3, 4, 5], 1, &[0], &[], Bytes::None),
    call("open", &[1, 2, 3, 4, 5, 6, 7, 19], 1, &[0, 1], &[3], Bytes::None),
    call("holder's file, text", &[1, 2, 3, 4, 5, 8, 9, 10, 11, 12, 13, 17], 2, &[], &[], Bytes::Read),
    call("write SU", &[1, 2, 3, 4], 0, &[0], &[], Bytes::Written),
    call("write DL", &[1, 2, 3, 4, 5, 9], 0, &[0, 1], &[], Bytes::Written),
    call("write PV", &[1, 2, 3, 4, 5, 9], 0, &[], &[], Bytes::Written),
    call("write VD", &[1, 2, 3, 5, 9, 12], 0, &[], &[], Bytes::Written),
    call("write SH", &[1, 2, 3, 4, 5], 0, &[], &[], Bytes::Written),
    call("read SU, numbers", &[1, 2, 3, 4, 8], 4, &[], &[], Bytes::Read),
    call("read SU, matrix", &[1, 2, 3, 4, 8], 0, &[], &[0], Bytes::Read),
    call("read DL", &[1, 2, 3, 4, 5, 8, 9], 2, &[], &[0, 1], Bytes::Read),
    call("read PV", &[1, 2, 3, 4, 5, 8, 9], 4, &[], &[], Bytes::Read),
    call("read VD", &[1, 2, 3, 5, 8, 9, 12], 3, &[], &[], Bytes::Read),
    call("read SH", &[1, 2, 3, 4, 5, 8], 5, &[], &[], Bytes::Read),
    call("holder's file, contents", &[1, 2, 3, 4, 5, 8, 9, 10, 11, 12, 13, 17], 1, &[], &[0], Bytes::Read),
    call("field", &[1], 0, &[], &[], Bytes::None),
    call("deal a key", &[3, 4], 0, &[0], &[1, 2], Bytes::Read),
    call("open a key", &[3, 4, 5, 6, 7, 16, 19], 1, &[0], &[], Bytes::Written),
    call("deal with a map", &[1, 2, 3, 4, 5], 0, &[0, 1, 2, 3, 4], &[5, 6, 7, 8], Bytes::None),
    call("deal with a map to all", &[1, 2, 3, 4], 0, &[0, 1, 2, 3, 4], &[5, 6, 7, 8], Bytes::None),
    call("judge with a map", &[1, 2, 3, 4], 2, &[0, 1, 2, 3, 4, 5], &[], Bytes::None),
    call("write DF", &[1, 2, 3, 4, 5, 9], 0, &[0, 1, 2], &[], Bytes::Written),
    call("write PF", &[1, 2, 3, 4, 5, 9], 0, &[], &[], Bytes::Written),
    call("read DF", &[1, 2, 3, 4, 5, 8, 9], 2, &[], &[0, 1, 2], Bytes::Read),
    call("read PF", &[1, 2, 3, 4, 5, 8, 9], 4, &[], &[], Bytes::Read),
    call("deal zero", &[1, 2, 3, 4, 5], 0, &[0, 1], &[2, 3], Bytes::None),
    call("deal zero to all", &[1, 2, 3, 4], 0, &[0, 1], &[2, 3], Bytes::None),
    call("judge zero", &[1, 2, 3, 4], 2, &[0, 1, 2], &[], Bytes::None),
    call("refresh", &[1, 4, 18], 2, &[], &[], Bytes::None),
    call("write DZ", &[1, 2, 3, 4, 5, 9], 0, &[0, 1], &[], Bytes::Written),
    call("read DZ", &[1, 2, 3, 4, 5, 8, 9], 2, &[], &[0, 1], Bytes::Read),
    call("superseding SH", &[1, 2, 3, 4, 5, 8, 20, 21], 1, &[], &[], Bytes::Read),
    call("hold corrections", &[1, 3, 22], 0, &[], &[1], Bytes::None),
    call("read corrections", &[1, 3, 4], 0, &[0], &[1], Bytes::None),
    call("combine, signed", &[1, 3, 4, 19, 22], 2, &[1], &[], Bytes::None),
    call("open, signed", &[1, 2, 3, 4, 5, 6, 7, 19], 1, &[0, 1], &[3], Bytes::None),
];

pub const FILE: u16 = 12;
pub const READ_FILE: u16 = 24;
pub const FIELD: u16 = 25;
pub const DEAL_KEY: u16 = 26;
pub const OPEN_KEY: u16 = 27;
pub const DEAL_MAPPED: u16 = 28;
pub const DEAL_MAPPED_ALL: u16 = 29;
pub const JUDGE_MAPPED: u16 = 30;
pub const WRITE_DF: u16 = 31;
pub const WRITE_PF: u16 = 32;
pub const READ_DF: u16 = 33;
pub const READ_PF: u16 = 34;
pub const DEAL_ZERO: u16 = 35;
pub const DEAL_ZERO_ALL: u16 = 36;
pub const JUDGE_ZERO: u16 = 37;
pub const REFRESH: u16 = 38;
pub const WRITE_DZ: u16 = 39;
pub const READ_DZ: u16 = 40;
pub const SUPERSEDING: u16 = 41;
pub const HOLD: u16 = 42;
pub const READ_BACK: u16 = 43;
pub const COMBINE_SIGNED: u16 = 44;
pub const OPEN_SIGNED: u16 = 45;
/// The calls of a second dealing tied by a map.
pub const MAPPED: std::ops::RangeInclusive<u16> = DEAL_MAPPED..=READ_PF;
/// The calls of a zero dealing, the refresh among them.
pub const ZEROS: std::ops::RangeInclusive<u16> = DEAL_ZERO..=READ_DZ;
/// The calls on corrections and signed constants.
pub const SIGNED: std::ops::RangeInclusive<u16> = HOLD..=OPEN_SIGNED;

/// What every place holds before a call.
pub const UNTOUCHED: u16 = 7777;

/// A call by its number in CALLS, its numbers and its slices, as the head of this file has them. Of the numbers the calls on a board key take the set
/// alone.
#[derive(Clone, Debug)]
pub struct Case {
    pub call: u16,
    pub numbers: [u16; 9],
    pub words: Vec<Vec<u16>>,
    pub bytes: Vec<u8>,
}

/// What a call leaves: its number, its places and every slice.
#[derive(Debug, PartialEq, Eq)]
pub struct After {
    pub number: u16,
    pub places: Vec<u16>,
    pub words: Vec<Vec<u16>>,
    pub bytes: Vec<u8>,
}

/// Signed numbers as words, two for each.
pub fn signed_words(numbers: &[i32]) -> Vec<u16> {
    numbers.iter().flat_map(|&x| [x as u16, (x >> 16) as u16]).collect()
}

/// The signed numbers that some words are.
pub fn signed_numbers(words: &[u16]) -> Vec<i32> {
    words.chunks_exact(2).map(|half| (half[0] as u32 | (half[1] as u32) << 16) as i32).collect()
}

/// What `call` gives on the signed numbers that some words are, which it may write.
pub fn on_signed<T>(words: &mut Vec<u16>, call: impl FnOnce(&mut [i32]) -> T) -> T {
    let mut numbers = signed_numbers(words);
    let answer = call(&mut numbers);
    *words = signed_words(&numbers);
    answer
}

/// The places for the count and the byte after the call that prints a holder's file: the one is written where it answers, the other where it refuses
/// the file.
pub fn count_and_byte(answer: &Answer) -> (u16, u16) {
    let value = answer.values.first().copied().unwrap_or(UNTOUCHED);
    if answer.number == 0 { (value, UNTOUCHED) } else { (UNTOUCHED, value) }
}

impl Case {
    pub fn of(&self) -> &'static Call {
        &CALLS[self.call as usize]
    }
    pub fn params(&self) -> Params {
        let [p, l, e, n, ..] = self.numbers;
        Params { p, l, e, n }
    }
    pub fn set(&self) -> u32 {
        self.numbers[4] as u32 | (self.numbers[5] as u32) << 16
    }
    pub fn choose(&mut self, set: u32) {
        (self.numbers[4], self.numbers[5]) = (set as u16, (set >> 16) as u16);
    }
    /// The slice of words that has signed numbers, in the calls that take some.
    pub fn signed(&self) -> Option<usize> {
        match self.call {
            HOLD | COMBINE_SIGNED => Some(0),
            READ_BACK => Some(1),
            OPEN_SIGNED => Some(3),
            _ => None,
        }
    }
    /// The two slices of bytes of the call that takes two; the first is all there is where its length is more.
    pub fn two_slices(&self) -> (&[u8], &[u8]) {
        self.bytes.split_at(self.bytes.len().min(self.numbers[4] as usize))
    }

    /// The head, then the slices.
    pub fn stored(&self) -> Vec<u8> {
        let mut head = vec![self.call];
        head.extend(self.numbers);
        head.extend((0..9).map(|k| self.words.get(k).map_or(0, |x| x.len() as u16)));
        head.push(self.bytes.len() as u16);
        [bytes(&head), self.slices()].concat()
    }

    /// The slices, as they are stored behind the head.
    pub fn slices(&self) -> Vec<u8> {
        [bytes(&self.words.concat()), self.bytes.clone()].concat()
    }

    /// What the reference makes of it.
    pub fn run(&self) -> After {
        let Case { call, numbers: x, mut words, mut bytes } = self.clone();
        let (s, set) = (self.params(), self.set());
        let answer = match (call, &mut words[..]) {
            (0, [m]) => points(s, m),
            (1, [m, secrets, random, g, h]) => deal(s, m, secrets, random, x[4], g, h),
            (2, [m, secrets, random, gs, hs]) => deal_all(s, m, secrets, random, gs, hs),
            (3, [m, g]) => pair_value(s, m, g, x[4]),
            (4, [m, h, values]) => judge(s, m, h, values),
            (5, [g, verdicts, shares]) => outcome(s, g, verdicts, shares),
            (6, [m, gs, hs]) => rehearse(s, m, gs, hs),
            (7, [constants, shares, rounds]) => combine(s.p, constants, shares, rounds),
            (8, [m, out]) => judge_set(s, m, set, x[6], out),
            (9, [m]) => determines(s, m, set),
            (10, [m]) => private(s, m, set),
            (11, [m, shares, rounds, secrets]) => open(s, m, set, shares, rounds, secrets),
            (13, [m]) => write_setup(s, m, &mut bytes),
            (14, [g, h]) => write_dealing(s, x[4], x[5], g, h, &mut bytes),
            (15, []) => write_pair_value(s, x[4], x[5], x[6], x[7], &mut bytes),
            (16, []) => write_verdict(s, x[4], x[5], x[6], &mut bytes),
            (17, []) => write_share(s, [x[4], x[5], x[6], x[7], x[8]], &mut bytes),
            (18, []) => read_setup_head(&bytes),
            (19, [m]) => read_setup_matrix(&bytes, m),
            (20, [g, h]) => read_dealing(s, &bytes, g, h),
            (21, []) => read_pair_value(s, &bytes),
            (22, []) => read_verdict(s, &bytes),
            (23, []) => read_share(s, &bytes),
            (READ_FILE, [contents]) => read_file(&bytes, contents),
            (FIELD, []) => field(s.p),
            (DEAL_KEY, [random, gs, hs]) => deal_key(&bytes, random, gs, hs),
            (OPEN_KEY, [shares, rounds]) => open_key(set, shares, rounds, &mut bytes),
            (DEAL_MAPPED, [m, secrets, random, phi, random2, g, h, g2, h2]) => {
                deal_mapped(s, m, Mapped { secrets, random, phi, random2 }, x[4], [g, h, g2, h2])
            }
            (DEAL_MAPPED_ALL, [m, secrets, random, phi, random2, gs, hs, gs2, hs2]) => {
                deal_mapped_all(s, m, Mapped { secrets, random, phi, random2 }, [gs, hs, gs2, hs2])
            }
            (JUDGE_MAPPED, [m, h, values, phi, h2, values2]) => judge_mapped(s, m, h, values, Second { phi, h: h2, values: values2 }),
            (WRITE_DF, [g, h, phi]) => write_mapped_dealing(s, x[4], x[5], [g, h, phi], &mut bytes),
            (WRITE_PF, []) => write_mapped_pair_value(s, x[4], x[5], x[6], x[7], &mut bytes),
            (READ_DF, [g, h, phi]) => read_mapped_dealing(s, &bytes, [g, h, phi]),
            (READ_PF, []) => read_mapped_pair_value(s, &bytes),
            (DEAL_ZERO, [m, random, g, h]) => deal_zero(s, m, random, x[4], g, h),
            (DEAL_ZERO_ALL, [m, random, gs, hs]) => deal_zero_all(s, m, random, gs, hs),
            (JUDGE_ZERO, [m, h, values]) => judge_zero(s, m, h, values),
            (REFRESH, []) => refresh(s.p, x[4], x[5], x[6]),
            (WRITE_DZ, [g, h]) => write_zero_dealing(s, x[4], x[5], g, h, &mut bytes),
            (READ_DZ, [g, h]) => read_zero_dealing(s, &bytes, g, h),
            (SUPERSEDING, []) => {
                let (first, second) = self.two_slices();
                superseding(s, first, second)
            }
            (HOLD, [corrections, residues]) => hold_corrections(s.p, &signed_numbers(corrections), residues),
            (READ_BACK, [residues, corrections]) => on_signed(corrections, |x| read_corrections(s.p, residues, x)),
            (COMBINE_SIGNED, [constants, shares, rounds]) => combine_signed(s.p, &signed_numbers(constants), shares, rounds),
            (OPEN_SIGNED, [m, shares, rounds, corrections]) => on_signed(corrections, |x| open_signed(s, m, set, shares, rounds, x)),
            _ => panic!("no such call: {self:?}"),
        };
        let places = (0..self.of().places).map(|k| answer.values.get(k).copied().unwrap_or(UNTOUCHED)).collect();
        After { number: answer.number, places, words, bytes }
    }

    /// The line that is stored of it.
    ///
    /// Which sweeping vector the judgement of a set writes is left open, and only that. Its buffer is stored all the same: the proved library and the
    /// reference both take the solution with zeros at the free unknowns, where the pivots are leftmost, and there is only one.
    pub fn line(&self) -> String {
        if self.call == FILE {
            let mut out = [0; TEXT];
            let answer = holder_file(&self.bytes, &mut out);
            let (count, byte) = count_and_byte(&answer);
            let text = if answer.number == 0 { &out[..count as usize] } else { &[] };
            return format!("{} {count} {byte} {}\n", answer.number, String::from_utf8_lossy(text));
        }
        let after = self.run();
        let mut all = vec![after.number as i32];
        all.extend(after.places.iter().map(|&x| x as i32));
        if self.call == SUPERSEDING {
            let (first, second) = self.two_slices();
            let part = match after.places[0] {
                1 => &first[..12],
                2 => &second[..12],
                _ => &[],
            };
            all.push(after.number as i32);
            all.extend(part.iter().map(|&b| b as i32));
        }
        for &k in self.of().written {
            match self.signed() {
                Some(at) if at == k => all.extend(signed_numbers(&after.words[k])),
                _ => all.extend(after.words[k].iter().map(|&x| x as i32)),
            }
        }
        if self.of().bytes == Bytes::Written {
            all.extend(after.bytes.iter().map(|&b| b as i32));
        }
        let mut text = String::new();
        for x in all {
            write!(text, "{x} ").unwrap();
        }
        text + "\n"
    }
}
