//! Packed verifiable secret sharing: a safe interface to a proved library.
//!
//! A dealer gives a key of ℓ columns of ℓ field elements to n holders. A set of holders whose rows of the setup's matrix determine the secrets
//! brings them back, and holders who follow the rules cannot be left with shares that open two ways.
//!
//! On a points matrix ([`Setup::points`]) any ℓ + e holders and no fewer bring the secrets back, and any e and no more are private; that is proved for
//! every prime and every size. On another matrix the number of holders shows neither: [`Setup::determines`] says whether a set brings the secrets back,
//! and [`Setup::private`] whether it is private, that is, has a sweeping vector for every position. That a private set learns nothing is not proved yet.
//!
//! An opening is to be made by enough honest holders: where those among the openers determine the secrets by themselves, the others can only cause
//! a refusal. Where they do not, a false share can open to false secrets.
//!
//! Every call is one call of the library ([`read_file`] two, for the contents and the text), which is proved against definitions; this crate only
//! passes slices and turns numbers into types. The library tests all it is lent, lengths too, and refuses what is wrong; after a refusal every lent
//! slice holds what it held before.
//!
//! Two keys may be tied by a public map, an ℓ by ℓ matrix φ: [`Setup::deal_mapped_all`] deals both, and [`Setup::judge_mapped`] also checks the map. Where
//! holders who follow the rules have kept both, a column that opens in both opens to a secret and to φ times it, though the dealer lied.
//!
//! A copied drawer becomes worthless when its shares are refreshed: a zero dealing ([`Setup::deal_zero_all`]), whose columns all open to zeros, is dealt and
//! judged, and every holder adds its shares to those of one dealing, column by column ([`refresh`]). The secrets stay, the shares are at the next round, and
//! shares of different rounds are refused together. Each dealing takes a zero dealing of its own. A new dealing's shares have the round that its holders agree
//! on, 0 if they start anew. Where a drawer has two SH records of one share, [`Setup::superseding`] gives the one that counts.
//!
//! Corrections, numbers from −32,760 to 32,760, are shared with p 65521: [`hold_corrections`] gives the elements that are dealt, [`combine_signed`] takes
//! constants below zero as well, and [`Setup::open_signed`] gives corrections back, of a combination the exact sum wherever that is within the range.
//!
//! A board key is sixteen bytes over one fixed setup, [`BOARD`]: [`deal_key`] and [`open_key`] take and give it as a [`Key`].
//!
//! Types that carry keys, shares or pair values have no `Debug` and are not `Copy`, so that they are not printed or copied in passing. Nothing is wiped:
//! what a call worked with stays on the stack, and what a caller lent is the caller's to clear.
//!
//! A setup is four numbers, [`Setup`], with its matrix beside them in a slice of n · d field elements by rows, where d = ℓ + e. Holders, columns
//! and positions count from 0. A set of holders is a number whose bit i stands for holder i.
//!
//! ```
//! use mavdrusek::{Judgement, Outcome, Refusal, Setup, Shares, Verdict};
//!
//! // Three holders, one secret, one random number: any two holders bring the secret back.
//! let setup = Setup { p: 7, l: 1, e: 1, n: 3 };
//! let mut matrix = [0; 6];
//! setup.points(&mut matrix)?;
//!
//! // The dealer's work. A real dealer draws the random entries evenly, from a secure source.
//! let (mut gs, mut hs) = ([0; 6], [0; 6]);
//! setup.deal_all(&matrix, &[3], &[1, 5, 2], &mut gs, &mut hs)?;
//!
//! // Holder 1 gets a value from everyone, judges, hears everyone's verdict and keeps its share.
//! let mut values = [0; 3];
//! for (value, g) in values.iter_mut().zip(gs.chunks(setup.d())) {
//!     *value = setup.pair_value(&matrix, g, 1)?;
//! }
//! assert_eq!(setup.judge(&matrix, &hs[2..4], &values)?, Judgement::Accept);
//! let mut share = [0];
//! assert_eq!(setup.outcome(&gs[2..4], &[Verdict::Accept; 3], &mut share)?, Outcome::Kept);
//!
//! // Holders 0 and 2 open; holder 0 alone cannot. Their shares are at round 0, as the holders agreed.
//! let mut secret = [0];
//! setup.open(&matrix, 0b101, &Shares { values: &[gs[0], gs[4]], rounds: &[0, 0] }, &mut secret)?;
//! assert_eq!(secret, [3]);
//! let alone = setup.open(&matrix, 0b001, &Shares { values: &[gs[0]], rounds: &[0] }, &mut secret);
//! assert_eq!(alone, Err(Refusal::Undetermined { position: 0 }));
//! # Ok::<(), Refusal>(())
//! ```

#![deny(missing_docs)]

mod raw;

use std::error::Error;
use std::fmt;

/// The primes that a field may have.
pub const PRIMES: [u16; 5] = [2, 7, 251, 257, 65521];
/// Entries of the slice that [`Setup::judge_set`] writes.
pub const SET_ENTRIES: usize = 32;
/// The most terms that [`combine`] and [`combine_signed`] take.
pub const MOST_TERMS: usize = 64;
/// The prime that corrections are held with.
pub const CORRECTION_PRIME: u16 = 65521;
/// The greatest correction, and the greatest signed constant; the least is as far below zero.
pub const MOST_CORRECTION: i32 = 32760;
/// Bytes of a PV record, and of a PF record.
pub const PAIR_VALUE_BYTES: usize = 10;
/// Bytes of a VD record.
pub const VERDICT_BYTES: usize = 8;
/// Bytes of an SH record.
pub const SHARE_BYTES: usize = 12;
/// The most bytes of a holder's file.
pub const MOST_FILE_BYTES: usize = 4096;
/// The setup of every board key. Its matrix is the points matrix.
pub const BOARD: Setup = Setup { p: 257, l: 4, e: 3, n: 16 };
/// Bytes of a board key.
pub const KEY_BYTES: usize = 16;

/// Why a call declined. Where more than one applies, a call gives the one with the lowest number, but 22 comes before all others, 18 and 19 come after 5 and
/// before 6, and 21 before 20; a reader judges the setup it is given, then the mark, then the length, then the rest. Number 14 is retired: no call gives it,
/// and it has no case here.
#[derive(Clone, Copy, Debug, PartialEq, Eq, Hash)]
pub enum Refusal {
    /// 1: p is none of the five primes, or, where corrections or signed constants are taken or given, not 65521.
    NoField,
    /// 2: ℓ, e or n is beyond its limits.
    Limits,
    /// 3: a slice has another length than the one needed, there are over 64 terms, or a record is cut short.
    Length,
    /// 4: a field element is p or more.
    Element,
    /// 5: a holder, column or position is out of range, a share of a combination has a column other than 0, a set has a bit at or above n, or a DF, PV or
    /// PF of a file is for another holder.
    Range,
    /// 6: the opening set does not determine the secrets.
    Undetermined {
        /// The lowest position with no reconstruction row.
        position: u16,
    },
    /// 7: the set determines the secrets, but no vector gives all the shares.
    Inconsistent,
    /// 8: another mark than the record's, or one that has no place there in a file.
    Mark,
    /// 9: dealing number 0 outside SH, or another one than the file's.
    DealingNumber,
    /// 10: in a file a second SU, DL, DF or DZ, or a second PV, PF or VD from one holder.
    Repeated,
    /// 11: a file ends with a record missing.
    Missing,
    /// 12: a verdict is neither 0 nor 1.
    NoVerdict,
    /// 13: in a file the holder's own VD is not what its own judgement gives.
    OwnVerdict,
    /// 15: a points matrix with d + n above p.
    TooFewPoints,
    /// 16: an opened position of a board key is 256 and so no byte.
    NoByte,
    /// 17: in a file a PV, PF or VD that is not the next one due: the PV come by rising sender, with a DF then the PF, then the VD by rising holder.
    Order,
    /// 18: a refresh of a share at round 65535, which is the last.
    LastRound,
    /// 19: shares combined or opened together whose rounds differ, in a board key those of one column.
    Rounds,
    /// 20: two SH of one share with equal rounds and unequal values.
    UnequalValues,
    /// 21: two SH of different dealings, holders or columns, or of combinations.
    OtherShare,
    /// 22: a correction or a signed constant below −32,760 or above 32,760.
    Correction,
}

impl Refusal {
    /// The refusal's number.
    pub fn number(self) -> u16 {
        match self {
            Refusal::NoField => 1,
            Refusal::Limits => 2,
            Refusal::Length => 3,
            Refusal::Element => 4,
            Refusal::Range => 5,
            Refusal::Undetermined { .. } => 6,
            Refusal::Inconsistent => 7,
            Refusal::Mark => 8,
            Refusal::DealingNumber => 9,
            Refusal::Repeated => 10,
            Refusal::Missing => 11,
            Refusal::NoVerdict => 12,
            Refusal::OwnVerdict => 13,
            Refusal::TooFewPoints => 15,
            Refusal::NoByte => 16,
            Refusal::Order => 17,
            Refusal::LastRound => 18,
            Refusal::Rounds => 19,
            Refusal::UnequalValues => 20,
            Refusal::OtherShare => 21,
            Refusal::Correction => 22,
        }
    }
}

impl fmt::Display for Refusal {
    fn fmt(&self, f: &mut fmt::Formatter) -> fmt::Result {
        let why = match self {
            Refusal::NoField => "p is none of the five primes, or not 65521 with corrections",
            Refusal::Limits => "l, e or n is beyond its limits",
            Refusal::Length => "a length is not the one needed",
            Refusal::Element => "a field element is p or more",
            Refusal::Range => "a holder, column, position or set is out of range",
            Refusal::Undetermined { position } => return write!(f, "refused 6: the set does not determine position {position}"),
            Refusal::Inconsistent => "no vector gives all the shares",
            Refusal::Mark => "another mark than the record's",
            Refusal::DealingNumber => "dealing number 0, or not the file's",
            Refusal::Repeated => "a record comes again",
            Refusal::Missing => "the file ends with a record missing",
            Refusal::NoVerdict => "a verdict is neither 0 nor 1",
            Refusal::OwnVerdict => "the own verdict is not what the own judgement gives",
            Refusal::TooFewPoints => "the field has fewer than d + n elements",
            Refusal::NoByte => "an opened position is 256 and so no byte",
            Refusal::Order => "a record is not the next one due",
            Refusal::LastRound => "round 65535 is the last",
            Refusal::Rounds => "the rounds of the shares differ",
            Refusal::UnequalValues => "two records of one share at one round have unequal values",
            Refusal::OtherShare => "the records are of different shares, or of combinations",
            Refusal::Correction => "a correction or constant is beyond the range",
        };
        write!(f, "refused {}: {why}", self.number())
    }
}

impl Error for Refusal {}

/// What the library returned, as a Result. `position` is the place that refusal 6 writes.
fn answer(number: u16, position: u16) -> Result<(), Refusal> {
    Err(match number {
        0 => return Ok(()),
        1 => Refusal::NoField,
        2 => Refusal::Limits,
        3 => Refusal::Length,
        4 => Refusal::Element,
        5 => Refusal::Range,
        6 => Refusal::Undetermined { position },
        7 => Refusal::Inconsistent,
        8 => Refusal::Mark,
        9 => Refusal::DealingNumber,
        10 => Refusal::Repeated,
        11 => Refusal::Missing,
        12 => Refusal::NoVerdict,
        13 => Refusal::OwnVerdict,
        15 => Refusal::TooFewPoints,
        16 => Refusal::NoByte,
        17 => Refusal::Order,
        18 => Refusal::LastRound,
        19 => Refusal::Rounds,
        20 => Refusal::UnequalValues,
        21 => Refusal::OtherShare,
        22 => Refusal::Correction,
        other => unreachable!("the linked library gave {other}, which no call gives"),
    })
}

/// What a holder says of a dealing, as a VD record holds it.
#[derive(Clone, Copy, Debug, PartialEq, Eq, Hash)]
#[repr(u16)]
pub enum Verdict {
    /// A value received differs, or the check of a map fails.
    Reject = 0,
    /// Every value received is the due one, and the check of a map holds.
    Accept = 1,
}

/// What a holder finds when it judges the values it received.
#[derive(Clone, Copy, Debug, PartialEq, Eq, Hash)]
pub enum Judgement {
    /// Every value is the due one; of two dealings tied by a map, the check of the map holds too.
    Accept,
    /// A value differs, in either dealing where there are two; the lowest holder whose value does.
    Reject(u16),
    /// Every value of two dealings is the due one, and only the check of the map fails. [`Setup::judge`] never gives it.
    RejectMap,
}

impl Judgement {
    /// What the holder says to everyone.
    pub fn verdict(self) -> Verdict {
        match self {
            Judgement::Accept => Verdict::Accept,
            Judgement::Reject(_) | Judgement::RejectMap => Verdict::Reject,
        }
    }

    /// From a verdict and what stands beside it.
    fn new(verdict: u16, named: u16) -> Judgement {
        match (verdict, named) {
            (1, _) => Judgement::Accept,
            (_, u16::MAX) => Judgement::RejectMap,
            (_, holder) => Judgement::Reject(holder),
        }
    }
}

/// How a dealing ends for a holder.
#[derive(Clone, Copy, Debug, PartialEq, Eq, Hash)]
pub enum Outcome {
    /// Everyone accepts; the shares are kept.
    Kept,
    /// Someone rejects; the lowest holder that does.
    Aborted(u16),
}

/// What the dealer finds when it tries all parts before it sends them.
#[derive(Clone, Copy, Debug, PartialEq, Eq, Hash)]
pub enum Rehearsal {
    /// Every holder will accept.
    Fair,
    /// The first pair that disagrees, by checker and then by sender.
    Disagree {
        /// The holder that checks.
        checker: u16,
        /// The holder whose value it checks.
        sender: u16,
    },
}

/// What a set has at a position.
#[derive(Clone, Copy, Debug, PartialEq, Eq, Hash)]
pub enum SetKind {
    /// The reconstruction row: the set determines the position.
    Row,
    /// A sweeping vector: the set's shares fit every value at the position.
    Vector,
    /// Neither: the position is not determined, but not free of what the set holds either.
    Neither,
}

/// The judgement of a set at a position; the row or the vector stands beside it in a slice.
#[derive(Clone, Copy, Debug, PartialEq, Eq, Hash)]
pub struct SetJudgement {
    /// What the set has.
    pub kind: SetKind,
    /// The row steps of the elimination that seeks the row, whatever the kind: with k members at most the smaller of k and d, times d − 1, and on a points
    /// matrix just as many.
    pub steps: u16,
}

/// What a dealer lends for two dealings tied by a map. It carries secrets, so it has no `Debug` and is not `Copy`.
pub struct MappedSecrets<'a> {
    /// ℓ · ℓ elements, position k of secret vector b at b · ℓ + k.
    pub secrets: &'a [u16],
    /// d · d − ℓ · ℓ elements, which the caller draws evenly from a secure source.
    pub random: &'a [u16],
    /// φ, the public map, ℓ · ℓ elements by rows: position k of the map of a vector is row k of φ times it.
    pub phi: &'a [u16],
    /// e · d elements for the second dealing, drawn as `random` and not used elsewhere.
    pub random2: &'a [u16],
}

/// Where the parts of two dealings tied by a map are written. They carry shares, so it has no `Debug`.
pub struct MappedParts<'a> {
    /// g of the first dealing.
    pub g: &'a mut [u16],
    /// h of the first.
    pub h: &'a mut [u16],
    /// g of the second.
    pub g2: &'a mut [u16],
    /// h of the second.
    pub h2: &'a mut [u16],
}

/// A share of a column or of a combination, with its round. It has no `Debug`.
#[derive(Clone, PartialEq, Eq)]
pub struct Share {
    /// The share.
    pub value: u16,
    /// Its round, 0 to 65535.
    pub round: u16,
}

/// Shares that are lent together, each with its round. It has no `Debug` and is not `Copy`.
pub struct Shares<'a> {
    /// The shares.
    pub values: &'a [u16],
    /// Their rounds, as many and in the same order.
    pub rounds: &'a [u16],
}

/// The numbers of a DL, DF or DZ record; g and h, and for DF φ, stand beside it in slices.
#[derive(Clone, Copy, Debug, PartialEq, Eq, Hash)]
pub struct DealingRecord {
    /// Dealing number, from 1.
    pub dealing: u16,
    /// Whose part it is.
    pub holder: u16,
}

/// A PV or PF record. Its value tells of the sender's share, so it has no `Debug`.
#[derive(Clone, PartialEq, Eq)]
pub struct PairValueRecord {
    /// Dealing number, from 1.
    pub dealing: u16,
    /// The holder that sends the value.
    pub sender: u16,
    /// The holder that receives it.
    pub receiver: u16,
    /// The value.
    pub value: u16,
}

/// A VD record.
#[derive(Clone, Copy, Debug, PartialEq, Eq, Hash)]
pub struct VerdictRecord {
    /// Dealing number, from 1.
    pub dealing: u16,
    /// The holder that says it.
    pub holder: u16,
    /// What it says.
    pub verdict: Verdict,
}

/// An SH record. It carries a share, so it has no `Debug`.
#[derive(Clone, PartialEq, Eq)]
pub struct ShareRecord {
    /// Dealing number; 0 marks a combination.
    pub dealing: u16,
    /// Whose share it is.
    pub holder: u16,
    /// The column; 0 for a combination.
    pub column: u16,
    /// The share.
    pub value: u16,
    /// Its round, 0 to 65535.
    pub round: u16,
}

/// The four numbers of a setup. Any numbers may stand here; a call refuses those beyond the limits.
#[derive(Clone, Copy, Debug, PartialEq, Eq, Hash)]
pub struct Setup {
    /// The prime, one of [`PRIMES`].
    pub p: u16,
    /// ℓ, the secret length, 1 to 8.
    pub l: u16,
    /// The randomness length, 1 to 8.
    pub e: u16,
    /// The holders, 1 to 32.
    pub n: u16,
}

/// Lengths of slices.
impl Setup {
    /// d = ℓ + e, the length of a row of the matrix, of g and of h; the h of a zero dealing has e entries.
    pub fn d(&self) -> usize {
        self.l as usize + self.e as usize
    }

    /// n · d, the length of the matrix and of all row or column parts together.
    pub fn entries(&self) -> usize {
        self.n as usize * self.d()
    }

    /// ℓ · ℓ, the secrets of a dealing.
    pub fn secrets(&self) -> usize {
        self.l as usize * self.l as usize
    }

    /// d · d − ℓ · ℓ, the random entries of a dealing.
    pub fn random(&self) -> usize {
        self.d() * self.d() - self.secrets()
    }

    /// e · d, the random entries of the second of two dealings tied by a map.
    pub fn random2(&self) -> usize {
        self.e as usize * self.d()
    }

    /// e · d, the random entries of a zero dealing.
    pub fn zero_random(&self) -> usize {
        self.e as usize * self.d()
    }

    /// n · e, the length of all column parts of a zero dealing together.
    pub fn zero_columns(&self) -> usize {
        self.n as usize * self.e as usize
    }

    /// Bytes of an SU record.
    pub fn setup_bytes(&self) -> usize {
        10 + 2 * self.entries()
    }

    /// Bytes of a DL record.
    pub fn dealing_bytes(&self) -> usize {
        6 + 4 * self.d()
    }

    /// Bytes of a DF record.
    pub fn mapped_dealing_bytes(&self) -> usize {
        self.dealing_bytes() + 2 * self.secrets()
    }

    /// Bytes of a DZ record.
    pub fn zero_dealing_bytes(&self) -> usize {
        6 + 2 * self.d() + 2 * self.e as usize
    }
}

// In each unsafe block below: a pointer and its length come from one slice, or the pointer from a local; Rust's borrows exclude that what a call
// writes overlaps anything else; an empty slice has a non-null, aligned pointer. The library looks at nothing else and keeps no pointer.

/// Dealing.
impl Setup {
    /// Writes the points matrix, n · d entries: from the values of a polynomial of degree below d at 0, .., d − 1, row i gives its value at d + i.
    /// Any d holders and no fewer then determine the secrets, and any e and no more are private. Refusals 1, 2, 3, 15.
    pub fn points(&self, matrix: &mut [u16]) -> Result<(), Refusal> {
        let Setup { p, l, e, n } = *self;
        answer(unsafe { raw::mavdrusek_points(p, l, e, n, matrix.as_mut_ptr(), matrix.len()) }, 0)
    }

    /// Writes one holder's part of a dealing, g and h with d entries each. `secrets` has ℓ · ℓ elements, position k of secret vector b at
    /// b · ℓ + k; `random` has d · d − ℓ · ℓ elements, which the caller draws evenly from a secure source. Refusals 1 to 5.
    pub fn deal(&self, matrix: &[u16], secrets: &[u16], random: &[u16], holder: u16, g: &mut [u16], h: &mut [u16]) -> Result<(), Refusal> {
        let Setup { p, l, e, n } = *self;
        let number = unsafe {
            raw::mavdrusek_deal(
                p,
                l,
                e,
                n,
                matrix.as_ptr(),
                matrix.len(),
                secrets.as_ptr(),
                secrets.len(),
                random.as_ptr(),
                random.len(),
                holder,
                g.as_mut_ptr(),
                g.len(),
                h.as_mut_ptr(),
                h.len(),
            )
        };
        answer(number, 0)
    }

    /// Writes every holder's part: holder i's g and h at i · d of `gs` and `hs`, n · d entries each. Refusals 1 to 4.
    pub fn deal_all(&self, matrix: &[u16], secrets: &[u16], random: &[u16], gs: &mut [u16], hs: &mut [u16]) -> Result<(), Refusal> {
        let Setup { p, l, e, n } = *self;
        let number = unsafe {
            raw::mavdrusek_deal_all(
                p,
                l,
                e,
                n,
                matrix.as_ptr(),
                matrix.len(),
                secrets.as_ptr(),
                secrets.len(),
                random.as_ptr(),
                random.len(),
                gs.as_mut_ptr(),
                gs.len(),
                hs.as_mut_ptr(),
                hs.len(),
            )
        };
        answer(number, 0)
    }

    /// Writes one holder's part of two dealings tied by a map, d entries each: g and h as [`Setup::deal`] writes them, and g and h of the second, of which
    /// every column opens to φ times that column of the first. Refusals 1 to 5.
    pub fn deal_mapped(&self, matrix: &[u16], dealt: &MappedSecrets, holder: u16, parts: MappedParts) -> Result<(), Refusal> {
        let Setup { p, l, e, n } = *self;
        let MappedSecrets { secrets, random, phi, random2 } = *dealt;
        let MappedParts { g, h, g2, h2 } = parts;
        let number = unsafe {
            raw::mavdrusek_deal_mapped(
                p,
                l,
                e,
                n,
                matrix.as_ptr(),
                matrix.len(),
                secrets.as_ptr(),
                secrets.len(),
                random.as_ptr(),
                random.len(),
                phi.as_ptr(),
                phi.len(),
                random2.as_ptr(),
                random2.len(),
                holder,
                g.as_mut_ptr(),
                g.len(),
                h.as_mut_ptr(),
                h.len(),
                g2.as_mut_ptr(),
                g2.len(),
                h2.as_mut_ptr(),
                h2.len(),
            )
        };
        answer(number, 0)
    }

    /// Writes every holder's part of both: holder i's at i · d of each slice, n · d entries each. Refusals 1 to 4.
    ///
    /// ```
    /// use mavdrusek::{Judgement, MappedParts, MappedSecrets, Refusal, Setup, Shares};
    ///
    /// // The second secret is twice the first. A real dealer draws both lists of random entries evenly, from a secure source.
    /// let setup = Setup { p: 7, l: 1, e: 1, n: 3 };
    /// let mut matrix = [0; 6];
    /// setup.points(&mut matrix)?;
    /// let dealt = MappedSecrets { secrets: &[3], random: &[1, 5, 2], phi: &[2], random2: &[4, 1] };
    /// let (mut gs, mut hs, mut gs2, mut hs2) = ([0; 6], [0; 6], [0; 6], [0; 6]);
    /// setup.deal_mapped_all(&matrix, &dealt, MappedParts { g: &mut gs, h: &mut hs, g2: &mut gs2, h2: &mut hs2 })?;
    ///
    /// // Holder 1 judges the values of both, and the map.
    /// let received = |gs: &[u16]| gs.chunks(setup.d()).map(|g| setup.pair_value(&matrix, g, 1)).collect::<Result<Vec<_>, _>>();
    /// let (values, values2) = (received(&gs)?, received(&gs2)?);
    /// assert_eq!(setup.judge_mapped(&matrix, &hs[2..4], &values, &[2], &hs2[2..4], &values2)?, Judgement::Accept);
    /// assert_eq!(setup.judge_mapped(&matrix, &hs[2..4], &values, &[5], &hs2[2..4], &values2)?, Judgement::RejectMap);
    ///
    /// // Holders 0 and 2 open both.
    /// let (mut secret, mut image) = ([0], [0]);
    /// setup.open(&matrix, 0b101, &Shares { values: &[gs[0], gs[4]], rounds: &[0, 0] }, &mut secret)?;
    /// setup.open(&matrix, 0b101, &Shares { values: &[gs2[0], gs2[4]], rounds: &[0, 0] }, &mut image)?;
    /// assert_eq!((secret, image), ([3], [6]));
    /// # Ok::<(), Refusal>(())
    /// ```
    pub fn deal_mapped_all(&self, matrix: &[u16], dealt: &MappedSecrets, parts: MappedParts) -> Result<(), Refusal> {
        let Setup { p, l, e, n } = *self;
        let MappedSecrets { secrets, random, phi, random2 } = *dealt;
        let MappedParts { g, h, g2, h2 } = parts;
        let number = unsafe {
            raw::mavdrusek_deal_mapped_all(
                p,
                l,
                e,
                n,
                matrix.as_ptr(),
                matrix.len(),
                secrets.as_ptr(),
                secrets.len(),
                random.as_ptr(),
                random.len(),
                phi.as_ptr(),
                phi.len(),
                random2.as_ptr(),
                random2.len(),
                g.as_mut_ptr(),
                g.len(),
                h.as_mut_ptr(),
                h.len(),
                g2.as_mut_ptr(),
                g2.len(),
                h2.as_mut_ptr(),
                h2.len(),
            )
        };
        answer(number, 0)
    }
}

/// Zero dealings.
impl Setup {
    /// Writes one holder's part of a zero dealing, g with d entries and h with e. `random` has e · d elements, which the caller draws evenly from a secure
    /// source and does not use elsewhere. Pair values and the outcome are those of [`Setup::pair_value`] and [`Setup::outcome`] on g; the judgement is
    /// [`Setup::judge_zero`]. Refusals 1 to 5.
    pub fn deal_zero(&self, matrix: &[u16], random: &[u16], holder: u16, g: &mut [u16], h: &mut [u16]) -> Result<(), Refusal> {
        let Setup { p, l, e, n } = *self;
        let number = unsafe {
            raw::mavdrusek_deal_zero(
                p,
                l,
                e,
                n,
                matrix.as_ptr(),
                matrix.len(),
                random.as_ptr(),
                random.len(),
                holder,
                g.as_mut_ptr(),
                g.len(),
                h.as_mut_ptr(),
                h.len(),
            )
        };
        answer(number, 0)
    }

    /// Writes every holder's part: holder i's g at i · d of `gs`, n · d entries, and its h at i · e of `hs`, n · e entries. Refusals 1 to 4.
    ///
    /// ```
    /// use mavdrusek::{refresh, Judgement, Refusal, Setup, Share, Shares};
    ///
    /// // Three holders of a secret, 3, have the shares 0, 2 and 4 at round 0.
    /// let (setup, matrix) = (Setup { p: 7, l: 1, e: 1, n: 3 }, [6, 2, 5, 3, 4, 4]);
    ///
    /// // A zero dealing. A real dealer draws the random entries evenly, from a secure source.
    /// let (mut gs, mut hs) = ([0; 6], [0; 3]);
    /// setup.deal_zero_all(&matrix, &[6, 1], &mut gs, &mut hs)?;
    /// let values = gs.chunks(setup.d()).map(|g| setup.pair_value(&matrix, g, 1)).collect::<Result<Vec<_>, _>>()?;
    /// assert_eq!(setup.judge_zero(&matrix, &hs[1..2], &values)?, Judgement::Accept);
    ///
    /// // Everyone accepts, and everyone adds its share of column 0.
    /// let mut fresh = [0; 3];
    /// for i in 0..3 {
    ///     let share = refresh(setup.p, &Share { value: [0, 2, 4][i], round: 0 }, gs[2 * i])?;
    ///     assert_eq!(share.round, 1);
    ///     fresh[i] = share.value;
    /// }
    /// assert_eq!(fresh, [5, 6, 0]);
    ///
    /// // They open to the secret as before; an old one among them is refused.
    /// let mut secret = [0];
    /// setup.open(&matrix, 0b111, &Shares { values: &fresh, rounds: &[1, 1, 1] }, &mut secret)?;
    /// assert_eq!(secret, [3]);
    /// let mixed = setup.open(&matrix, 0b111, &Shares { values: &[0, 6, 0], rounds: &[0, 1, 1] }, &mut secret);
    /// assert_eq!(mixed, Err(Refusal::Rounds));
    /// # Ok::<(), Refusal>(())
    /// ```
    pub fn deal_zero_all(&self, matrix: &[u16], random: &[u16], gs: &mut [u16], hs: &mut [u16]) -> Result<(), Refusal> {
        let Setup { p, l, e, n } = *self;
        let number = unsafe {
            raw::mavdrusek_deal_zero_all(
                p,
                l,
                e,
                n,
                matrix.as_ptr(),
                matrix.len(),
                random.as_ptr(),
                random.len(),
                gs.as_mut_ptr(),
                gs.len(),
                hs.as_mut_ptr(),
                hs.len(),
            )
        };
        answer(number, 0)
    }

    /// The judgement of a zero dealing by the holder with column part `h`, e entries, on the n values that it received, by sender: each must be h times the
    /// last e entries of the sender's row. Refusals 1 to 4.
    pub fn judge_zero(&self, matrix: &[u16], h: &[u16], values: &[u16]) -> Result<Judgement, Refusal> {
        let Setup { p, l, e, n } = *self;
        let (mut verdict, mut named) = (0, 0);
        let number = unsafe {
            raw::mavdrusek_judge_zero(
                p,
                l,
                e,
                n,
                matrix.as_ptr(),
                matrix.len(),
                h.as_ptr(),
                h.len(),
                values.as_ptr(),
                values.len(),
                &mut verdict,
                &mut named,
            )
        };
        answer(number, 0)?;
        Ok(Judgement::new(verdict, named))
    }
}

/// Judging.
impl Setup {
    /// The value that the holder with row part `g` sends to holder `to`. Every holder sends one to every holder, itself included. Refusals 1 to 5.
    pub fn pair_value(&self, matrix: &[u16], g: &[u16], to: u16) -> Result<u16, Refusal> {
        let Setup { p, l, e, n } = *self;
        let mut value = 0;
        let number = unsafe { raw::mavdrusek_pair_value(p, l, e, n, matrix.as_ptr(), matrix.len(), g.as_ptr(), g.len(), to, &mut value) };
        answer(number, 0)?;
        Ok(value)
    }

    /// The judgement of the holder with column part `h` on the n values that it received, by sender. Refusals 1 to 4.
    pub fn judge(&self, matrix: &[u16], h: &[u16], values: &[u16]) -> Result<Judgement, Refusal> {
        let Setup { p, l, e, n } = *self;
        let (mut verdict, mut named) = (0, 0);
        let number = unsafe {
            raw::mavdrusek_judge(
                p,
                l,
                e,
                n,
                matrix.as_ptr(),
                matrix.len(),
                h.as_ptr(),
                h.len(),
                values.as_ptr(),
                values.len(),
                &mut verdict,
                &mut named,
            )
        };
        answer(number, 0)?;
        Ok(Judgement::new(verdict, named))
    }

    /// The judgement of two dealings tied by the map `phi`, by the holder with column parts `h` and `h2`, on the n values that it received in each, by
    /// sender: a rejection names the lowest sender whose value differs in either. Where all values are due, the first ℓ entries of `h2` must be the map of
    /// those of `h`. Pair values and outcome of the second dealing are those of [`Setup::pair_value`] and [`Setup::outcome`] on its g. Refusals 1 to 4.
    pub fn judge_mapped(
        &self,
        matrix: &[u16],
        h: &[u16],
        values: &[u16],
        phi: &[u16],
        h2: &[u16],
        values2: &[u16],
    ) -> Result<Judgement, Refusal> {
        let Setup { p, l, e, n } = *self;
        let (mut verdict, mut named) = (0, 0);
        let number = unsafe {
            raw::mavdrusek_judge_mapped(
                p,
                l,
                e,
                n,
                matrix.as_ptr(),
                matrix.len(),
                h.as_ptr(),
                h.len(),
                values.as_ptr(),
                values.len(),
                phi.as_ptr(),
                phi.len(),
                h2.as_ptr(),
                h2.len(),
                values2.as_ptr(),
                values2.len(),
                &mut verdict,
                &mut named,
            )
        };
        answer(number, 0)?;
        Ok(Judgement::new(verdict, named))
    }

    /// The outcome for the holder with row part `g` on the n verdicts that it received, by holder. If it is kept, the ℓ shares are written, one for
    /// each column; if it is aborted, `shares` stays as it was. Refusals 1 to 4.
    pub fn outcome(&self, g: &[u16], verdicts: &[Verdict], shares: &mut [u16]) -> Result<Outcome, Refusal> {
        let Setup { p, l, e, n } = *self;
        let (mut kept, mut named) = (0, 0);
        // A Verdict is laid out as a u16, with the numbers that the library takes.
        let number = unsafe {
            raw::mavdrusek_outcome(
                p,
                l,
                e,
                n,
                g.as_ptr(),
                g.len(),
                verdicts.as_ptr().cast::<u16>(),
                verdicts.len(),
                shares.as_mut_ptr(),
                shares.len(),
                &mut kept,
                &mut named,
            )
        };
        answer(number, 0)?;
        Ok(if kept == 1 { Outcome::Kept } else { Outcome::Aborted(named) })
    }

    /// The dealer's rehearsal on all parts, laid out as [`Setup::deal_all`] writes them. Refusals 1 to 4.
    pub fn rehearse(&self, matrix: &[u16], gs: &[u16], hs: &[u16]) -> Result<Rehearsal, Refusal> {
        let Setup { p, l, e, n } = *self;
        let (mut fair, mut checker, mut sender) = (0, 0, 0);
        let number = unsafe {
            raw::mavdrusek_rehearse(
                p,
                l,
                e,
                n,
                matrix.as_ptr(),
                matrix.len(),
                gs.as_ptr(),
                gs.len(),
                hs.as_ptr(),
                hs.len(),
                &mut fair,
                &mut checker,
                &mut sender,
            )
        };
        answer(number, 0)?;
        Ok(if fair == 1 { Rehearsal::Fair } else { Rehearsal::Disagree { checker, sender } })
    }
}

/// Sets and openings.
impl Setup {
    /// Whether the set determines the secrets. Refusals 1 to 5.
    pub fn determines(&self, matrix: &[u16], set: u32) -> Result<bool, Refusal> {
        let Setup { p, l, e, n } = *self;
        let mut yes = 0;
        answer(unsafe { raw::mavdrusek_determines(p, l, e, n, matrix.as_ptr(), matrix.len(), set, &mut yes) }, 0)?;
        Ok(yes == 1)
    }

    /// Whether the set is called private, that is, every position below ℓ has a sweeping vector, as [`Setup::judge_set`] finds one. On the points matrix
    /// these are the sets with e members or fewer. On another matrix the members' rows decide: a holder with the row (1, 0, .., 0) reads position 0, so
    /// that no set with it is private. A private set never determines the secrets; with ℓ 1 every other set does. Refusals 1 to 5.
    pub fn private(&self, matrix: &[u16], set: u32) -> Result<bool, Refusal> {
        let Setup { p, l, e, n } = *self;
        let mut yes = 0;
        answer(unsafe { raw::mavdrusek_private(p, l, e, n, matrix.as_ptr(), matrix.len(), set, &mut yes) }, 0)?;
        Ok(yes == 1)
    }

    /// The judgement of a set at a position below ℓ. `out`, [`SET_ENTRIES`] entries, receives the reconstruction row by rising holder or a sweeping
    /// vector of d entries, then zeros; for neither, zeros. Refusals 1 to 5.
    ///
    /// The row is the one with 0 at each member whose matrix row is a combination of those of lower members; there is only one. Which sweeping vector is
    /// written is left open, and only that.
    ///
    /// The row comes by Gauss-Jordan elimination on the members' rows written as columns, by rising holder. The pivot is the topmost unused row with an
    /// entry other than 0; each subtraction of a multiple of it from another row with an entry other than 0 there is one of the
    /// [steps](SetJudgement::steps), and scaling it is none.
    ///
    /// ```
    /// use mavdrusek::{Refusal, SetJudgement, SetKind, Setup, SET_ENTRIES};
    ///
    /// // Holder 2's row is a combination of the other two, so that it has 0.
    /// let (setup, matrix) = (Setup { p: 7, l: 1, e: 1, n: 3 }, [6, 2, 5, 3, 4, 4]);
    /// let mut row = [0; SET_ENTRIES];
    /// let judgement = setup.judge_set(&matrix, 0b111, 0, &mut row)?;
    /// assert_eq!(judgement, SetJudgement { kind: SetKind::Row, steps: 2 });
    /// assert_eq!(row[..3], [3, 5, 0]);
    /// # Ok::<(), Refusal>(())
    /// ```
    pub fn judge_set(&self, matrix: &[u16], set: u32, position: u16, out: &mut [u16]) -> Result<SetJudgement, Refusal> {
        let Setup { p, l, e, n } = *self;
        let (mut kind, mut steps) = (0, 0);
        let number = unsafe {
            raw::mavdrusek_judge_set(
                p,
                l,
                e,
                n,
                matrix.as_ptr(),
                matrix.len(),
                set,
                position,
                out.as_mut_ptr(),
                out.len(),
                &mut kind,
                &mut steps,
            )
        };
        answer(number, 0)?;
        let kind = match kind {
            1 => SetKind::Row,
            2 => SetKind::Vector,
            _ => SetKind::Neither,
        };
        Ok(SetJudgement { kind, steps })
    }

    /// Opens the set's shares of one column or combination, by rising holder, into ℓ secrets. As many shares, and rounds, are needed as there are ones among
    /// all 32 bits of the set, and the rounds must agree. Refusals 1 to 7, 19.
    ///
    /// Where the honest holders among the openers determine the secrets by themselves, the others can only cause a refusal; where they do not, a false
    /// share can open to false secrets.
    pub fn open(&self, matrix: &[u16], set: u32, shares: &Shares, secrets: &mut [u16]) -> Result<(), Refusal> {
        let Setup { p, l, e, n } = *self;
        let Shares { values, rounds } = *shares;
        let mut position = 0;
        let number = unsafe {
            raw::mavdrusek_open(
                p,
                l,
                e,
                n,
                matrix.as_ptr(),
                matrix.len(),
                set,
                values.as_ptr(),
                values.len(),
                rounds.as_ptr(),
                rounds.len(),
                secrets.as_mut_ptr(),
                secrets.len(),
                &mut position,
            )
        };
        answer(number, position)
    }

    /// The same over [`CORRECTION_PRIME`], with the ℓ secrets read back as corrections. Every other p is refused by 1. Refusals 1 to 7, 19.
    pub fn open_signed(&self, matrix: &[u16], set: u32, shares: &Shares, corrections: &mut [i32]) -> Result<(), Refusal> {
        let Setup { p, l, e, n } = *self;
        let Shares { values, rounds } = *shares;
        let mut position = 0;
        let number = unsafe {
            raw::mavdrusek_open_signed(
                p,
                l,
                e,
                n,
                matrix.as_ptr(),
                matrix.len(),
                set,
                values.as_ptr(),
                values.len(),
                rounds.as_ptr(),
                rounds.len(),
                corrections.as_mut_ptr(),
                corrections.len(),
                &mut position,
            )
        };
        answer(number, position)
    }
}

/// Writing records, each into a slice of just its length.
impl Setup {
    /// Writes an SU, [`Setup::setup_bytes`] bytes. Refusals 1 to 4.
    pub fn write_setup(&self, matrix: &[u16], out: &mut [u8]) -> Result<(), Refusal> {
        let Setup { p, l, e, n } = *self;
        answer(unsafe { raw::mavdrusek_write_setup(p, l, e, n, matrix.as_ptr(), matrix.len(), out.as_mut_ptr(), out.len()) }, 0)
    }

    /// Writes a DL, [`Setup::dealing_bytes`] bytes; g and h have d entries each. Refusals 1 to 5, 9.
    pub fn write_dealing(&self, record: &DealingRecord, g: &[u16], h: &[u16], out: &mut [u8]) -> Result<(), Refusal> {
        let Setup { p, l, e, n } = *self;
        let number = unsafe {
            raw::mavdrusek_write_dealing(
                p,
                l,
                e,
                n,
                record.dealing,
                record.holder,
                g.as_ptr(),
                g.len(),
                h.as_ptr(),
                h.len(),
                out.as_mut_ptr(),
                out.len(),
            )
        };
        answer(number, 0)
    }

    /// Writes a PV, [`PAIR_VALUE_BYTES`] bytes. Refusals 1 to 5, 9.
    pub fn write_pair_value(&self, record: &PairValueRecord, out: &mut [u8]) -> Result<(), Refusal> {
        let Setup { p, l, e, n } = *self;
        let PairValueRecord { dealing, sender, receiver, value } = *record;
        answer(unsafe { raw::mavdrusek_write_pair_value(p, l, e, n, dealing, sender, receiver, value, out.as_mut_ptr(), out.len()) }, 0)
    }

    /// Writes a DF, [`Setup::mapped_dealing_bytes`] bytes: a holder's part of the second of two dealings, with d entries of g and h each, and the map that
    /// ties it to the first, ℓ · ℓ. Refusals 1 to 5, 9.
    pub fn write_mapped_dealing(&self, record: &DealingRecord, g: &[u16], h: &[u16], phi: &[u16], out: &mut [u8]) -> Result<(), Refusal> {
        let Setup { p, l, e, n } = *self;
        let number = unsafe {
            raw::mavdrusek_write_mapped_dealing(
                p,
                l,
                e,
                n,
                record.dealing,
                record.holder,
                g.as_ptr(),
                g.len(),
                h.as_ptr(),
                h.len(),
                phi.as_ptr(),
                phi.len(),
                out.as_mut_ptr(),
                out.len(),
            )
        };
        answer(number, 0)
    }

    /// Writes a PF, [`PAIR_VALUE_BYTES`] bytes. Refusals 1 to 5, 9.
    pub fn write_mapped_pair_value(&self, record: &PairValueRecord, out: &mut [u8]) -> Result<(), Refusal> {
        let Setup { p, l, e, n } = *self;
        let PairValueRecord { dealing, sender, receiver, value } = *record;
        answer(
            unsafe { raw::mavdrusek_write_mapped_pair_value(p, l, e, n, dealing, sender, receiver, value, out.as_mut_ptr(), out.len()) },
            0,
        )
    }

    /// Writes a DZ, [`Setup::zero_dealing_bytes`] bytes: a holder's part of a zero dealing, with d entries of g and e of h. Refusals 1 to 5, 9.
    pub fn write_zero_dealing(&self, record: &DealingRecord, g: &[u16], h: &[u16], out: &mut [u8]) -> Result<(), Refusal> {
        let Setup { p, l, e, n } = *self;
        let number = unsafe {
            raw::mavdrusek_write_zero_dealing(
                p,
                l,
                e,
                n,
                record.dealing,
                record.holder,
                g.as_ptr(),
                g.len(),
                h.as_ptr(),
                h.len(),
                out.as_mut_ptr(),
                out.len(),
            )
        };
        answer(number, 0)
    }

    /// Writes a VD, [`VERDICT_BYTES`] bytes. Refusals 1, 2, 3, 5, 9.
    pub fn write_verdict(&self, record: &VerdictRecord, out: &mut [u8]) -> Result<(), Refusal> {
        let Setup { p, l, e, n } = *self;
        let VerdictRecord { dealing, holder, verdict } = *record;
        answer(unsafe { raw::mavdrusek_write_verdict(p, l, e, n, dealing, holder, verdict as u16, out.as_mut_ptr(), out.len()) }, 0)
    }

    /// Writes an SH, [`SHARE_BYTES`] bytes. Refusals 1 to 5.
    pub fn write_share(&self, record: &ShareRecord, out: &mut [u8]) -> Result<(), Refusal> {
        let Setup { p, l, e, n } = *self;
        let ShareRecord { dealing, holder, column, value, round } = *record;
        answer(unsafe { raw::mavdrusek_write_share(p, l, e, n, dealing, holder, column, value, round, out.as_mut_ptr(), out.len()) }, 0)
    }
}

/// Reading records. A reader looks at one record at the start of `part`; bytes behind it are not looked at.
impl Setup {
    /// The four numbers of an SU whose matrix is whole and has elements below p. Refusals 1 to 4, 8.
    pub fn read_setup(part: &[u8]) -> Result<Setup, Refusal> {
        let mut s = Setup { p: 0, l: 0, e: 0, n: 0 };
        answer(unsafe { raw::mavdrusek_read_setup_head(part.as_ptr(), part.len(), &mut s.p, &mut s.l, &mut s.e, &mut s.n) }, 0)?;
        Ok(s)
    }

    /// Reads a DL; g and h have d entries each. Refusals 1 to 5, 8, 9.
    pub fn read_dealing(&self, part: &[u8], g: &mut [u16], h: &mut [u16]) -> Result<DealingRecord, Refusal> {
        let Setup { p, l, e, n } = *self;
        let (mut dealing, mut holder) = (0, 0);
        let number = unsafe {
            raw::mavdrusek_read_dealing(
                p,
                l,
                e,
                n,
                part.as_ptr(),
                part.len(),
                g.as_mut_ptr(),
                g.len(),
                h.as_mut_ptr(),
                h.len(),
                &mut dealing,
                &mut holder,
            )
        };
        answer(number, 0)?;
        Ok(DealingRecord { dealing, holder })
    }

    /// Reads a PV. Refusals 1 to 5, 8, 9.
    pub fn read_pair_value(&self, part: &[u8]) -> Result<PairValueRecord, Refusal> {
        let Setup { p, l, e, n } = *self;
        let (mut dealing, mut sender, mut receiver, mut value) = (0, 0, 0, 0);
        let number = unsafe {
            raw::mavdrusek_read_pair_value(p, l, e, n, part.as_ptr(), part.len(), &mut dealing, &mut sender, &mut receiver, &mut value)
        };
        answer(number, 0)?;
        Ok(PairValueRecord { dealing, sender, receiver, value })
    }

    /// Reads a DF; g and h have d entries each, `phi` has ℓ · ℓ. Refusals 1 to 5, 8, 9.
    pub fn read_mapped_dealing(&self, part: &[u8], g: &mut [u16], h: &mut [u16], phi: &mut [u16]) -> Result<DealingRecord, Refusal> {
        let Setup { p, l, e, n } = *self;
        let (mut dealing, mut holder) = (0, 0);
        let number = unsafe {
            raw::mavdrusek_read_mapped_dealing(
                p,
                l,
                e,
                n,
                part.as_ptr(),
                part.len(),
                g.as_mut_ptr(),
                g.len(),
                h.as_mut_ptr(),
                h.len(),
                phi.as_mut_ptr(),
                phi.len(),
                &mut dealing,
                &mut holder,
            )
        };
        answer(number, 0)?;
        Ok(DealingRecord { dealing, holder })
    }

    /// Reads a PF. Refusals 1 to 5, 8, 9.
    pub fn read_mapped_pair_value(&self, part: &[u8]) -> Result<PairValueRecord, Refusal> {
        let Setup { p, l, e, n } = *self;
        let (mut dealing, mut sender, mut receiver, mut value) = (0, 0, 0, 0);
        let number = unsafe {
            raw::mavdrusek_read_mapped_pair_value(
                p,
                l,
                e,
                n,
                part.as_ptr(),
                part.len(),
                &mut dealing,
                &mut sender,
                &mut receiver,
                &mut value,
            )
        };
        answer(number, 0)?;
        Ok(PairValueRecord { dealing, sender, receiver, value })
    }

    /// Reads a DZ; g has d entries, h has e. Refusals 1 to 5, 8, 9.
    pub fn read_zero_dealing(&self, part: &[u8], g: &mut [u16], h: &mut [u16]) -> Result<DealingRecord, Refusal> {
        let Setup { p, l, e, n } = *self;
        let (mut dealing, mut holder) = (0, 0);
        let number = unsafe {
            raw::mavdrusek_read_zero_dealing(
                p,
                l,
                e,
                n,
                part.as_ptr(),
                part.len(),
                g.as_mut_ptr(),
                g.len(),
                h.as_mut_ptr(),
                h.len(),
                &mut dealing,
                &mut holder,
            )
        };
        answer(number, 0)?;
        Ok(DealingRecord { dealing, holder })
    }

    /// Reads a VD. Refusals 1, 2, 3, 5, 8, 9, 12.
    pub fn read_verdict(&self, part: &[u8]) -> Result<VerdictRecord, Refusal> {
        let Setup { p, l, e, n } = *self;
        let (mut dealing, mut holder, mut verdict) = (0, 0, 0);
        let number = unsafe { raw::mavdrusek_read_verdict(p, l, e, n, part.as_ptr(), part.len(), &mut dealing, &mut holder, &mut verdict) };
        answer(number, 0)?;
        let verdict = if verdict == 1 { Verdict::Accept } else { Verdict::Reject };
        Ok(VerdictRecord { dealing, holder, verdict })
    }

    /// Reads an SH with its round; one that ends before it is cut short. Refusals 1 to 5, 8.
    pub fn read_share(&self, part: &[u8]) -> Result<ShareRecord, Refusal> {
        let Setup { p, l, e, n } = *self;
        let (mut dealing, mut holder, mut column, mut value, mut round) = (0, 0, 0, 0, 0);
        let number = unsafe {
            raw::mavdrusek_read_share(p, l, e, n, part.as_ptr(), part.len(), &mut dealing, &mut holder, &mut column, &mut value, &mut round)
        };
        answer(number, 0)?;
        Ok(ShareRecord { dealing, holder, column, value, round })
    }

    /// Which of two SH of one share counts: the one with the higher round, and with equal rounds and values the first. What is given is that record's own
    /// bytes, the first [`SHARE_BYTES`] of `first` or of `second`. After 1 and 2 comes all that [`Setup::read_share`] refuses in `first`, then all that it
    /// refuses in `second`, then 21, then 20. Refusals 1 to 5, 8, 20, 21.
    ///
    /// ```
    /// use mavdrusek::{Refusal, Setup};
    ///
    /// // Two slips for holder 2's share of column 0 of dealing 1: the value 4 at round 0, and 0 at round 1.
    /// let setup = Setup { p: 7, l: 1, e: 1, n: 3 };
    /// let (old, new) = (b"SH\x01\0\x02\0\0\0\x04\0\0\0", b"SH\x01\0\x02\0\0\0\0\0\x01\0");
    /// assert_eq!(setup.superseding(old, new)?, new);
    /// assert_eq!(setup.superseding(new, old)?, new);
    ///
    /// // Holder 1's is another share.
    /// assert_eq!(setup.superseding(b"SH\x01\0\x01\0\0\0\x04\0\0\0", new), Err(Refusal::OtherShare));
    /// # Ok::<(), Refusal>(())
    /// ```
    pub fn superseding<'a>(&self, first: &'a [u8], second: &'a [u8]) -> Result<&'a [u8], Refusal> {
        let Setup { p, l, e, n } = *self;
        let mut which = 0;
        let number =
            unsafe { raw::mavdrusek_superseding(p, l, e, n, first.as_ptr(), first.len(), second.as_ptr(), second.len(), &mut which) };
        answer(number, 0)?;
        // The call answers only where both records are whole.
        Ok(&(if which == 2 { second } else { first })[..SHARE_BYTES])
    }
}

/// Reads the matrix of an SU into `matrix`, as many entries as [`Setup::read_setup`] and [`Setup::entries`] say. Refusals 1 to 4, 8.
pub fn read_setup_matrix(part: &[u8], matrix: &mut [u16]) -> Result<(), Refusal> {
    answer(unsafe { raw::mavdrusek_read_setup_matrix(part.as_ptr(), part.len(), matrix.as_mut_ptr(), matrix.len()) }, 0)
}

/// Whether p is one of the five [`PRIMES`]. Refusal 1.
pub fn field(p: u16) -> Result<(), Refusal> {
    answer(unsafe { raw::mavdrusek_field(p) }, 0)
}

/// The sum of the products of constants and one holder's shares, as many of the one as of the other and at most [`MOST_TERMS`]: its share of that
/// combination of columns. The rounds of the shares must agree, and the combination has that round; with no constants and no shares it is 0 at round 0,
/// whichever holder asks. Refusals 1, 3, 4, 19.
pub fn combine(p: u16, constants: &[u16], shares: &Shares) -> Result<Share, Refusal> {
    let Shares { values, rounds } = *shares;
    let (mut value, mut round) = (0, 0);
    let number = unsafe {
        raw::mavdrusek_combine(
            p,
            constants.as_ptr(),
            constants.len(),
            values.as_ptr(),
            values.len(),
            rounds.as_ptr(),
            rounds.len(),
            &mut value,
            &mut round,
        )
    };
    answer(number, 0)?;
    Ok(Share { value, round })
}

/// Writes the element that each correction is held as, its remainder, as many as there are corrections. Every p but [`CORRECTION_PRIME`] is refused by 1.
/// Refusals 22, 1, 3, in this order.
///
/// ```
/// use mavdrusek::{combine_signed, hold_corrections, Refusal, Setup, Shares};
///
/// // Two doors of a car, 1.20 s late and 0.45 s early, as the two columns of one dealing.
/// let setup = Setup { p: 65521, l: 2, e: 1, n: 3 };
/// let mut secrets = [0; 4];
/// hold_corrections(setup.p, &[120, 0, -45, 0], &mut secrets)?;
/// assert_eq!(secrets, [120, 0, 65476, 0]);
///
/// // A real dealer draws the random entries evenly, from a secure source.
/// let (mut matrix, mut gs, mut hs) = ([0; 9], [0; 9], [0; 9]);
/// setup.points(&mut matrix)?;
/// setup.deal_all(&matrix, &secrets, &[1, 2, 3, 4, 5], &mut gs, &mut hs)?;
///
/// // Each holder takes the first column from twice the second, at round 0.
/// let combined = gs.chunks(3).map(|g| combine_signed(setup.p, &[-1, 2], &Shares { values: &g[..2], rounds: &[0, 0] }));
/// let shares = combined.map(|share| share.map(|x| x.value)).collect::<Result<Vec<_>, _>>()?;
/// let mut corrections = [0; 2];
/// setup.open_signed(&matrix, 0b111, &Shares { values: &shares, rounds: &[0; 3] }, &mut corrections)?;
/// assert_eq!(corrections, [-210, 0]);
///
/// assert_eq!(hold_corrections(setup.p, &[32761], &mut [0]), Err(Refusal::Correction));
/// # Ok::<(), Refusal>(())
/// ```
pub fn hold_corrections(p: u16, corrections: &[i32], residues: &mut [u16]) -> Result<(), Refusal> {
    let number =
        unsafe { raw::mavdrusek_hold_corrections(p, corrections.as_ptr(), corrections.len(), residues.as_mut_ptr(), residues.len()) };
    answer(number, 0)
}

/// Writes the correction that each element stands for, as many as there are elements: one up to [`MOST_CORRECTION`] stands for itself, one above it for 65521
/// less. Every p but [`CORRECTION_PRIME`] is refused by 1. Refusals 1, 3, 4.
pub fn read_corrections(p: u16, residues: &[u16], corrections: &mut [i32]) -> Result<(), Refusal> {
    let number =
        unsafe { raw::mavdrusek_read_corrections(p, residues.as_ptr(), residues.len(), corrections.as_mut_ptr(), corrections.len()) };
    answer(number, 0)
}

/// As [`combine`], with constants from −[`MOST_CORRECTION`] to [`MOST_CORRECTION`], over [`CORRECTION_PRIME`]. Every other p is refused by 1. Refusals 22, 1, 3,
/// 4, 19, in this order.
pub fn combine_signed(p: u16, constants: &[i32], shares: &Shares) -> Result<Share, Refusal> {
    let Shares { values, rounds } = *shares;
    let (mut value, mut round) = (0, 0);
    let number = unsafe {
        raw::mavdrusek_combine_signed(
            p,
            constants.as_ptr(),
            constants.len(),
            values.as_ptr(),
            values.len(),
            rounds.as_ptr(),
            rounds.len(),
            &mut value,
            &mut round,
        )
    };
    answer(number, 0)?;
    Ok(Share { value, round })
}

/// A holder's share of a column at the next round, from its share at this one and the value of its share of the same column of a zero dealing that was kept.
/// It opens with those of its own round to what the old ones opened to. Refusals 1, 4, 18.
pub fn refresh(p: u16, share: &Share, zero: u16) -> Result<Share, Refusal> {
    let (mut value, mut round) = (0, 0);
    answer(unsafe { raw::mavdrusek_refresh(p, share.value, share.round, zero, &mut value, &mut round) }, 0)?;
    Ok(Share { value, round })
}

/// A board key. It is the secret itself, so it has no `Debug`.
#[derive(Clone, PartialEq, Eq)]
pub struct Key([u8; KEY_BYTES]);

impl Key {
    /// The key of these bytes.
    pub fn from_bytes(bytes: [u8; KEY_BYTES]) -> Key {
        Key(bytes)
    }

    /// Its bytes.
    pub fn as_bytes(&self) -> &[u8; KEY_BYTES] {
        &self.0
    }
}

/// Writes every holder's part of a key, as [`Setup::deal_all`] does on [`BOARD`] with its points matrix: holder i's g and h at i · 7 of `gs` and `hs`, 112
/// entries each. Byte 4b + k of the key is position k of column b. `random` has 33 elements, which the caller draws evenly from a secure source. Refusals
/// 3, 4.
///
/// ```
/// use mavdrusek::{deal_key, open_key, Key, Refusal, Shares, BOARD};
///
/// let key = Key::from_bytes(*b"sixteen-byte key");
/// // A real dealer draws the random entries evenly, from a secure source.
/// let random = [5; 33];
/// let (mut gs, mut hs) = ([0; 112], [0; 112]);
/// deal_key(&key, &random, &mut gs, &mut hs)?;
///
/// // Seven holders hand in their shares: all of column 0, then all of column 1, 2 and 3. They are at round 0, as the holders agreed.
/// let seven = 0b1111111;
/// let shares: Vec<u16> = (0..4).flat_map(|column| gs.chunks(BOARD.d()).take(7).map(move |g| g[column])).collect();
/// assert!(open_key(seven, &Shares { values: &shares, rounds: &[0; 28] })? == key);
/// let three = open_key(0b111, &Shares { values: &shares[..12], rounds: &[0; 12] });
/// assert_eq!(three.err(), Some(Refusal::Undetermined { position: 0 }));
/// # Ok::<(), Refusal>(())
/// ```
pub fn deal_key(key: &Key, random: &[u16], gs: &mut [u16], hs: &mut [u16]) -> Result<(), Refusal> {
    let number = unsafe {
        raw::mavdrusek_deal_key(
            key.0.as_ptr(),
            key.0.len(),
            random.as_ptr(),
            random.len(),
            gs.as_mut_ptr(),
            gs.len(),
            hs.as_mut_ptr(),
            hs.len(),
        )
    };
    answer(number, 0)
}

/// Opens the set's shares of a key's four columns: those of column 0 by rising holder, then those of columns 1, 2 and 3, with their rounds in the same
/// order. Four times as many are needed as there are ones among all 32 bits of the set. The rounds of one column must agree; the four columns may stand at
/// different rounds. 19 in any column comes before 6 and 7, and 7 in any column before 16. Refusals 3 to 7, 16, 19.
///
/// With seven honest holders among the openers, the others can only cause a refusal; with fewer, a false share can open to a false key.
pub fn open_key(set: u32, shares: &Shares) -> Result<Key, Refusal> {
    let Shares { values, rounds } = *shares;
    let (mut key, mut position) = (Key([0; KEY_BYTES]), 0);
    let number = unsafe {
        raw::mavdrusek_open_key(
            set,
            values.as_ptr(),
            values.len(),
            rounds.as_ptr(),
            rounds.len(),
            key.0.as_mut_ptr(),
            key.0.len(),
            &mut position,
        )
    };
    answer(number, position)?;
    Ok(key)
}

/// What a holder's file is of. It carries shares, so it has no `Debug`.
#[derive(Clone, PartialEq, Eq)]
pub enum FileKind {
    /// A dealing.
    Dealing,
    /// A dealing and a second one, tied to it by a map.
    Mapped {
        /// The ℓ shares of the second dealing, one for each column, where the outcome is kept; else none.
        shares: Vec<u16>,
    },
    /// A zero dealing: its shares refresh those of a dealing.
    Zero,
}

/// What a holder's file says. It carries shares, so it has no `Debug`.
#[derive(Clone, PartialEq, Eq)]
pub struct FileContents {
    /// The setup's numbers.
    pub setup: Setup,
    /// The dealing number, from 1.
    pub dealing: u16,
    /// Whose file it is.
    pub holder: u16,
    /// What it is of.
    pub kind: FileKind,
    /// What the holder finds on the values in the file, and with a DF on the map.
    pub judgement: Judgement,
    /// How the dealing ends on the verdicts in the file.
    pub outcome: Outcome,
    /// The ℓ shares, one for each column, where the outcome is kept; else none. No round stands in a file.
    pub shares: Vec<u16>,
    /// What the holder program prints for the file, from the proved printer.
    pub text: String,
}

/// Why a holder's file is refused, and where.
#[derive(Clone, Copy, Debug, PartialEq, Eq, Hash)]
pub struct FileRefusal {
    /// Why.
    pub refusal: Refusal,
    /// The byte where the faulty record starts, or the file's length for [`Refusal::Missing`] and [`Refusal::OwnVerdict`]; none where the file has more
    /// than [`MOST_FILE_BYTES`] bytes.
    pub byte: Option<usize>,
}

/// As the holder program prints it: `refused N at B`.
impl fmt::Display for FileRefusal {
    fn fmt(&self, f: &mut fmt::Formatter) -> fmt::Result {
        let number = self.refusal.number();
        match self.byte {
            Some(byte) => write!(f, "refused {number} at {byte}"),
            None => write!(f, "refused {number}: a file has at most {MOST_FILE_BYTES} bytes"),
        }
    }
}

impl Error for FileRefusal {
    fn source(&self) -> Option<&(dyn Error + 'static)> {
        Some(&self.refusal)
    }
}

/// Entries that a file's contents are read into.
const CONTENTS: usize = 27;
/// Bytes that a file's text is written into.
const TEXT: usize = 512;

/// What the place for the byte holds before a call. No file is so long, so it tells whether the call gave one.
const NO_BYTE: usize = usize::MAX;

/// What a call on a file returned, as a Result.
fn file_answer(number: u16, byte: usize) -> Result<(), FileRefusal> {
    answer(number, 0).map_err(|refusal| FileRefusal { refusal, byte: (byte != NO_BYTE).then_some(byte) })
}

/// Reads a holder's file of at most [`MOST_FILE_BYTES`] bytes: an SU, the holder's DL, its n PV by rising sender and everyone's n VD by rising holder. Where
/// the dealing is tied to a second one by a map, the holder's DF comes right behind the DL, and its n PF by rising sender between the PV and the VD. A zero
/// dealing's file has a DZ in place of the DL, and neither DF nor PF. The first faulty record decides.
/// Refusals 1 to 5, 8 to 13, 17.
///
/// ```
/// use mavdrusek::{read_file, Refusal};
///
/// let refusal = read_file(b"").err().unwrap();
/// assert_eq!((refusal.refusal, refusal.byte), (Refusal::Missing, Some(0)));
/// assert_eq!(refusal.to_string(), "refused 11 at 0");
/// ```
pub fn read_file(file: &[u8]) -> Result<FileContents, FileRefusal> {
    let (mut contents, mut byte) = ([0; CONTENTS], NO_BYTE);
    let number = unsafe { raw::mavdrusek_read_file(file.as_ptr(), file.len(), contents.as_mut_ptr(), contents.len(), &mut byte) };
    file_answer(number, byte)?;
    let text = text_of(file)?;
    let [p, l, e, n, dealing, holder, accepts, rejected, kept, aborted, ref rest @ ..] = contents;
    let setup = Setup { p, l, e, n };
    let (outcome, count) = if kept == 1 { (Outcome::Kept, l as usize) } else { (Outcome::Aborted(aborted), 0) };
    // Eight places for the shares, one for the kind, eight for the shares of a second dealing.
    let (shares, mapped) = (&rest[..count], &rest[9..][..count]);
    let kind = match rest[8] {
        0 => FileKind::Dealing,
        1 => FileKind::Mapped { shares: mapped.to_vec() },
        _ => FileKind::Zero,
    };
    Ok(FileContents { setup, dealing, holder, kind, judgement: Judgement::new(accepts, rejected), outcome, shares: shares.to_vec(), text })
}

/// What the proved printer gives for a file.
fn text_of(file: &[u8]) -> Result<String, FileRefusal> {
    let (mut out, mut count, mut byte) = ([0; TEXT], 0, NO_BYTE);
    let number = unsafe { raw::mavdrusek_holder_file(file.as_ptr(), file.len(), out.as_mut_ptr(), out.len(), &mut count, &mut byte) };
    file_answer(number, byte)?;
    Ok(String::from_utf8(out[..count].to_vec()).expect("the library prints letters, digits, spaces and line ends"))
}
