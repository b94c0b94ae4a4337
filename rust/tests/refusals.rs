//! Each refusal, and that a declined call leaves what it was lent.

use mavdrusek::*;

const SETUP: Setup = Setup { p: 7, l: 1, e: 1, n: 3 };
const MATRIX: [u16; 6] = [6, 2, 5, 3, 4, 4];

/// Deals with a map to holder 0, into slices of these lengths; a refusal leaves them.
fn deal_mapped(setup: Setup, matrix: &[u16], dealt: MappedSecrets, lengths: [usize; 4]) -> Result<(), Refusal> {
    mapped(lengths, |parts| setup.deal_mapped(matrix, &dealt, 0, parts))
}

/// The same to all.
fn deal_mapped_all(setup: Setup, matrix: &[u16], dealt: MappedSecrets, lengths: [usize; 4]) -> Result<(), Refusal> {
    mapped(lengths, |parts| setup.deal_mapped_all(matrix, &dealt, parts))
}

fn mapped(lengths: [usize; 4], deal: impl Fn(MappedParts) -> Result<(), Refusal>) -> Result<(), Refusal> {
    let mut lent = lengths.map(|length| vec![9; length]);
    let [g, h, g2, h2] = &mut lent;
    let answer = deal(MappedParts { g, h, g2, h2 });
    if answer.is_err() {
        assert_eq!(lent, lengths.map(|length| vec![9; length]));
    }
    answer
}

/// Opens shares of round 3, into secrets that a refusal leaves.
fn open(setup: Setup, matrix: &[u16], set: u32, values: &[u16], secrets: &mut [u16]) -> Result<(), Refusal> {
    let before = secrets.to_vec();
    let answer = setup.open(matrix, set, &Shares { values, rounds: &vec![3; values.len()] }, secrets);
    assert!(answer.is_ok() || before == secrets);
    answer
}

/// A combination of shares of round 3.
fn combined(p: u16, constants: &[u16], values: &[u16]) -> Result<u16, Refusal> {
    combine(p, constants, &Shares { values, rounds: &vec![3; values.len()] }).map(|share| share.value)
}

const NO_SHARES: Shares = Shares { values: &[], rounds: &[] };
const NOTHING: MappedSecrets = MappedSecrets { secrets: &[], random: &[], phi: &[], random2: &[] };
const DEALT: MappedSecrets = MappedSecrets { secrets: &[3], random: &[1, 5, 2], phi: &[2], random2: &[4, 1] };

#[test]
fn numbers() {
    let all = [
        (Refusal::NoField, 1),
        (Refusal::Limits, 2),
        (Refusal::Length, 3),
        (Refusal::Element, 4),
        (Refusal::Range, 5),
        (Refusal::Undetermined { position: 3 }, 6),
        (Refusal::Inconsistent, 7),
        (Refusal::Mark, 8),
        (Refusal::DealingNumber, 9),
        (Refusal::Repeated, 10),
        (Refusal::Missing, 11),
        (Refusal::NoVerdict, 12),
        (Refusal::OwnVerdict, 13),
        (Refusal::TooFewPoints, 15),
        (Refusal::NoByte, 16),
        (Refusal::Order, 17),
        (Refusal::LastRound, 18),
        (Refusal::Rounds, 19),
        (Refusal::UnequalValues, 20),
        (Refusal::OtherShare, 21),
        (Refusal::Correction, 22),
    ];
    for (refusal, number) in all {
        assert_eq!(refusal.number(), number);
        assert!(refusal.to_string().starts_with(&format!("refused {number}: ")));
    }
}

#[test]
fn no_field() {
    for p in PRIMES {
        assert_eq!(field(p), Ok(()));
    }
    for p in [0, 1, 3, 8, 256, 65535] {
        assert_eq!(field(p), Err(Refusal::NoField));
        assert_eq!(combined(p, &[1], &[1]), Err(Refusal::NoField));
        assert_eq!(combined(p, &[], &[]), Err(Refusal::NoField));
        assert!(refresh(p, &Share { value: 65535, round: 65535 }, 65535) == Err(Refusal::NoField));
    }
    // 1 comes before all that is wrong beside it.
    let wrong = Setup { p: 0, l: 0, e: 65535, n: 65535 };
    assert_eq!(wrong.points(&mut []), Err(Refusal::NoField));
    assert_eq!(wrong.open(&[], 0, &NO_SHARES, &mut []), Err(Refusal::NoField));
    assert_eq!(wrong.superseding(&[], &[]), Err(Refusal::NoField));
    assert_eq!(wrong.open_signed(&[], 0, &NO_SHARES, &mut []), Err(Refusal::NoField));
}

#[test]
fn limits() {
    for (l, e, n) in [(0, 1, 1), (9, 1, 1), (1, 0, 1), (1, 9, 1), (1, 1, 0), (1, 1, 33), (65535, 65535, 65535)] {
        let wrong = Setup { p: 257, l, e, n };
        assert_eq!(wrong.points(&mut []), Err(Refusal::Limits));
        assert_eq!(wrong.deal(&[], &[], &[], 0, &mut [], &mut []), Err(Refusal::Limits));
        assert_eq!(wrong.deal_all(&[], &[], &[], &mut [], &mut []), Err(Refusal::Limits));
        assert_eq!(wrong.pair_value(&[], &[], 0), Err(Refusal::Limits));
        assert_eq!(wrong.judge(&[], &[], &[]), Err(Refusal::Limits));
        assert_eq!(deal_mapped(wrong, &[], NOTHING, [0; 4]), Err(Refusal::Limits));
        assert_eq!(deal_mapped_all(wrong, &[], NOTHING, [0; 4]), Err(Refusal::Limits));
        assert_eq!(wrong.judge_mapped(&[], &[], &[], &[], &[], &[]), Err(Refusal::Limits));
        assert_eq!(wrong.read_mapped_pair_value(&[]).err(), Some(Refusal::Limits));
        assert_eq!(wrong.read_mapped_dealing(&[], &mut [], &mut [], &mut []), Err(Refusal::Limits));
        assert_eq!(wrong.deal_zero(&[], &[], 0, &mut [], &mut []), Err(Refusal::Limits));
        assert_eq!(wrong.deal_zero_all(&[], &[], &mut [], &mut []), Err(Refusal::Limits));
        assert_eq!(wrong.judge_zero(&[], &[], &[]), Err(Refusal::Limits));
        assert_eq!(wrong.read_zero_dealing(&[], &mut [], &mut []), Err(Refusal::Limits));
        assert_eq!(wrong.outcome(&[], &[], &mut []), Err(Refusal::Limits));
        assert_eq!(wrong.rehearse(&[], &[], &[]), Err(Refusal::Limits));
        assert_eq!(wrong.determines(&[], 0), Err(Refusal::Limits));
        assert_eq!(wrong.private(&[], 0), Err(Refusal::Limits));
        assert_eq!(wrong.judge_set(&[], 0, 0, &mut []), Err(Refusal::Limits));
        assert_eq!(wrong.open(&[], 0, &NO_SHARES, &mut []), Err(Refusal::Limits));
        assert_eq!(wrong.write_setup(&[], &mut []), Err(Refusal::Limits));
        assert_eq!(wrong.read_verdict(&[]), Err(Refusal::Limits));
        assert_eq!(wrong.superseding(&[], &[]), Err(Refusal::Limits));
        let wrong = Setup { p: CORRECTION_PRIME, ..wrong };
        assert_eq!(wrong.open_signed(&[], 0, &NO_SHARES, &mut []), Err(Refusal::Limits));
    }
}

/// Every call on a sound setup with empty slices, but for a combination and corrections, which answer, and the opening of a key by nobody.
#[test]
fn empty_slices() {
    assert_eq!(SETUP.points(&mut []), Err(Refusal::Length));
    assert_eq!(SETUP.deal(&[], &[], &[], 0, &mut [], &mut []), Err(Refusal::Length));
    assert_eq!(SETUP.deal_all(&[], &[], &[], &mut [], &mut []), Err(Refusal::Length));
    assert_eq!(SETUP.pair_value(&[], &[], 0), Err(Refusal::Length));
    assert_eq!(SETUP.judge(&[], &[], &[]), Err(Refusal::Length));
    assert_eq!(deal_mapped(SETUP, &[], NOTHING, [0; 4]), Err(Refusal::Length));
    assert_eq!(deal_mapped_all(SETUP, &[], NOTHING, [0; 4]), Err(Refusal::Length));
    assert_eq!(SETUP.judge_mapped(&[], &[], &[], &[], &[], &[]), Err(Refusal::Length));
    assert_eq!(SETUP.deal_zero(&[], &[], 0, &mut [], &mut []), Err(Refusal::Length));
    assert_eq!(SETUP.deal_zero_all(&[], &[], &mut [], &mut []), Err(Refusal::Length));
    assert_eq!(SETUP.judge_zero(&[], &[], &[]), Err(Refusal::Length));
    assert_eq!(SETUP.outcome(&[], &[], &mut []), Err(Refusal::Length));
    assert_eq!(SETUP.rehearse(&[], &[], &[]), Err(Refusal::Length));
    assert_eq!(SETUP.determines(&[], 0), Err(Refusal::Length));
    assert_eq!(SETUP.private(&[], 0), Err(Refusal::Length));
    assert_eq!(SETUP.judge_set(&[], 0, 0, &mut []), Err(Refusal::Length));
    assert_eq!(SETUP.open(&[], 0, &NO_SHARES, &mut []), Err(Refusal::Length));
    assert_eq!(deal_key(&Key::from_bytes([0; KEY_BYTES]), &[], &mut [], &mut []), Err(Refusal::Length));
    assert_eq!(open_key(0b111_1111, &NO_SHARES).err(), Some(Refusal::Length));
    assert_eq!(SETUP.write_setup(&[], &mut []), Err(Refusal::Length));
    assert_eq!(SETUP.write_dealing(&DealingRecord { dealing: 1, holder: 0 }, &[], &[], &mut []), Err(Refusal::Length));
    assert_eq!(SETUP.write_mapped_dealing(&DealingRecord { dealing: 1, holder: 0 }, &[], &[], &[], &mut []), Err(Refusal::Length));
    assert_eq!(SETUP.write_zero_dealing(&DealingRecord { dealing: 1, holder: 0 }, &[], &[], &mut []), Err(Refusal::Length));
    let pair = PairValueRecord { dealing: 1, sender: 0, receiver: 0, value: 0 };
    assert_eq!(SETUP.write_pair_value(&pair, &mut []), Err(Refusal::Length));
    assert_eq!(SETUP.write_mapped_pair_value(&pair, &mut []), Err(Refusal::Length));
    let verdict = VerdictRecord { dealing: 1, holder: 0, verdict: Verdict::Accept };
    assert_eq!(SETUP.write_verdict(&verdict, &mut []), Err(Refusal::Length));
    let share = ShareRecord { dealing: 1, holder: 0, column: 0, value: 0, round: 0 };
    assert_eq!(SETUP.write_share(&share, &mut []), Err(Refusal::Length));
    assert_eq!(Setup::read_setup(&[]), Err(Refusal::Length));
    assert_eq!(read_setup_matrix(&[], &mut []), Err(Refusal::Length));
    assert_eq!(SETUP.read_dealing(&[], &mut [], &mut []), Err(Refusal::Length));
    assert_eq!(SETUP.read_pair_value(&[]).err(), Some(Refusal::Length));
    assert_eq!(SETUP.read_mapped_dealing(&[], &mut [], &mut [], &mut []), Err(Refusal::Length));
    assert_eq!(SETUP.read_zero_dealing(&[], &mut [], &mut []), Err(Refusal::Length));
    assert_eq!(SETUP.read_mapped_pair_value(&[]).err(), Some(Refusal::Length));
    assert_eq!(SETUP.read_verdict(&[]), Err(Refusal::Length));
    assert_eq!(SETUP.read_share(&[]).err(), Some(Refusal::Length));
    assert_eq!(SETUP.superseding(&[], &[]), Err(Refusal::Length));
    assert_eq!(Setup { p: CORRECTION_PRIME, ..SETUP }.open_signed(&[], 0, &NO_SHARES, &mut []), Err(Refusal::Length));
    assert_eq!(read_file(&[]).err(), Some(FileRefusal { refusal: Refusal::Missing, byte: Some(0) }));
}

/// One entry too many or too few in one slice at a time.
#[test]
fn lengths() {
    let m = MATRIX;
    let (mut two, mut six) = ([9; 2], [9; 6]);
    for wrong in [5, 7] {
        assert_eq!(SETUP.points(&mut vec![9; wrong]), Err(Refusal::Length));
        let given = vec![0; wrong];
        assert_eq!(SETUP.deal(&given, &[3], &[1, 5, 2], 0, &mut two, &mut [0; 2]), Err(Refusal::Length));
        assert_eq!(SETUP.deal_all(&m, &[3], &[1, 5, 2], &mut six, &mut vec![0; wrong]), Err(Refusal::Length));
        assert_eq!(SETUP.deal_all(&m, &[3], &[1, 5, 2], &mut vec![0; wrong], &mut six), Err(Refusal::Length));
        assert_eq!(SETUP.rehearse(&m, &given, &m), Err(Refusal::Length));
        assert_eq!(SETUP.rehearse(&m, &m, &given), Err(Refusal::Length));
    }
    assert_eq!(SETUP.deal(&m, &[], &[1, 5, 2], 0, &mut two, &mut [0; 2]), Err(Refusal::Length));
    assert_eq!(SETUP.deal(&m, &[3], &[1, 5], 0, &mut two, &mut [0; 2]), Err(Refusal::Length));
    assert_eq!(SETUP.deal(&m, &[3], &[1, 5, 2], 0, &mut two, &mut [0; 3]), Err(Refusal::Length));
    assert_eq!((two, six), ([9; 2], [9; 6]));
    assert_eq!(SETUP.judge(&m, &[4, 3], &[2, 1]), Err(Refusal::Length));
    for at in 0..4 {
        let with = |size: usize| std::array::from_fn(|k| if k == at { size + 1 } else { size });
        assert_eq!(deal_mapped(SETUP, &m, DEALT, with(2)), Err(Refusal::Length));
        assert_eq!(deal_mapped_all(SETUP, &m, DEALT, with(6)), Err(Refusal::Length));
    }
    for dealt in [
        MappedSecrets { secrets: &[3, 3], ..DEALT },
        MappedSecrets { random: &[1, 5], ..DEALT },
        MappedSecrets { phi: &[], ..DEALT },
        MappedSecrets { phi: &[2, 2], ..DEALT },
        MappedSecrets { random2: &[4], ..DEALT },
        MappedSecrets { random2: &[4, 1, 4], ..DEALT },
    ] {
        assert_eq!(deal_mapped(SETUP, &m, dealt, [2; 4]), Err(Refusal::Length));
    }
    assert_eq!(SETUP.judge_mapped(&m, &[4, 3], &[2, 1, 0], &[2, 2], &[1, 2], &[3, 4, 5]), Err(Refusal::Length));
    assert_eq!(SETUP.judge_mapped(&m, &[4, 3], &[2, 1, 0], &[2], &[1], &[3, 4, 5]), Err(Refusal::Length));
    assert_eq!(SETUP.judge_mapped(&m, &[4, 3], &[2, 1, 0], &[2], &[1, 2], &[3, 4]), Err(Refusal::Length));
    assert_eq!(SETUP.outcome(&[2, 4], &[Verdict::Accept; 4], &mut [9]), Err(Refusal::Length));
    assert_eq!(SETUP.judge_set(&m, 0b101, 0, &mut [9; 31]), Err(Refusal::Length));
    assert_eq!(open(SETUP, &m, 0b101, &[0, 2, 4], &mut [9]), Err(Refusal::Length));
    for (values, rounds) in [(&[0, 4][..], &[3][..]), (&[0, 4], &[3; 3]), (&[0], &[3; 2]), (&[0, 4], &[])] {
        assert_eq!(SETUP.open(&m, 0b101, &Shares { values, rounds }, &mut [9]), Err(Refusal::Length));
        assert_eq!(combine(7, &[1; 2], &Shares { values, rounds }).err(), Some(Refusal::Length));
    }
    for (g, h) in [(1, 1), (3, 1), (2, 0), (2, 2)] {
        assert_eq!(SETUP.deal_zero(&m, &[6, 1], 0, &mut vec![9; g], &mut vec![9; h]), Err(Refusal::Length));
        assert_eq!(SETUP.deal_zero_all(&m, &[6, 1], &mut vec![9; 3 * g], &mut vec![9; 3 * h]), Err(Refusal::Length));
    }
    for random in [&[][..], &[6], &[6, 1, 6]] {
        assert_eq!(SETUP.deal_zero(&m, random, 0, &mut [9; 2], &mut [9]), Err(Refusal::Length));
    }
    assert_eq!(SETUP.judge_zero(&m, &[5, 5], &[3, 1, 6]), Err(Refusal::Length));
    assert_eq!(SETUP.judge_zero(&m, &[5], &[3, 1]), Err(Refusal::Length));
    assert_eq!(combined(7, &[1; 65], &[1; 65]), Err(Refusal::Length));
    assert_eq!(combined(7, &[1; 64], &[1; 64]), Ok(1));
    for p in PRIMES {
        assert_eq!(combined(p, &[], &[1]), Err(Refusal::Length));
        assert_eq!(combined(p, &[1], &[]), Err(Refusal::Length));
        assert_eq!(combine(p, &[], &Shares { values: &[], rounds: &[1] }).err(), Some(Refusal::Length));
    }
    // As many shares as there are ones among all 32 bits of the set.
    assert_eq!(open(SETUP, &m, 0b1001, &[0, 4], &mut [9]), Err(Refusal::Range));
    assert_eq!(open(SETUP, &m, 0b1001, &[0], &mut [9]), Err(Refusal::Length));
    assert_eq!(read_file(&[0; 4097]).err(), Some(FileRefusal { refusal: Refusal::Length, byte: None }));
    assert_eq!(read_file(&[0; 4096]).err(), Some(FileRefusal { refusal: Refusal::Mark, byte: Some(0) }));
}

#[test]
fn elements() {
    let m = MATRIX;
    let high = [6, 2, 5, 3, 4, 7];
    let (mut g, mut h) = ([9; 2], [9; 2]);
    assert_eq!(SETUP.deal(&high, &[3], &[1, 5, 2], 0, &mut g, &mut h), Err(Refusal::Element));
    assert_eq!(SETUP.deal(&m, &[7], &[1, 5, 2], 0, &mut g, &mut h), Err(Refusal::Element));
    assert_eq!(SETUP.deal(&m, &[3], &[1, 5, 65535], 0, &mut g, &mut h), Err(Refusal::Element));
    assert_eq!((g, h), ([9; 2], [9; 2]));
    assert_eq!(SETUP.pair_value(&m, &[0, 7], 0), Err(Refusal::Element));
    assert_eq!(SETUP.judge(&m, &[4, 3], &[2, 1, 7]), Err(Refusal::Element));
    for dealt in
        [MappedSecrets { secrets: &[7], ..DEALT }, MappedSecrets { phi: &[7], ..DEALT }, MappedSecrets { random2: &[4, 7], ..DEALT }]
    {
        assert_eq!(deal_mapped(SETUP, &m, dealt, [2; 4]), Err(Refusal::Element));
    }
    assert_eq!(deal_mapped_all(SETUP, &high, DEALT, [6; 4]), Err(Refusal::Element));
    assert_eq!(SETUP.judge_mapped(&m, &[4, 3], &[2, 1, 0], &[7], &[1, 2], &[3, 4, 5]), Err(Refusal::Element));
    assert_eq!(SETUP.judge_mapped(&m, &[4, 3], &[2, 1, 0], &[2], &[1, 7], &[3, 4, 5]), Err(Refusal::Element));
    assert_eq!(SETUP.judge_mapped(&m, &[4, 3], &[2, 1, 0], &[2], &[1, 2], &[3, 4, 7]), Err(Refusal::Element));
    let (mut g, mut h) = ([9; 2], [9]);
    assert_eq!(SETUP.deal_zero(&m, &[6, 7], 0, &mut g, &mut h), Err(Refusal::Element));
    assert_eq!(SETUP.deal_zero(&high, &[6, 1], 3, &mut g, &mut h), Err(Refusal::Element));
    assert_eq!((g, h), ([9; 2], [9]));
    assert_eq!(SETUP.judge_zero(&m, &[7], &[3, 1, 6]), Err(Refusal::Element));
    assert_eq!(SETUP.judge_zero(&m, &[5], &[3, 1, 7]), Err(Refusal::Element));
    for (value, zero) in [(7, 0), (0, 7), (65535, 65535)] {
        assert!(refresh(7, &Share { value, round: 65535 }, zero) == Err(Refusal::Element));
    }
    assert_eq!(SETUP.outcome(&[2, 7], &[Verdict::Accept; 3], &mut [9]), Err(Refusal::Element));
    assert_eq!(SETUP.rehearse(&m, &m, &high), Err(Refusal::Element));
    assert_eq!(SETUP.determines(&high, 0b111), Err(Refusal::Element));
    let mut out = [9; 32];
    assert_eq!((SETUP.judge_set(&high, 0b011, 0, &mut out), out), (Err(Refusal::Element), [9; 32]));
    assert_eq!(open(SETUP, &m, 0b101, &[0, 7], &mut [9]), Err(Refusal::Element));
}

#[test]
fn ranges() {
    let m = MATRIX;
    assert_eq!(SETUP.deal(&m, &[3], &[1, 5, 2], 3, &mut [0; 2], &mut [0; 2]), Err(Refusal::Range));
    assert_eq!(SETUP.pair_value(&m, &[0, 3], 3), Err(Refusal::Range));
    assert_eq!(mapped([2; 4], |parts| SETUP.deal_mapped(&m, &DEALT, 3, parts)), Err(Refusal::Range));
    assert_eq!(SETUP.deal_zero(&m, &[6, 1], 3, &mut [0; 2], &mut [0]), Err(Refusal::Range));
    assert_eq!(SETUP.determines(&m, 0b1000), Err(Refusal::Range));
    assert_eq!(SETUP.private(&m, 1 << 31), Err(Refusal::Range));
    let mut out = [9; 32];
    assert_eq!(SETUP.judge_set(&m, 0b101, 1, &mut out), Err(Refusal::Range));
    assert_eq!(SETUP.judge_set(&m, 0b1101, 0, &mut out), Err(Refusal::Range));
    assert_eq!(out, [9; 32]);
    assert_eq!(open(SETUP, &m, 0b1001, &[0, 4], &mut [9]), Err(Refusal::Range));
    let share = ShareRecord { dealing: 0, holder: 0, column: 1, value: 0, round: 0 };
    let two = Setup { l: 2, ..SETUP };
    assert_eq!(two.write_share(&share, &mut [0; SHARE_BYTES]), Err(Refusal::Range));
    assert_eq!(two.write_share(&ShareRecord { dealing: 1, ..share }, &mut [0; SHARE_BYTES]), Ok(()));
}

/// The lowest position with no row: of two unit rows among three positions the second is left out.
#[test]
fn undetermined() {
    let setup = Setup { p: 257, l: 3, e: 1, n: 3 };
    let matrix = [1, 0, 0, 0, 0, 0, 1, 0, 0, 1, 0, 0];
    let mut secrets = [9; 3];
    assert_eq!(open(setup, &matrix, 0b011, &[5, 6], &mut secrets), Err(Refusal::Undetermined { position: 1 }));
    assert_eq!(secrets, [9; 3]);
    assert_eq!(open(setup, &matrix, 0b111, &[5, 6, 7], &mut secrets), Ok(()));
    assert_eq!(secrets, [5, 7, 6]);
}

#[test]
fn points() {
    let setup = Setup { p: 2, l: 1, e: 1, n: 1 };
    let mut matrix = [9; 2];
    assert_eq!(setup.points(&mut matrix), Err(Refusal::TooFewPoints));
    assert_eq!(matrix, [9; 2]);
}

#[test]
fn records() {
    let mut out = [9; PAIR_VALUE_BYTES];
    let pair = PairValueRecord { dealing: 0, sender: 0, receiver: 0, value: 0 };
    assert_eq!(SETUP.write_pair_value(&pair, &mut out), Err(Refusal::DealingNumber));
    assert_eq!(SETUP.write_pair_value(&PairValueRecord { value: 7, ..pair }, &mut out), Err(Refusal::Element));
    assert_eq!(SETUP.write_pair_value(&PairValueRecord { receiver: 3, ..pair }, &mut out), Err(Refusal::Range));
    assert_eq!(out, [9; PAIR_VALUE_BYTES]);

    assert_eq!(SETUP.read_verdict(b"VD\x01\0\x02\0\x02\0"), Err(Refusal::NoVerdict));
    assert_eq!(SETUP.read_verdict(b"VD\x00\0\x02\0\x02\0"), Err(Refusal::DealingNumber));
    assert_eq!(SETUP.read_verdict(b"VD\x00\0\x03\0\x02\0"), Err(Refusal::Range));
    assert_eq!(SETUP.read_verdict(b"VD\x01\0\x02\0\x02"), Err(Refusal::Length));
    assert_eq!(SETUP.read_verdict(b"VE\x01\0\x02\0\x02"), Err(Refusal::Mark));
    assert_eq!(SETUP.read_verdict(b"V"), Err(Refusal::Length));
    assert_eq!(Setup::read_setup(b"SU\x08\0\x01\0\x01\0\x01\0"), Err(Refusal::NoField));
    assert_eq!(Setup::read_setup(b"SU\x07\0\x01\0\x09\0\x01\0"), Err(Refusal::Limits));
    assert_eq!(Setup::read_setup(b"SU\x07\0\x01\0\x01\0\x01\0\x01\0\x02"), Err(Refusal::Length));
    assert_eq!(Setup::read_setup(b"DL"), Err(Refusal::Mark));
    // An SU's elements are tested by the call for its numbers too, after its whole length.
    assert_eq!(Setup::read_setup(b"SU\x07\0\x01\0\x01\0\x01\0\x01\0\x07\0"), Err(Refusal::Element));
    assert_eq!(Setup::read_setup(b"SU\x07\0\x01\0\x01\0\x01\0\x07\0\x02"), Err(Refusal::Length));
    assert_eq!(Setup::read_setup(b"SU\x07\0\x01\0\x01\0\x01\0\x01\0\x06\0"), Ok(Setup { n: 1, ..SETUP }));
    let mut matrix = [9; 2];
    assert_eq!(read_setup_matrix(b"SU\x07\0\x01\0\x01\0\x01\0\x01\0\x07\0", &mut matrix), Err(Refusal::Element));
    assert_eq!(matrix, [9; 2]);
}

#[test]
fn mapped_records() {
    let mut out = [9; PAIR_VALUE_BYTES];
    let pair = PairValueRecord { dealing: 0, sender: 0, receiver: 0, value: 0 };
    assert_eq!(SETUP.write_mapped_pair_value(&pair, &mut out), Err(Refusal::DealingNumber));
    assert_eq!(SETUP.write_mapped_pair_value(&PairValueRecord { value: 7, ..pair }, &mut out), Err(Refusal::Element));
    assert_eq!(SETUP.write_mapped_pair_value(&PairValueRecord { sender: 3, ..pair }, &mut out), Err(Refusal::Range));
    assert_eq!(out, [9; PAIR_VALUE_BYTES]);

    let mut out = [9; 16];
    let mut write = |dealing, holder, phi: &[u16]| {
        let answer = SETUP.write_mapped_dealing(&DealingRecord { dealing, holder }, &[0, 6], &[1, 2], phi, &mut out);
        assert_eq!(out, [9; 16]);
        answer
    };
    assert_eq!(write(0, 3, &[7, 7]), Err(Refusal::Length));
    assert_eq!(write(0, 3, &[7]), Err(Refusal::Element));
    assert_eq!(write(0, 3, &[2]), Err(Refusal::Range));
    assert_eq!(write(0, 1, &[2]), Err(Refusal::DealingNumber));
    // A DL's length is not a DF's.
    let part = DealingRecord { dealing: 1, holder: 1 };
    assert_eq!(SETUP.write_mapped_dealing(&part, &[0, 6], &[1, 2], &[2], &mut [9; 14]), Err(Refusal::Length));

    let (mut g, mut h, mut phi) = ([9; 2], [9; 2], [9]);
    let high = b"DF\x01\0\x01\0\0\0\x06\0\x01\0\x02\0\x07\0";
    assert_eq!(SETUP.read_mapped_dealing(high, &mut g, &mut h, &mut phi), Err(Refusal::Element));
    assert_eq!(SETUP.read_mapped_dealing(&high[..15], &mut g, &mut h, &mut phi), Err(Refusal::Length));
    assert_eq!(SETUP.read_mapped_dealing(high, &mut g, &mut h, &mut [9; 2]), Err(Refusal::Length));
    assert_eq!(SETUP.read_mapped_dealing(b"DL", &mut g, &mut h, &mut phi), Err(Refusal::Mark));
    assert_eq!((g, h, phi), ([9; 2], [9; 2], [9]));
}

#[test]
fn zero_records() {
    let mut out = [9; 12];
    let mut write = |dealing, holder, h: &[u16]| {
        let answer = SETUP.write_zero_dealing(&DealingRecord { dealing, holder }, &[5, 2], h, &mut out);
        assert_eq!(out, [9; 12]);
        answer
    };
    assert_eq!(write(0, 3, &[7, 7]), Err(Refusal::Length));
    assert_eq!(write(0, 3, &[7]), Err(Refusal::Element));
    assert_eq!(write(0, 3, &[3]), Err(Refusal::Range));
    assert_eq!(write(0, 1, &[3]), Err(Refusal::DealingNumber));
    // A DL's length is not a DZ's.
    assert_eq!(SETUP.write_zero_dealing(&DealingRecord { dealing: 1, holder: 1 }, &[5, 2], &[3], &mut [9; 14]), Err(Refusal::Length));

    let (mut g, mut h) = ([9; 2], [9]);
    let high = b"DZ\x01\0\x01\0\x05\0\x02\0\x07\0";
    assert_eq!(SETUP.read_zero_dealing(high, &mut g, &mut h), Err(Refusal::Element));
    assert_eq!(SETUP.read_zero_dealing(&high[..11], &mut g, &mut h), Err(Refusal::Length));
    assert_eq!(SETUP.read_zero_dealing(high, &mut g, &mut [9; 2]), Err(Refusal::Length));
    assert_eq!(SETUP.read_zero_dealing(b"DL", &mut g, &mut h), Err(Refusal::Mark));
    assert_eq!((g, h), ([9; 2], [9]));
}

/// The bytes of an SH that may break the rules: dealing, holder, column, value and round.
fn slip(fields: [u16; 5]) -> Vec<u8> {
    [b"SH".to_vec(), fields.iter().flat_map(|x| x.to_le_bytes()).collect()].concat()
}

/// 21 by each field and by a combination in either record, whatever the rounds and values; 20 at one round only.
#[test]
fn superseding() {
    let setup = Setup { l: 2, ..SETUP };
    let one = slip([9, 1, 1, 3, 5]);
    let with = |first: &[u8], fields| setup.superseding(first, &slip(fields)).map(|found| found.len());
    assert_eq!(with(&one, [9, 1, 1, 3, 5]), Ok(SHARE_BYTES));
    assert_eq!(with(&one, [9, 1, 1, 4, 5]), Err(Refusal::UnequalValues));
    assert_eq!(with(&one, [9, 1, 1, 4, 6]), Ok(SHARE_BYTES));
    for (value, round) in [(3, 5), (4, 5), (3, 6), (4, 4)] {
        for [dealing, holder, column] in [[8, 1, 1], [265, 1, 1], [9, 2, 1], [9, 1, 0], [8, 0, 0], [0, 1, 0]] {
            assert_eq!(with(&one, [dealing, holder, column, value, round]), Err(Refusal::OtherShare));
            assert_eq!(with(&slip([dealing, holder, column, value, round]), [9, 1, 1, 3, 5]), Err(Refusal::OtherShare));
        }
        // Of a combination there is no record that counts, though the two are alike.
        assert_eq!(with(&slip([0, 1, 0, 3, 5]), [0, 1, 0, value, round]), Err(Refusal::OtherShare));
    }
}

/// All that is wrong in the first record comes before all in the second, and both before 21 and 20.
#[test]
fn superseding_in_order() {
    let setup = Setup { l: 2, ..SETUP };
    let one = slip([9, 1, 1, 3, 5]);
    let faulty = [
        (b"S".to_vec(), Refusal::Length),
        (b"DL".to_vec(), Refusal::Mark),
        (one[..11].to_vec(), Refusal::Length),
        (slip([9, 3, 2, 7, 5]), Refusal::Element),
        (slip([9, 3, 1, 3, 5]), Refusal::Range),
        (slip([9, 1, 2, 3, 5]), Refusal::Range),
        (slip([0, 1, 1, 3, 5]), Refusal::Range),
    ];
    let (unequal, other) = (slip([9, 1, 1, 4, 5]), slip([8, 2, 0, 4, 5]));
    for (part, refusal) in &faulty {
        for sound in [&one, &unequal, &other] {
            assert_eq!(setup.superseding(part, sound), Err(*refusal));
            assert_eq!(setup.superseding(sound, part), Err(*refusal));
        }
        for (second, _) in &faulty {
            assert_eq!(setup.superseding(part, second), Err(*refusal));
        }
    }
    for size in 0..SHARE_BYTES {
        assert_eq!(setup.superseding(&one[..size], &one), Err(Refusal::Length));
        assert_eq!(setup.superseding(&one, &one[..size]), Err(Refusal::Length));
    }
    // Nothing behind a record mends it, and nothing behind a sound one spoils it.
    let behind = [&one[..11], &one].concat();
    assert_eq!(setup.superseding(&behind[..11], &one), Err(Refusal::Length));
    assert_eq!(setup.superseding(&[&one[..], b"DL"].concat(), &[&one[..], &[0xff; 12]].concat()), Ok(&one[..]));
}
