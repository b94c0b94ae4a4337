//! Each record is written, read back as itself, and has the bytes that document 01 gives it; bytes behind a record are not looked at.

use mavdrusek::*;

const SETUP: Setup = Setup { p: 257, l: 2, e: 1, n: 4 };

fn matrix() -> Vec<u16> {
    let mut matrix = vec![0; SETUP.entries()];
    SETUP.points(&mut matrix).unwrap();
    matrix
}

fn followed(record: &[u8]) -> Vec<u8> {
    [record, b"behind it"].concat()
}

#[test]
fn setup() {
    let matrix = matrix();
    let mut out = vec![0; SETUP.setup_bytes()];
    SETUP.write_setup(&matrix, &mut out).unwrap();
    assert_eq!(&out[..10], b"SU\x01\x01\x02\0\x01\0\x04\0");
    for part in [out.clone(), followed(&out)] {
        assert_eq!(Setup::read_setup(&part), Ok(SETUP));
        let mut back = vec![0; SETUP.entries()];
        assert_eq!(read_setup_matrix(&part, &mut back), Ok(()));
        assert_eq!(back, matrix);
    }
}

#[test]
fn dealing() {
    let record = DealingRecord { dealing: 65535, holder: 3 };
    let (g, h) = ([0, 1, 256], [255, 128, 7]);
    let mut out = vec![0; SETUP.dealing_bytes()];
    SETUP.write_dealing(&record, &g, &h, &mut out).unwrap();
    assert_eq!(out, b"DL\xff\xff\x03\0\0\0\x01\0\0\x01\xff\0\x80\0\x07\0");
    for part in [out.clone(), followed(&out)] {
        let (mut back_g, mut back_h) = ([9; 3], [9; 3]);
        assert_eq!(SETUP.read_dealing(&part, &mut back_g, &mut back_h), Ok(record));
        assert_eq!((back_g, back_h), (g, h));
    }
    assert_eq!(SETUP.read_dealing(&out[..17], &mut [9; 3], &mut [9; 3]), Err(Refusal::Length));
}

#[test]
fn mapped_dealing() {
    let record = DealingRecord { dealing: 65535, holder: 3 };
    let (g, h, phi) = ([0, 1, 256], [255, 128, 7], [256, 0, 1, 2]);
    let mut out = vec![0; SETUP.mapped_dealing_bytes()];
    SETUP.write_mapped_dealing(&record, &g, &h, &phi, &mut out).unwrap();
    assert_eq!(out, b"DF\xff\xff\x03\0\0\0\x01\0\0\x01\xff\0\x80\0\x07\0\0\x01\0\0\x01\0\x02\0");
    for part in [out.clone(), followed(&out)] {
        let (mut back_g, mut back_h, mut back_phi) = ([9; 3], [9; 3], [9; 4]);
        assert_eq!(SETUP.read_mapped_dealing(&part, &mut back_g, &mut back_h, &mut back_phi), Ok(record));
        assert_eq!((back_g, back_h, back_phi), (g, h, phi));
    }
    assert_eq!(SETUP.read_mapped_dealing(&out[..25], &mut [9; 3], &mut [9; 3], &mut [9; 4]), Err(Refusal::Length));
    assert_eq!(SETUP.read_dealing(&out, &mut [9; 3], &mut [9; 3]), Err(Refusal::Mark));
}

#[test]
fn mapped_pair_value() {
    let record = PairValueRecord { dealing: 1, sender: 2, receiver: 3, value: 256 };
    let mut out = [0; PAIR_VALUE_BYTES];
    SETUP.write_mapped_pair_value(&record, &mut out).unwrap();
    assert_eq!(&out, b"PF\x01\0\x02\0\x03\0\0\x01");
    assert!(SETUP.read_mapped_pair_value(&out) == Ok(record.clone()));
    assert!(SETUP.read_mapped_pair_value(&followed(&out)) == Ok(record));
    assert_eq!(SETUP.read_pair_value(&out).err(), Some(Refusal::Mark));
}

#[test]
fn pair_value() {
    for value in [0, 1, 255, 256] {
        let record = PairValueRecord { dealing: 1, sender: 2, receiver: 3, value };
        let mut out = [0; PAIR_VALUE_BYTES];
        SETUP.write_pair_value(&record, &mut out).unwrap();
        assert_eq!(&out[..8], b"PV\x01\0\x02\0\x03\0");
        assert!(SETUP.read_pair_value(&out) == Ok(record.clone()));
        assert!(SETUP.read_pair_value(&followed(&out)) == Ok(record));
    }
}

#[test]
fn verdict() {
    for verdict in [Verdict::Accept, Verdict::Reject] {
        let record = VerdictRecord { dealing: 258, holder: 3, verdict };
        let mut out = [0; VERDICT_BYTES];
        SETUP.write_verdict(&record, &mut out).unwrap();
        assert_eq!(out, [b'V', b'D', 2, 1, 3, 0, verdict as u8, 0]);
        assert_eq!(SETUP.read_verdict(&out), Ok(record));
        assert_eq!(SETUP.read_verdict(&followed(&out)), Ok(record));
    }
}

#[test]
fn zero_dealing() {
    let record = DealingRecord { dealing: 65535, holder: 3 };
    let (g, h) = ([0, 1, 256], [255]);
    let mut out = vec![0; SETUP.zero_dealing_bytes()];
    SETUP.write_zero_dealing(&record, &g, &h, &mut out).unwrap();
    assert_eq!(out, b"DZ\xff\xff\x03\0\0\0\x01\0\0\x01\xff\0");
    for part in [out.clone(), followed(&out)] {
        let (mut back_g, mut back_h) = ([9; 3], [9]);
        assert_eq!(SETUP.read_zero_dealing(&part, &mut back_g, &mut back_h), Ok(record));
        assert_eq!((back_g, back_h), (g, h));
    }
    assert_eq!(SETUP.read_zero_dealing(&out[..13], &mut [9; 3], &mut [9]), Err(Refusal::Length));
    assert_eq!(SETUP.read_dealing(&out, &mut [9; 3], &mut [9; 3]), Err(Refusal::Mark));
}

#[test]
fn share() {
    for round in [0, 1, 258, 65534, 65535] {
        for record in [
            ShareRecord { dealing: 9, holder: 3, column: 1, value: 256, round },
            ShareRecord { dealing: 0, holder: 0, column: 0, value: 5, round },
        ] {
            let mut out = [0; SHARE_BYTES];
            SETUP.write_share(&record, &mut out).unwrap();
            assert_eq!(&out[..4], &[b'S', b'H', record.dealing as u8, 0]);
            assert_eq!(&out[10..], round.to_le_bytes());
            assert!(SETUP.read_share(&out) == Ok(record.clone()));
            assert!(SETUP.read_share(&followed(&out)) == Ok(record));
            // without a round, and with half of one
            assert_eq!(SETUP.read_share(&out[..10]).err(), Some(Refusal::Length));
            assert_eq!(SETUP.read_share(&out[..11]).err(), Some(Refusal::Length));
        }
    }
}

fn slip(value: u16, round: u16) -> [u8; SHARE_BYTES] {
    let mut out = [0; SHARE_BYTES];
    SETUP.write_share(&ShareRecord { dealing: 9, holder: 3, column: 1, value, round }, &mut out).unwrap();
    out
}

/// What supersedes is given where it stands: as the first bytes of the slice that was lent.
fn supersedes(first: &[u8], second: &[u8], expected: &[u8]) {
    let found = SETUP.superseding(first, second).unwrap();
    assert_eq!((found.as_ptr(), found.len()), (expected.as_ptr(), SHARE_BYTES));
}

#[test]
fn superseding() {
    for (before, after) in [(0, 1), (255, 256), (0, 65535), (65534, 65535)] {
        for value in [0, 256] {
            let (old, new) = (slip(256, before), slip(value, after));
            let (longer_old, longer_new) = (followed(&old), followed(&new));
            for (old, new) in [(&old[..], &new[..]), (&longer_old, &new), (&old, &longer_new), (&longer_old, &longer_new)] {
                supersedes(old, new, new);
                supersedes(new, old, new);
            }
        }
    }
    // Two that are alike: the first.
    let (one, same) = (slip(5, 2), slip(5, 2));
    supersedes(&one, &same, &one);
    supersedes(&same, &one, &same);
    supersedes(&one, &one, &one);
}

/// A newer record behind the first is no record of the call, unless it is lent as the second.
#[test]
fn superseding_behind() {
    let both = [slip(5, 2), slip(6, 3)].concat();
    supersedes(&both, &slip(4, 1), &both);
    supersedes(&both, &both[..SHARE_BYTES], &both);
    supersedes(&both, &both[SHARE_BYTES..], &both[SHARE_BYTES..]);
    assert_eq!(SETUP.superseding(&both, &[]), Err(Refusal::Length));
}

/// Three drawers come to one record, whichever two are settled first.
#[test]
fn superseding_of_three() {
    for [a, b, c] in [[1, 2, 3], [1, 3, 2], [2, 1, 3], [2, 3, 1], [3, 1, 2], [3, 2, 1], [1, 1, 2], [2, 1, 1], [2, 1, 2], [2, 2, 2]] {
        let [a, b, c] = [a, b, c].map(|round| slip(10 * round, round));
        let left = SETUP.superseding(SETUP.superseding(&a, &b).unwrap(), &c).unwrap();
        let right = SETUP.superseding(&a, SETUP.superseding(&b, &c).unwrap()).unwrap();
        assert_eq!(left.as_ptr(), right.as_ptr());
    }
}

/// Types that carry keys, shares or pair values are neither printed by `{:?}` nor copied in passing.
#[test]
fn not_printed_not_copied() {
    // Where a type is Debug or Copy more than one of these applies, and the lines below do not compile.
    trait Neither<A> {
        fn neither() {}
    }
    impl<T> Neither<()> for T {}
    impl<T: std::fmt::Debug> Neither<u8> for T {}
    impl<T: Copy> Neither<u16> for T {}
    <PairValueRecord as Neither<_>>::neither();
    <ShareRecord as Neither<_>>::neither();
    <Share as Neither<_>>::neither();
    <Shares as Neither<_>>::neither();
    <FileContents as Neither<_>>::neither();
    <FileKind as Neither<_>>::neither();
    <Key as Neither<_>>::neither();
    <MappedSecrets as Neither<_>>::neither();
    <MappedParts as Neither<_>>::neither();
}
