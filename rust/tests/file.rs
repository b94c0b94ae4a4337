//! The holder's file of document 01, 90 bytes, the same with a second dealing tied by a map, that of a zero dealing, and what becomes of them when they are
//! damaged.

use mavdrusek::*;

const SETUP: Setup = Setup { p: 7, l: 1, e: 1, n: 3 };
const MATRIX: [u16; 6] = [6, 2, 5, 3, 4, 4];

/// What holder 1 has of the second dealing: the map and the values received.
struct Second {
    phi: u16,
    values: [u16; 3],
}

/// The second secret is twice the first.
const SECOND: Second = Second { phi: 2, values: [3, 4, 5] };

/// Holder 1's file with these values and verdicts received.
fn file(values: [u16; 3], verdicts: [Verdict; 3]) -> Vec<u8> {
    file_with(values, None, verdicts)
}

/// The same, with a second dealing.
fn mapped_file(values: [u16; 3], second: Second, verdicts: [Verdict; 3]) -> Vec<u8> {
    file_with(values, Some(second), verdicts)
}

fn file_with(values: [u16; 3], second: Option<Second>, verdicts: [Verdict; 3]) -> Vec<u8> {
    let mut bytes = vec![0; SETUP.setup_bytes() + SETUP.dealing_bytes()];
    let (setup, dealing) = bytes.split_at_mut(SETUP.setup_bytes());
    SETUP.write_setup(&MATRIX, setup).unwrap();
    SETUP.write_dealing(&DealingRecord { dealing: 1, holder: 1 }, &[2, 4], &[4, 3], dealing).unwrap();
    if let Some(second) = &second {
        let mut record = vec![0; SETUP.mapped_dealing_bytes()];
        SETUP.write_mapped_dealing(&DealingRecord { dealing: 1, holder: 1 }, &[0, 6], &[1, 2], &[second.phi], &mut record).unwrap();
        bytes.extend(record);
    }
    for (sender, value) in (0..).zip(values) {
        let mut record = [0; PAIR_VALUE_BYTES];
        SETUP.write_pair_value(&PairValueRecord { dealing: 1, sender, receiver: 1, value }, &mut record).unwrap();
        bytes.extend(record);
    }
    for (sender, value) in (0..).zip(second.into_iter().flat_map(|second| second.values)) {
        let mut record = [0; PAIR_VALUE_BYTES];
        SETUP.write_mapped_pair_value(&PairValueRecord { dealing: 1, sender, receiver: 1, value }, &mut record).unwrap();
        bytes.extend(record);
    }
    for (holder, verdict) in (0..).zip(verdicts) {
        let mut record = [0; VERDICT_BYTES];
        SETUP.write_verdict(&VerdictRecord { dealing: 1, holder, verdict }, &mut record).unwrap();
        bytes.extend(record);
    }
    bytes
}

/// Holder 1's file of a zero dealing with the random entries 6, 1.
fn zero_file(values: [u16; 3], verdicts: [Verdict; 3]) -> Vec<u8> {
    let mut record = vec![0; SETUP.zero_dealing_bytes()];
    SETUP.write_zero_dealing(&DealingRecord { dealing: 1, holder: 1 }, &[4, 3], &[5], &mut record).unwrap();
    let plain = file(values, verdicts);
    [&plain[..22], &record, &plain[36..]].concat()
}

/// The shares of the second dealing, where there is one.
fn mapped(found: &FileContents) -> Option<&[u16]> {
    match &found.kind {
        FileKind::Mapped { shares } => Some(shares),
        _ => None,
    }
}

fn contents(file: &[u8]) -> FileContents {
    match read_file(file) {
        Ok(contents) => contents,
        Err(refusal) => panic!("{refusal}"),
    }
}

/// The refusal of a file, as a line of the holder program.
fn refused(file: &[u8]) -> String {
    read_file(file).err().expect("a refusal").to_string()
}

const ACCEPT: [Verdict; 3] = [Verdict::Accept; 3];
const OWN_REJECTS: [Verdict; 3] = [Verdict::Accept, Verdict::Reject, Verdict::Accept];

#[test]
fn sound() {
    let file = file([2, 1, 0], ACCEPT);
    assert_eq!(file.len(), 90);
    let found = contents(&file);
    assert_eq!((found.setup, found.dealing, found.holder), (SETUP, 1, 1));
    assert_eq!((found.judgement, found.outcome), (Judgement::Accept, Outcome::Kept));
    assert!(found.shares == [2] && found.kind == FileKind::Dealing);
    assert_eq!(found.text, "setup 7 1 1 3\ndealing 1 holder 1\nverdict accept\noutcome kept\nshare 0 2\n");
}

#[test]
fn sound_with_a_map() {
    let file = mapped_file([2, 1, 0], SECOND, ACCEPT);
    assert_eq!(file.len(), 136);
    let found = contents(&file);
    assert_eq!((found.setup, found.dealing, found.holder), (SETUP, 1, 1));
    assert_eq!((found.judgement, found.outcome), (Judgement::Accept, Outcome::Kept));
    assert_eq!((&found.shares[..], mapped(&found)), (&[2][..], Some(&[0][..])));
    assert_eq!(found.text, "setup 7 1 1 3\ndealing 1 holder 1\nverdict accept\noutcome kept\nshare 0 2\nmapped 0 0\n");
}

#[test]
fn sound_of_zeros() {
    let file = zero_file([3, 1, 6], ACCEPT);
    assert_eq!(file.len(), 88);
    let found = contents(&file);
    assert_eq!((found.setup, found.dealing, found.holder), (SETUP, 1, 1));
    assert_eq!((found.judgement, found.outcome), (Judgement::Accept, Outcome::Kept));
    assert!(found.shares == [4] && found.kind == FileKind::Zero);
    assert_eq!(found.text, "setup 7 1 1 3\ndealing 1 holder 1\nverdict accept\noutcome kept\nshare 0 4\n");
    // A dealing's values are none of zeros.
    let found = contents(&zero_file([2, 1, 0], OWN_REJECTS));
    assert_eq!((found.judgement, found.outcome), (Judgement::Reject(0), Outcome::Aborted(1)));
    assert!(found.shares.is_empty() && found.kind == FileKind::Zero);
    assert_eq!(refused(&zero_file([2, 1, 0], ACCEPT)), "refused 13 at 88");
}

/// A zero dealing's file has a DZ in the DL's place, and no DL, DF or PF; a dealing's has no DZ.
#[test]
fn one_kind() {
    let (plain, tied, file) = (file([2, 1, 0], ACCEPT), mapped_file([2, 1, 0], SECOND, ACCEPT), zero_file([3, 1, 6], ACCEPT));
    let (dealing, map, pair, zero) = (&tied[22..36], &tied[36..52], &tied[82..92], &file[22..34]);
    for at in [34, 44, 54, 64, 72, 80, 88] {
        for other in [dealing, map, pair] {
            assert_eq!(refused(&[&file[..at], other, &file[at..]].concat()), format!("refused 8 at {at}"));
            assert_eq!(refused(&[&file[..at], &other[..2]].concat()), format!("refused 8 at {at}"));
        }
        assert_eq!(refused(&[&file[..at], b"DZ"].concat()), format!("refused 10 at {at}"));
        assert_eq!(refused(&[&file[..at], b"SU"].concat()), format!("refused 10 at {at}"));
    }
    for at in [36, 46, 56, 66, 74, 82, 90] {
        assert_eq!(refused(&[&plain[..at], zero, &plain[at..]].concat()), format!("refused 8 at {at}"));
    }
    for at in [36, 52, 62, 72, 82, 92, 102, 112, 120, 128, 136] {
        assert_eq!(refused(&[&tied[..at], zero, &tied[at..]].concat()), format!("refused 8 at {at}"));
    }
    assert_eq!(refused(zero), "refused 8 at 0");
    for at in 0..file.len() {
        assert!(read_file(&file[..at]).is_err());
    }
    for (at, byte, refusal, start) in [
        (24, 0, Refusal::DealingNumber, 22),
        (26, 3, Refusal::Range, 22),
        (28, 7, Refusal::Element, 22),
        (32, 7, Refusal::Element, 22),       // h
        (36, 2, Refusal::DealingNumber, 34), // another dealing's PV
        (40, 0, Refusal::Range, 34),         // a PV to holder 0
        (48, 2, Refusal::Order, 44),         // the second PV from holder 2
    ] {
        let mut file = file.clone();
        file[at] = byte;
        assert!(read_file(&file) == Err(FileRefusal { refusal, byte: Some(start) }), "byte {at}: {}", refused(&file));
    }
}

/// The largest sizes: eight shares, with a map as many again, the longest text.
#[test]
fn largest() {
    let setup = Setup { p: 65521, l: 8, e: 8, n: 32 };
    let mut start = vec![0; setup.setup_bytes() + setup.dealing_bytes()];
    let (first, second) = start.split_at_mut(setup.setup_bytes());
    setup.write_setup(&vec![0; setup.entries()], first).unwrap();
    let (g, g2): (Vec<u16>, Vec<u16>) = ((65505..65521).collect(), (65489..65505).collect());
    setup.write_dealing(&DealingRecord { dealing: 65535, holder: 31 }, &g, &[0; 16], second).unwrap();
    let mut map = vec![0; setup.mapped_dealing_bytes()];
    setup.write_mapped_dealing(&DealingRecord { dealing: 65535, holder: 31 }, &g2, &[0; 16], &[65520; 64], &mut map).unwrap();
    let (mut pairs, mut mapped_pairs, mut verdicts) = (vec![], vec![], vec![]);
    for sender in 0..32 {
        let (pair, mut record) = (PairValueRecord { dealing: 65535, sender, receiver: 31, value: 0 }, [0; PAIR_VALUE_BYTES]);
        setup.write_pair_value(&pair, &mut record).unwrap();
        pairs.extend(record);
        setup.write_mapped_pair_value(&pair, &mut record).unwrap();
        mapped_pairs.extend(record);
        let mut record = [0; VERDICT_BYTES];
        setup.write_verdict(&VerdictRecord { dealing: 65535, holder: sender, verdict: Verdict::Accept }, &mut record).unwrap();
        verdicts.extend(record);
    }
    let plain = [&start[..], &pairs, &verdicts].concat();
    let tied = [&start[..], &map, &pairs, &mapped_pairs, &verdicts].concat();
    assert_eq!((plain.len(), tied.len()), (1680, 2198));
    let (found, found2) = (contents(&plain), contents(&tied));
    assert_eq!((found.setup, found.dealing, found.holder), (setup, 65535, 31));
    assert_eq!((&found.shares[..], mapped(&found)), (&g[..8], None));
    assert_eq!((&found2.shares[..], mapped(&found2)), (&g[..8], Some(&g2[..8])));
    let shares: String = (0..8).map(|b| format!("share {b} {}\n", g[b])).collect();
    assert_eq!(found.text, format!("setup 65521 8 8 32\ndealing 65535 holder 31\nverdict accept\noutcome kept\n{shares}"));
    let mapped: String = (0..8).map(|b| format!("mapped {b} {}\n", g2[b])).collect();
    assert_eq!(found2.text, found.text + &mapped);
}

/// The PV by rising sender, then the VD by rising holder: whichever two records change places, the file is refused where the first of them is due.
#[test]
fn one_order() {
    let file = file([2, 1, 0], ACCEPT);
    let records = [&file[36..46], &file[46..56], &file[56..66], &file[66..74], &file[74..82], &file[82..90]];
    let places = [36, 46, 56, 66, 74, 82];
    for first in 0..6 {
        for second in first + 1..6 {
            let mut turned = records;
            turned.swap(first, second);
            let turned = [&file[..36], &turned.concat()].concat();
            assert!(read_file(&turned) == Err(FileRefusal { refusal: Refusal::Order, byte: Some(places[first]) }));
        }
    }
    // A PV or VD again is 10 and not 17, also where all are there.
    assert_eq!(refused(&[&file[..56], records[0]].concat()), "refused 10 at 56");
    for again in records {
        assert_eq!(refused(&[&file[..], again].concat()), "refused 10 at 90");
    }
    // 12 comes before 17: a verdict of 2 where a PV is due.
    assert_eq!(refused(&[&file[..46], b"VD\x01\0\x02\0\x02\0"].concat()), "refused 12 at 46");
}

/// With a DF the PF come between the PV and the VD. A DF stands right behind the DL or nowhere, and without one no PF does.
#[test]
fn one_order_with_a_map() {
    let (plain, file) = (file([2, 1, 0], ACCEPT), mapped_file([2, 1, 0], SECOND, ACCEPT));
    let places = [52, 62, 72, 82, 92, 102, 112, 120, 128, 136];
    let records: Vec<&[u8]> = places.windows(2).map(|x| &file[x[0]..x[1]]).collect();
    for first in 0..9 {
        for second in first + 1..9 {
            let mut turned = records.clone();
            turned.swap(first, second);
            let turned = [&file[..52], &turned.concat()].concat();
            assert_eq!(refused(&turned), format!("refused 17 at {}", places[first]));
        }
        assert_eq!(refused(&[&file[..], records[first]].concat()), "refused 10 at 136");
        assert_eq!(refused(&file[..places[first]]), format!("refused 11 at {}", places[first]));
    }
    let (dealing, map) = (&file[22..36], &file[36..52]);
    assert_eq!(refused(&[&plain[..22], map, dealing].concat()), "refused 8 at 22");
    for at in [46, 56, 66, 74, 82, 90] {
        assert_eq!(refused(&[&plain[..at], map, &plain[at..]].concat()), format!("refused 8 at {at}"));
    }
    for at in places {
        assert_eq!(refused(&[&file[..at], b"DF"].concat()), format!("refused 10 at {at}"));
        assert_eq!(refused(&[&file[..at], dealing].concat()), format!("refused 10 at {at}"));
    }
    assert_eq!(refused(&[&plain[..66], records[3]].concat()), "refused 8 at 66");
}

#[test]
fn last_verdict_gone() {
    let short = &file([2, 1, 0], ACCEPT)[..82];
    assert!(read_file(short) == Err(FileRefusal { refusal: Refusal::Missing, byte: Some(82) }));
    assert_eq!(refused(short), "refused 11 at 82");
}

#[test]
fn another_value() {
    let found = contents(&file([3, 1, 0], OWN_REJECTS));
    assert_eq!((found.judgement, found.outcome), (Judgement::Reject(0), Outcome::Aborted(1)));
    assert_eq!(found.shares, []);
    assert_eq!(found.text, "setup 7 1 1 3\ndealing 1 holder 1\nverdict reject 0\noutcome aborted 1\n");
    assert!(read_file(&file([3, 1, 0], ACCEPT)) == Err(FileRefusal { refusal: Refusal::OwnVerdict, byte: Some(90) }));
}

/// The lowest sender wrong in either dealing is named, and the map only where none is.
#[test]
fn another_map() {
    for (values, second, judgement, said) in [
        ([2, 1, 0], Second { phi: 3, ..SECOND }, Judgement::RejectMap, "map"),
        ([2, 1, 0], Second { phi: 3, values: [3, 4, 6] }, Judgement::Reject(2), "2"),
        ([2, 2, 0], Second { phi: 2, values: [3, 4, 6] }, Judgement::Reject(1), "1"),
        ([2, 1, 1], Second { phi: 2, values: [4, 4, 5] }, Judgement::Reject(0), "0"),
    ] {
        let mut file = mapped_file(values, second, OWN_REJECTS);
        let found = contents(&file);
        assert_eq!((found.judgement, found.outcome), (judgement, Outcome::Aborted(1)));
        assert_eq!((&found.shares[..], mapped(&found)), (&[][..], Some(&[][..])));
        assert_eq!(found.text, format!("setup 7 1 1 3\ndealing 1 holder 1\nverdict reject {said}\noutcome aborted 1\n"));
        file[126] = 1; // the own verdict
        assert_eq!(refused(&file), "refused 13 at 136");
    }
}

/// Another holder's rejection: the own judgement accepts, the outcome is aborted.
#[test]
fn aborted() {
    let found = contents(&file([2, 1, 0], [Verdict::Accept, Verdict::Accept, Verdict::Reject]));
    assert_eq!((found.judgement, found.outcome), (Judgement::Accept, Outcome::Aborted(2)));
    assert_eq!(found.shares, []);
}

#[test]
fn damaged() {
    let sound = file([2, 1, 0], ACCEPT);
    for (at, byte, refusal, start) in [
        (0, 0, Refusal::Mark, 0),
        (2, 8, Refusal::NoField, 0),
        (4, 9, Refusal::Limits, 0),
        (10, 7, Refusal::Element, 0),
        (24, 0, Refusal::DealingNumber, 22),
        (26, 3, Refusal::Range, 22),
        (42, 0, Refusal::Range, 36),         // a PV to holder 0
        (48, 2, Refusal::DealingNumber, 46), // another dealing's PV
        (50, 0, Refusal::Repeated, 46),      // the second PV from holder 0 again
        (72, 2, Refusal::NoVerdict, 66),
    ] {
        let mut file = sound.clone();
        file[at] = byte;
        assert!(read_file(&file) == Err(FileRefusal { refusal, byte: Some(start) }), "byte {at}: {}", refused(&file));
        assert_eq!(refused(&file), format!("refused {} at {start}", refusal.number()));
    }
    let sound_with_a_map = mapped_file([2, 1, 0], SECOND, ACCEPT);
    for (at, byte, refusal, start) in [
        (38, 2, Refusal::DealingNumber, 36), // another dealing's DF
        (40, 0, Refusal::Range, 36),         // holder 0's DF
        (42, 7, Refusal::Element, 36),
        (48, 7, Refusal::Element, 36),
        (50, 7, Refusal::Element, 36),       // φ
        (84, 2, Refusal::DealingNumber, 82), // another dealing's PF
        (88, 0, Refusal::Range, 82),         // a PF to holder 0
        (90, 7, Refusal::Element, 82),
        (96, 0, Refusal::Repeated, 92), // the second PF from holder 0 again
    ] {
        let mut file = sound_with_a_map.clone();
        file[at] = byte;
        assert!(read_file(&file) == Err(FileRefusal { refusal, byte: Some(start) }), "byte {at}: {}", refused(&file));
    }
    assert_eq!(refused(&sound_with_a_map[..51]), "refused 3 at 36");
    assert_eq!(refused(&sound[..89]), "refused 3 at 82");
    assert_eq!(refused(&[&sound[..], b"S"].concat()), "refused 3 at 90");
}

/// A file beyond 4,096 bytes is refused by its length, at no byte; one of just as many is looked at.
#[test]
fn too_long() {
    assert!(read_file(&[0; MOST_FILE_BYTES + 1]) == Err(FileRefusal { refusal: Refusal::Length, byte: None }));
    assert_eq!(refused(&[0; MOST_FILE_BYTES + 1]), "refused 3: a file has at most 4096 bytes");
    assert_eq!(refused(&[0; MOST_FILE_BYTES]), "refused 8 at 0");
}
