//! Board keys: sixteen bytes in, sixteen bytes out, and each refusal.

use mavdrusek::*;

const D: usize = 7;
const ENTRIES: usize = 112;

/// SplitMix64, elements below p.
struct Random(u64);

impl Random {
    fn below(&mut self, p: u16) -> u16 {
        self.0 = self.0.wrapping_add(0x9E3779B97F4A7C15);
        let mut z = self.0;
        z = (z ^ z >> 30).wrapping_mul(0xBF58476D1CE4E5B9);
        z = (z ^ z >> 27).wrapping_mul(0x94D049BB133111EB);
        ((z ^ z >> 31) % p as u64) as u16
    }
    fn elements(&mut self, p: u16, count: usize) -> Vec<u16> {
        (0..count).map(|_| self.below(p)).collect()
    }
    fn key(&mut self) -> Key {
        Key::from_bytes([(); 16].map(|_| self.below(256) as u8))
    }
}

fn matrix() -> [u16; ENTRIES] {
    let mut matrix = [0; ENTRIES];
    BOARD.points(&mut matrix).unwrap();
    matrix
}

fn elements(key: &Key) -> Vec<u16> {
    key.as_bytes().iter().map(|&byte| byte as u16).collect()
}

/// A set's shares of all four columns, by column and then by rising holder.
fn shares(gs: &[u16], set: u32) -> Vec<u16> {
    (0..4).flat_map(|column| (0..16).filter(move |i| set >> i & 1 == 1).map(move |i| gs[i * D + column])).collect()
}

/// Every row part of an array of 16 elements that need not be bytes.
fn dealt(secrets: &[u16], random: &[u16]) -> [u16; ENTRIES] {
    let (mut gs, mut hs) = ([0; ENTRIES], [0; ENTRIES]);
    BOARD.deal_all(&matrix(), secrets, random, &mut gs, &mut hs).unwrap();
    gs
}

/// Without printing a key.
fn opens_to(found: Result<Key, Refusal>, key: &Key) -> bool {
    found.is_ok_and(|found| found == *key)
}

/// Opens shares of round 0.
fn open(set: u32, values: &[u16]) -> Result<Key, Refusal> {
    open_key(set, &Shares { values, rounds: &vec![0; values.len()] })
}

fn refusal(set: u32, shares: &[u16]) -> Option<Refusal> {
    open(set, shares).err()
}

#[test]
fn every_seven_open() {
    let mut r = Random(2014);
    let keys = [Key::from_bytes([0; 16]), Key::from_bytes([255; 16]), Key::from_bytes(*b"sixteen-byte key"), r.key()];
    for (k, key) in keys.iter().enumerate() {
        let random = if k == 1 { vec![256; 33] } else { r.elements(257, 33) };
        let (mut gs, mut hs) = ([9; ENTRIES], [9; ENTRIES]);
        deal_key(key, &random, &mut gs, &mut hs).unwrap();
        let mut sets = 0;
        for set in (0..1u32 << 16).filter(|set| set.count_ones() == 7) {
            assert!(opens_to(open(set, &shares(&gs, set)), key), "set {set:x}");
            sets += 1;
        }
        assert_eq!(sets, 11440);
        for set in [0xff, 0x5555, 0x7fff, 0xfffe, 0xffff] {
            assert!(opens_to(open(set, &shares(&gs, set)), key), "set {set:x}");
        }
    }
}

/// A dealt key is a dealing of its 16 elements, and an opened one four openings.
#[test]
fn as_the_calls_below() {
    let (m, mut r) = (matrix(), Random(257));
    for _ in 0..200 {
        let (key, random) = (r.key(), r.elements(257, 33));
        let (mut gs, mut hs, mut all_gs, mut all_hs) = ([9; ENTRIES], [9; ENTRIES], [8; ENTRIES], [8; ENTRIES]);
        deal_key(&key, &random, &mut gs, &mut hs).unwrap();
        BOARD.deal_all(&m, &elements(&key), &random, &mut all_gs, &mut all_hs).unwrap();
        assert!(gs == all_gs && hs == all_hs);

        let set = r.below(65521) as u32;
        let mut handed = shares(&gs, set);
        if handed.len() > 28 && r.below(2) == 0 {
            let at = r.below(handed.len() as u16) as usize;
            handed[at] = r.below(257);
        }
        let mut opened = vec![];
        for column in handed.chunks(handed.len().max(4) / 4) {
            let mut secrets = [0; 4];
            match BOARD.open(&m, set, &Shares { values: column, rounds: &vec![0; column.len()] }, &mut secrets) {
                Ok(()) => opened.extend(secrets),
                Err(refused) => assert_eq!(refusal(set, &handed), Some(refused)),
            }
        }
        if opened.len() == 16 && !opened.contains(&256) {
            assert!(open(set, &handed).is_ok_and(|found| elements(&found) == opened));
        }
    }
}

/// Each position at 256 alone, and beside a false share.
#[test]
fn no_byte() {
    let mut r = Random(16);
    for at in 0..16 {
        let mut secrets = r.elements(256, 16);
        secrets[at] = 256;
        let gs = dealt(&secrets, &r.elements(257, 33));
        for set in [0x84b5, 0x7f, 0xfe00, 0xff, 0xffff] {
            assert_eq!(refusal(set, &shares(&gs, set)), Some(Refusal::NoByte));
        }
        // 7 in any column comes first.
        for column in 0..4 {
            let mut handed = shares(&gs, 0xff);
            handed[8 * column + at % 8] = (handed[8 * column + at % 8] + 1) % 257;
            assert_eq!(refusal(0xff, &handed), Some(Refusal::Inconsistent));
        }
    }
    let gs = dealt(&[255; 16], &[256; 33]);
    assert!(opens_to(open(0xffff, &shares(&gs, 0xffff)), &Key::from_bytes([255; 16])));
}

/// Each share of sixteen holders made false.
#[test]
fn inconsistent() {
    let mut r = Random(7);
    let gs = dealt(&r.elements(256, 16), &r.elements(257, 33));
    for at in 0..64 {
        let mut handed = shares(&gs, 0xffff);
        handed[at] = (handed[at] + 1 + r.below(256)) % 257;
        assert_eq!(refusal(0xffff, &handed), Some(Refusal::Inconsistent));
    }
}

#[test]
fn undetermined() {
    let mut r = Random(6);
    let gs = dealt(&r.elements(256, 16), &r.elements(257, 33));
    for set in (0..1u32 << 16).filter(|set| set.count_ones() == 6).chain([0, 1, 0x8000, 0x111]) {
        assert_eq!(refusal(set, &shares(&gs, set)), Some(Refusal::Undetermined { position: 0 }));
    }
}

/// Every refusal of a dealing, after which the parts lent are as they were.
#[test]
fn refused_dealings() {
    let key = Key::from_bytes([1; 16]);
    let refused = |random: &[u16], gs_len: usize, hs_len: usize| {
        let (mut gs, mut hs) = (vec![9; gs_len], vec![8; hs_len]);
        let found = deal_key(&key, random, &mut gs, &mut hs).err();
        assert!(gs.iter().all(|&x| x == 9) && hs.iter().all(|&x| x == 8));
        found
    };
    for wrong in [0, 32, 34] {
        assert_eq!(refused(&vec![0; wrong], ENTRIES, ENTRIES), Some(Refusal::Length));
    }
    for wrong in [0, 111, 113] {
        assert_eq!(refused(&[0; 33], wrong, ENTRIES), Some(Refusal::Length));
        assert_eq!(refused(&[0; 33], ENTRIES, wrong), Some(Refusal::Length));
    }
    for at in 0..33 {
        for high in [257, 65535] {
            let mut random = [256; 33];
            random[at] = high;
            assert_eq!(refused(&random, ENTRIES, ENTRIES), Some(Refusal::Element));
            assert_eq!(refused(&random, ENTRIES, 111), Some(Refusal::Length));
        }
    }
}

/// Lengths, elements and sets of an opening, the lowest number first.
#[test]
fn refused_openings() {
    let mut r = Random(3);
    let gs = dealt(&r.elements(256, 16), &r.elements(257, 33));
    for set in [0x84b5, 0x84b4, 0xffff] {
        let handed = shares(&gs, set);
        for wrong in [0, 1, handed.len() / 4, handed.len() - 1, handed.len() - 4] {
            assert_eq!(refusal(set, &handed[..wrong]), Some(Refusal::Length));
        }
        for more in [1, 4] {
            assert_eq!(refusal(set, &[&handed[..], &vec![0; more]].concat()), Some(Refusal::Length));
        }
        for at in 0..handed.len() {
            let mut high = handed.clone();
            high[at] = 257;
            assert_eq!(refusal(set, &high), Some(Refusal::Element));
            assert_eq!(refusal(set, &high[1..]), Some(Refusal::Length));
        }
        // As many shares as there are ones among all 32 bits of the set, four times.
        for bit in 16..32 {
            let wide = [&handed[..], &[0; 4]].concat();
            assert_eq!(refusal(set | 1 << bit, &wide), Some(Refusal::Range));
            assert_eq!(refusal(set | 1 << bit, &handed), Some(Refusal::Length));
            assert_eq!(refusal(set | 1 << bit, &[&handed[..], &[0, 0, 0, 257]].concat()), Some(Refusal::Element));
        }
    }
    assert_eq!(refusal(0, &[]), Some(Refusal::Undetermined { position: 0 }));
    assert_eq!(refusal(0, &[0; 4]), Some(Refusal::Length));
    assert_eq!(refusal(u32::MAX, &[0; 128]), Some(Refusal::Range));
    assert_eq!(refusal(u32::MAX, &[0; 64]), Some(Refusal::Length));
}

/// The four columns may stand at different rounds; one share of a column at another round is refused, before 6, 7 and 16, and after 3, 4 and 5.
#[test]
fn rounds() {
    let mut r = Random(19);
    let key = r.key();
    let gs = dealt(&elements(&key), &r.elements(257, 33));
    for set in [0x84b5u32, 0xff, 0xffff] {
        let (handed, count) = (shares(&gs, set), set.count_ones() as usize);
        let open = |values: &[u16], rounds: &[u16]| open_key(set, &Shares { values, rounds });
        for by_column in [[0; 4], [65535; 4], [0, 1, 65534, 65535], [3, 3, 3, 4]] {
            let rounds: Vec<u16> = by_column.iter().flat_map(|&round| vec![round; count]).collect();
            assert!(opens_to(open(&handed, &rounds), &key));
            for at in 0..4 * count {
                let mut other = rounds.clone();
                other[at] ^= 1;
                assert_eq!(open(&handed, &other).err(), Some(Refusal::Rounds));
                let (mut high, mut lie) = (handed.clone(), handed.clone());
                high[at] = 257;
                lie[at] = (lie[at] + 1) % 257;
                assert_eq!(open(&high, &other).err(), Some(Refusal::Element));
                assert_eq!(open(&lie, &other).err(), Some(Refusal::Rounds));
                assert_eq!(open(&handed, &other[1..]).err(), Some(Refusal::Length));
            }
        }
        let by_holder: Vec<u16> = (0..4 * count).map(|k| (k % count) as u16).collect();
        assert_eq!(open(&handed, &by_holder).err(), Some(Refusal::Rounds));
    }
    let six = [[0; 6], [0; 6], [1; 6], [1, 1, 1, 1, 1, 2]].concat();
    assert_eq!(open_key(0x3f, &Shares { values: &[0; 24], rounds: &six }).err(), Some(Refusal::Rounds));
    assert_eq!(open_key(0x1003f, &Shares { values: &[0; 28], rounds: &[&six[..], &[0; 4]].concat() }).err(), Some(Refusal::Range));
    let gs = dealt(&[256; 16], &[0; 33]);
    let mut rounds = vec![7; 64];
    assert_eq!(open_key(0xffff, &Shares { values: &shares(&gs, 0xffff), rounds: &rounds }).err(), Some(Refusal::NoByte));
    rounds[63] = 8;
    assert_eq!(open_key(0xffff, &Shares { values: &shares(&gs, 0xffff), rounds: &rounds }).err(), Some(Refusal::Rounds));
}

/// A key refreshed once in its first column and twice in its last opens as before.
#[test]
fn refreshed() {
    let (m, mut r) = (matrix(), Random(18));
    let key = r.key();
    let gs = dealt(&elements(&key), &r.elements(257, 33));
    let mut all: Vec<Share> = shares(&gs, 0xffff).into_iter().map(|value| Share { value, round: 0 }).collect();
    for columns in [vec![0, 3], vec![3]] {
        let (mut gs, mut hs) = ([9; ENTRIES], [9; 48]);
        BOARD.deal_zero_all(&m, &r.elements(257, BOARD.zero_random()), &mut gs, &mut hs).unwrap();
        for i in 0..16 {
            let values: Vec<u16> = gs.chunks(D).map(|g| BOARD.pair_value(&m, g, i as u16).unwrap()).collect();
            assert_eq!(BOARD.judge_zero(&m, &hs[3 * i..3 * i + 3], &values), Ok(Judgement::Accept));
            for &b in &columns {
                let fresh = refresh(257, &all[16 * b + i], gs[i * D + b]);
                all[16 * b + i] = fresh.ok().unwrap();
            }
        }
    }
    let (values, rounds): (Vec<u16>, Vec<u16>) = all.iter().map(|share| (share.value, share.round)).unzip();
    assert_eq!((rounds[0], rounds[16], rounds[63]), (1, 0, 2));
    assert!(opens_to(open_key(0xffff, &Shares { values: &values, rounds: &rounds }), &key));
}
