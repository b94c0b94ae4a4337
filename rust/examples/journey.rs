//! The journey of one board key: dealt to 16 holders, judged by all of them, kept, combined, opened by seven, its shares refreshed by a zero dealing and
//! opened again, two slips for one share settled; then a dealer that lies; then twin boards, whose keys are tied by a public map; then door timings, numbers
//! below zero as well. Each step says what it found and stops the program if that is not what it should be (`cargo run --offline --example journey`).

use mavdrusek::*;

/// The setup of every board key: p 257, l 4, e 3, n 16.
const SETUP: Setup = BOARD;
const D: usize = 7;
const E: usize = 3;
const HOLDERS: u16 = 16;

/// The map of twin boards: position k of the twin's column is row k of it times the column.
const PHI: [u16; 16] = [1, 2, 0, 0, 0, 1, 3, 0, 0, 0, 1, 4, 5, 0, 0, 1];

/// The parts that a holder of twin boards has of the second.
struct Twin<'a> {
    gs: &'a [u16],
    hs: &'a [u16],
}

/// A fixed generator, so that the example prints the same each time. A real dealer must draw each entry evenly below p from a secure source:
/// whoever can guess the random entries learns the key from a single part.
struct Source(u64);

impl Source {
    fn drawn_below(&mut self, p: u16, count: usize) -> Vec<u16> {
        let mut next = || {
            self.0 = self.0.wrapping_mul(6364136223846793005).wrapping_add(1442695040888963407);
            ((self.0 >> 33) % p as u64) as u16
        };
        (0..count).map(|_| next()).collect()
    }

    fn drawn(&mut self, count: usize) -> Vec<u16> {
        self.drawn_below(SETUP.p, count)
    }
}

/// Every holder's four shares.
type All = [[u16; 4]; 16];

fn part(parts: &[u16], holder: u16) -> &[u16] {
    &parts[holder as usize * D..][..D]
}

/// The values that a holder receives, one from everyone, itself included.
fn received(matrix: &[u16], gs: &[u16], holder: u16) -> Result<Vec<u16>, Refusal> {
    (0..HOLDERS).map(|sender| SETUP.pair_value(matrix, part(gs, sender), holder)).collect()
}

/// Everyone's judgement on the parts as they were dealt.
fn judgements(matrix: &[u16], gs: &[u16], hs: &[u16]) -> Result<Vec<Judgement>, Refusal> {
    (0..HOLDERS).map(|i| SETUP.judge(matrix, part(hs, i), &received(matrix, gs, i)?)).collect()
}

/// Everyone's judgement of both dealings of twin boards.
fn judgements_mapped(matrix: &[u16], gs: &[u16], hs: &[u16], twin: &Twin) -> Result<Vec<Judgement>, Refusal> {
    let judge = |i| {
        let (values, values2) = (received(matrix, gs, i)?, received(matrix, twin.gs, i)?);
        SETUP.judge_mapped(matrix, part(hs, i), &values, &PHI, part(twin.hs, i), &values2)
    };
    (0..HOLDERS).map(judge).collect()
}

/// Everyone's judgement of a zero dealing; a column part has e entries.
fn judgements_zero(matrix: &[u16], gs: &[u16], hs: &[u16]) -> Result<Vec<Judgement>, Refusal> {
    (0..HOLDERS).map(|i| SETUP.judge_zero(matrix, &hs[i as usize * E..][..E], &received(matrix, gs, i)?)).collect()
}

fn verdicts(found: &[Judgement]) -> Vec<Verdict> {
    found.iter().map(|j| j.verdict()).collect()
}

/// What a set hands in to open a key, shares or their rounds: those of column 0 by rising holder, then those of columns 1, 2 and 3.
fn handed(all: &All, set: u32) -> Vec<u16> {
    (0..4).flat_map(|b| (0..16).filter(move |i| set >> i & 1 == 1).map(move |i| all[i][b])).collect()
}

/// Opens a key by the holders in a set, from the shares of all and their rounds.
fn opened(shares: &All, rounds: &All, set: u32) -> Result<Key, Refusal> {
    open_key(set, &Shares { values: &handed(shares, set), rounds: &handed(rounds, set) })
}

/// What a holder's file is made of besides its part: the part of the second of twin boards, or nothing; of a zero dealing the part has a short h.
enum Of<'a> {
    Key,
    Twins(&'a Twin<'a>),
    Zeros,
}

/// A holder's file: the setup, its part, the values it received and everyone's verdict; of twin boards also the part of the second with the map, and the
/// values received in it.
fn file(matrix: &[u16], gs: &[u16], hs: &[u16], of: Of, said: &[Verdict], holder: u16) -> Result<Vec<u8>, Refusal> {
    let mut bytes = vec![0; SETUP.setup_bytes()];
    SETUP.write_setup(matrix, &mut bytes)?;
    let dealing = if matches!(of, Of::Zeros) { 2 } else { 1 };
    let numbers = DealingRecord { dealing, holder };
    if let Of::Zeros = of {
        let mut record = vec![0; SETUP.zero_dealing_bytes()];
        SETUP.write_zero_dealing(&numbers, part(gs, holder), &hs[holder as usize * E..][..E], &mut record)?;
        bytes.extend(record);
    } else {
        let mut record = vec![0; SETUP.dealing_bytes()];
        SETUP.write_dealing(&numbers, part(gs, holder), part(hs, holder), &mut record)?;
        bytes.extend(record);
    }
    if let Of::Twins(twin) = of {
        let mut record = vec![0; SETUP.mapped_dealing_bytes()];
        SETUP.write_mapped_dealing(&numbers, part(twin.gs, holder), part(twin.hs, holder), &PHI, &mut record)?;
        bytes.extend(record);
    }
    for (sender, value) in (0..).zip(received(matrix, gs, holder)?) {
        let mut record = [0; PAIR_VALUE_BYTES];
        SETUP.write_pair_value(&PairValueRecord { dealing, sender, receiver: holder, value }, &mut record)?;
        bytes.extend(record);
    }
    if let Of::Twins(twin) = of {
        for (sender, value) in (0..).zip(received(matrix, twin.gs, holder)?) {
            let mut record = [0; PAIR_VALUE_BYTES];
            SETUP.write_mapped_pair_value(&PairValueRecord { dealing, sender, receiver: holder, value }, &mut record)?;
            bytes.extend(record);
        }
    }
    for (holder, &verdict) in (0..).zip(said) {
        let mut record = [0; VERDICT_BYTES];
        SETUP.write_verdict(&VerdictRecord { dealing, holder, verdict }, &mut record)?;
        bytes.extend(record);
    }
    Ok(bytes)
}

/// Reads a file back and prints its text.
fn print_file(bytes: &[u8]) -> Result<FileContents, Refusal> {
    let found = read_file(bytes).map_err(|refused| refused.refusal)?;
    assert_eq!((found.setup, found.dealing), (SETUP, if found.kind == FileKind::Zero { 2 } else { 1 }));
    assert_eq!((found.judgement, found.outcome), (Judgement::Accept, Outcome::Kept));
    let text: String = found.text.lines().map(|line| format!("    {line}\n")).collect();
    print!("holder {}'s file prints\n{text}", found.holder);
    Ok(found)
}

/// Opens a column of a new dealing, at round 0, by the holders in a set, from the shares of all.
fn open_column(matrix: &[u16], set: u32, shares: &All, b: usize) -> Result<[u16; 4], Refusal> {
    let handed: Vec<u16> = (0..16).filter(|i| set >> i & 1 == 1).map(|i| shares[i][b]).collect();
    let mut column = [0; 4];
    SETUP.open(matrix, set, &Shares { values: &handed, rounds: &vec![0; handed.len()] }, &mut column)?;
    Ok(column)
}

/// Numbers with a space between them.
fn spaced<T: ToString>(numbers: &[T]) -> String {
    numbers.iter().map(T::to_string).collect::<Vec<_>>().join(" ")
}

/// Fresh shares for old drawers: a zero dealing, whose columns all open to zeros, is dealt, judged and added to the key's shares. The key stays, and what was
/// copied from a drawer before no longer goes with the shares of the others.
fn refresh_shares(matrix: &[u16], key: &Key, seven: u32, shares: &mut All, rounds: &mut All, source: &mut Source) -> Result<(), Refusal> {
    let (mut gs, mut hs) = (vec![0; SETUP.entries()], vec![0; SETUP.zero_columns()]);
    SETUP.deal_zero_all(matrix, &source.drawn(SETUP.zero_random()), &mut gs, &mut hs)?;
    let found = judgements_zero(matrix, &gs, &hs)?;
    assert_eq!(found, vec![Judgement::Accept; 16]);
    let (said, mut zeros) = (verdicts(&found), [[0; 4]; 16]);
    for i in 0..HOLDERS {
        assert_eq!(SETUP.outcome(part(&gs, i), &said, &mut zeros[i as usize])?, Outcome::Kept);
    }
    println!("zeros dealt to {HOLDERS} holders: all accept");
    let contents = print_file(&file(matrix, &gs, &hs, Of::Zeros, &said, 3)?)?;
    assert!(contents.kind == FileKind::Zero && contents.shares == zeros[3]);

    // Every holder adds its zero share of each column; one copy of a share is left in a drawer.
    let copied = Share { value: shares[5][0], round: rounds[5][0] };
    for i in 0..16 {
        for b in 0..4 {
            let fresh = refresh(SETUP.p, &Share { value: shares[i][b], round: rounds[i][b] }, zeros[i][b])?;
            assert_eq!(fresh.round, 1);
            (shares[i][b], rounds[i][b]) = (fresh.value, fresh.round);
        }
    }
    let again = opened(shares, rounds, seven)?;
    assert!(again == *key);
    let text = String::from_utf8_lossy(again.as_bytes());
    println!("refreshed: holder 3's shares at round {} are {:?}; opened by seven: \"{text}\"", rounds[3][0], shares[3]);

    // Two slips for one share in a drawer, the copied one and the fresh one: the fresh one supersedes, whichever comes first.
    let slip = |value, round| {
        let mut record = [0; SHARE_BYTES];
        SETUP.write_share(&ShareRecord { dealing: 1, holder: 5, column: 0, value, round }, &mut record).map(|()| record)
    };
    let (old_slip, fresh_slip) = (slip(copied.value, copied.round)?, slip(shares[5][0], rounds[5][0])?);
    assert!(SETUP.superseding(&old_slip, &fresh_slip)? == fresh_slip);
    assert!(SETUP.superseding(&fresh_slip, &old_slip)? == fresh_slip);
    println!("two slips for holder 5's share of column 0: the one at round {} supersedes", rounds[5][0]);

    // The copied share among the fresh ones: its round is another, and under their round it is a false share.
    let (mut mixed, mut mixed_rounds) = (*shares, *rounds);
    (mixed[5][0], mixed_rounds[5][0]) = (copied.value, copied.round);
    let refused = opened(&mixed, &mixed_rounds, 0xff).err();
    assert_eq!(refused, Some(Refusal::Rounds));
    assert_eq!(opened(&mixed, rounds, 0xff).err(), Some(Refusal::Inconsistent));
    println!("an old share among eight: {}; under the new round it is refused as a false one", Refusal::Rounds);

    // A dealer that lies about the zeros: one entry of holder 5's row part is changed.
    SETUP.deal_zero_all(matrix, &source.drawn(SETUP.zero_random()), &mut gs, &mut hs)?;
    gs[5 * D] = (gs[5 * D] + 1) % 257;
    let found = judgements_zero(matrix, &gs, &hs)?;
    assert_eq!(found, vec![Judgement::Reject(5); 16]);
    assert_eq!(SETUP.outcome(part(&gs, 0), &verdicts(&found), &mut zeros[0])?, Outcome::Aborted(0));
    println!("a lie in holder 5's zeros: everyone rejects and names 5; aborted by holder 0");
    Ok(())
}

/// Twin boards: two keys tied by a public map are dealt together, and the holders check the map as well.
fn twin_boards(matrix: &[u16], dealt: &[u16], seven: u32, source: &mut Source) -> Result<(), Refusal> {
    let (random, random2) = (source.drawn(SETUP.random()), source.drawn(SETUP.random2()));
    let secrets = MappedSecrets { secrets: dealt, random: &random, phi: &PHI, random2: &random2 };
    let [mut gs, mut hs, mut gs2, mut hs2] = [[0; 112]; 4];
    SETUP.deal_mapped_all(matrix, &secrets, MappedParts { g: &mut gs, h: &mut hs, g2: &mut gs2, h2: &mut hs2 })?;
    let twin = Twin { gs: &gs2, hs: &hs2 };
    let found = judgements_mapped(matrix, &gs, &hs, &twin)?;
    assert_eq!(found, vec![Judgement::Accept; 16]);
    let said = verdicts(&found);
    let (mut shares, mut shares2) = ([[0; 4]; 16], [[0; 4]; 16]);
    for i in 0..HOLDERS {
        assert_eq!(SETUP.outcome(part(&gs, i), &said, &mut shares[i as usize])?, Outcome::Kept);
        assert_eq!(SETUP.outcome(part(&gs2, i), &said, &mut shares2[i as usize])?, Outcome::Kept);
    }
    println!("twin boards: two keys tied by a map dealt to {HOLDERS} holders; all accept both and the map");
    let contents = print_file(&file(matrix, &gs, &hs, Of::Twins(&twin), &said, 3)?)?;
    assert!(contents.shares == shares[3] && contents.kind == FileKind::Mapped { shares: shares2[3].to_vec() });

    // Seven open a column of both: the second is the map of the first.
    let (column, second) = (open_column(matrix, seven, &shares, 1)?, open_column(matrix, seven, &shares2, 1)?);
    assert_eq!(column, dealt[4..8]);
    for k in 0..4 {
        let image = combine(257, &PHI[4 * k..4 * k + 4], &Shares { values: &column, rounds: &[0; 4] })?;
        assert_eq!(second[k], image.value);
    }
    println!("opened by seven: column 1 is {}, the twin's is its map, {}", spaced(&column), spaced(&second));

    // A dealer whose second dealing is sound, but of another key than the map gives: all values agree, and the check of the map fails.
    SETUP.deal_all(matrix, dealt, &source.drawn(SETUP.random()), &mut gs2, &mut hs2)?;
    let found = judgements_mapped(matrix, &gs, &hs, &Twin { gs: &gs2, hs: &hs2 })?;
    assert_eq!(found, vec![Judgement::RejectMap; 16]);
    assert_eq!(SETUP.outcome(part(&gs2, 0), &verdicts(&found), &mut shares2[0])?, Outcome::Aborted(0));
    println!("a twin's key that is not the map: everyone says reject map; aborted by holder 0");
    Ok(())
}

/// Door timings: corrections in hundredths of a second, below zero as well, held as field elements, dealt, combined with signed constants and opened.
fn door_timings(source: &mut Source) -> Result<(), Refusal> {
    // Three doors on three days, dealt to seven holders, of whom any five open.
    let setup = Setup { p: CORRECTION_PRIME, l: 3, e: 2, n: 7 };
    let corrections = [120, -45, -16380, -3000, 20000, 0, 32760, -32760, 1];
    let (mut held, mut points) = ([0; 9], vec![0; setup.entries()]);
    setup.points(&mut points)?;
    hold_corrections(setup.p, &corrections, &mut held)?;
    assert_eq!(held[1], 65476);
    let (mut gs, mut hs) = (points.clone(), points.clone());
    setup.deal_all(&points, &held, &source.drawn_below(setup.p, setup.random()), &mut gs, &mut hs)?;
    assert_eq!(setup.rehearse(&points, &gs, &hs)?, Rehearsal::Fair);
    println!("door timings: corrections of three doors on three days dealt to 7 holders; {} is held as {}", corrections[1], held[1]);

    // Five of them open twice the first day less the second. Their shares are at round 0.
    let five: u32 = 0b110_1101;
    let (mut combined, mut at_round) = (vec![], vec![]);
    for g in (0..7).filter(|i| five >> i & 1 == 1).map(|i| &gs[i * setup.d()..]) {
        let share = combine_signed(setup.p, &[2, -1], &Shares { values: &g[..2], rounds: &[0, 0] })?;
        combined.push(share.value);
        at_round.push(share.round);
    }
    let handed = Shares { values: &combined, rounds: &at_round };
    let mut opened = [0; 3];
    setup.open_signed(&points, five, &handed, &mut opened)?;
    for k in 0..3 {
        assert_eq!(opened[k], 2 * corrections[k] - corrections[3 + k]);
    }
    println!("opened by five: 2 * day 0 - day 1 is {}", spaced(&opened));
    // The same from the elements that a plain opening gives.
    let (mut elements, mut read) = ([0; 3], [0; 3]);
    setup.open(&points, five, &handed, &mut elements)?;
    read_corrections(setup.p, &elements, &mut read)?;
    assert_eq!(read, opened);

    // One hundredth beyond the range is refused, as a correction and as a constant.
    let beyond = MOST_CORRECTION + 1;
    assert_eq!(hold_corrections(setup.p, &[beyond], &mut held[..1]), Err(Refusal::Correction));
    assert_eq!(held[0], 120);
    let refused = combine_signed(setup.p, &[beyond], &Shares { values: &gs[..1], rounds: &[0] }).err();
    assert_eq!(refused, Some(Refusal::Correction));
    println!("a correction of {beyond}: {}", Refusal::Correction);
    Ok(())
}

pub fn main() -> Result<(), Refusal> {
    // The matrix of board keys, a points matrix, which dealing and opening have built in: any 7 holders determine the key, any 3 are private.
    let mut matrix = vec![0; SETUP.entries()];
    SETUP.points(&mut matrix)?;
    println!("points matrix: {} rows of {D}", HOLDERS);

    // The dealer: a key of 16 bytes as four columns of four.
    let (key, mut source) = (Key::from_bytes(*b"sixteen-byte key"), Source(2014));
    let (mut gs, mut hs) = (vec![0; SETUP.entries()], vec![0; SETUP.entries()]);
    deal_key(&key, &source.drawn(SETUP.random()), &mut gs, &mut hs)?;
    assert_eq!(SETUP.rehearse(&matrix, &gs, &hs)?, Rehearsal::Fair);
    println!("dealt: four columns to {HOLDERS} holders; the rehearsal is fair");

    // The holders: everyone sends everyone a value, judges what it received, and says its verdict.
    let found = judgements(&matrix, &gs, &hs)?;
    assert_eq!(found, vec![Judgement::Accept; 16]);
    let said = verdicts(&found);
    println!("judged: all {HOLDERS} accept");

    // Everyone accepts, so everyone keeps its four shares. The holders of a new dealing agree on its round, here 0.
    let (mut shares, mut rounds) = ([[0; 4]; 16], [[0; 4]; 16]);
    for i in 0..HOLDERS {
        assert_eq!(SETUP.outcome(part(&gs, i), &said, &mut shares[i as usize])?, Outcome::Kept);
    }
    println!("kept: holder 3's shares are {:?}", shares[3]);

    // Holder 3's file, read back.
    let mut bytes = file(&matrix, &gs, &hs, Of::Key, &said, 3)?;
    let found = print_file(&bytes)?;
    assert!(found.holder == 3 && found.shares == shares[3] && found.kind == FileKind::Dealing);
    assert!(found.text.starts_with("setup 257 4 3 16\ndealing 1 holder 3\nverdict accept\noutcome kept\nshare 0 "));
    // A value of p in its first PV, the record behind SU and DL.
    let start = SETUP.setup_bytes() + SETUP.dealing_bytes();
    bytes[start + 8..start + 10].copy_from_slice(&SETUP.p.to_le_bytes());
    let refused = read_file(&bytes).err().expect("a damaged file is refused");
    assert_eq!(refused, FileRefusal { refusal: Refusal::Element, byte: Some(start) });
    println!("the same with a value of 257: {refused}");

    // Seven holders open: first a combination of two columns, 3 times column 0 and 5 times column 2, then the key.
    let seven: u32 = 0b1000_0100_1011_0101;
    let openers: Vec<usize> = (0..16).filter(|i| seven >> i & 1 == 1).collect();
    assert!(SETUP.determines(&matrix, seven)?);
    let (mut combined, mut at_round) = (vec![], vec![]);
    for &i in &openers {
        let share = combine(257, &[3, 5], &Shares { values: &[shares[i][0], shares[i][2]], rounds: &[rounds[i][0], rounds[i][2]] })?;
        combined.push(share.value);
        at_round.push(share.round);
    }
    assert_eq!(at_round, [0; 7]);
    let mut column = [0; 4];
    SETUP.open(&matrix, seven, &Shares { values: &combined, rounds: &at_round }, &mut column)?;
    let dealt: Vec<u16> = key.as_bytes().iter().map(|&byte| byte as u16).collect();
    for k in 0..4 {
        assert_eq!(column[k], (3 * dealt[k] + 5 * dealt[8 + k]) % 257);
    }
    println!("combined: 3 * column 0 + 5 * column 2 opens to {column:?}");
    // The seven's row for position 0, as it is copied onto a card: applied to the combination's shares it gives that position.
    let mut row = [0; SET_ENTRIES];
    assert_eq!(SETUP.judge_set(&matrix, seven, 0, &mut row)?, SetJudgement { kind: SetKind::Row, steps: 42 });
    assert_eq!(combine(257, &row[..7], &Shares { values: &combined, rounds: &at_round })?.value, column[0]);
    println!("the seven's row for position 0: {:?}, after 42 row steps", &row[..7]);
    let found = opened(&shares, &rounds, seven)?;
    assert!(found == key);
    println!("opened by holders {openers:?}: \"{}\"", String::from_utf8_lossy(found.as_bytes()));

    refresh_shares(&matrix, &key, seven, &mut shares, &mut rounds, &mut source)?;

    // Six of them cannot, three are private (a sweeping vector for every position), and a changed share among eight is noticed.
    let six = seven & (seven - 1);
    assert_eq!(opened(&shares, &rounds, six).err(), Some(Refusal::Undetermined { position: 0 }));
    assert!(SETUP.private(&matrix, 0b111)?);
    for position in 0..4 {
        let judgement = SETUP.judge_set(&matrix, 0b111, position, &mut [0; SET_ENTRIES])?;
        assert_eq!(judgement, SetJudgement { kind: SetKind::Vector, steps: 18 });
    }
    let mut changed = shares;
    changed[5][0] = (changed[5][0] + 1) % 257;
    assert_eq!(opened(&changed, &rounds, 0xff).err(), Some(Refusal::Inconsistent));
    println!("six cannot open, three are private, a changed share among eight is refused");

    // A dealer that lies: one entry of holder 5's row part is changed.
    let mut false_gs = gs.clone();
    false_gs[5 * D + 2] = (false_gs[5 * D + 2] + 1) % 257;
    let found = judgements(&matrix, &false_gs, &hs)?;
    assert_eq!(found, vec![Judgement::Reject(5); 16]);
    let mut none = [0; 4];
    assert_eq!(SETUP.outcome(part(&false_gs, 5), &verdicts(&found), &mut none)?, Outcome::Aborted(0));
    assert_eq!(none, [0; 4]);
    assert_eq!(SETUP.rehearse(&matrix, &false_gs, &hs)?, Rehearsal::Disagree { checker: 0, sender: 5 });
    println!("a lie in holder 5's row: everyone rejects and names 5; aborted by holder 0");

    // The same in holder 9's column part: holder 9 alone notices, and that is enough.
    let mut false_hs = hs.clone();
    false_hs[9 * D] = (false_hs[9 * D] + 1) % 257;
    let found = judgements(&matrix, &gs, &false_hs)?;
    let rejecting: Vec<usize> = (0..16).filter(|&i| found[i] != Judgement::Accept).collect();
    assert_eq!((rejecting, found[9]), (vec![9], Judgement::Reject(0)));
    assert_eq!(SETUP.outcome(part(&gs, 0), &verdicts(&found), &mut none)?, Outcome::Aborted(9));
    println!("a lie in holder 9's column: holder 9 rejects and names 0; aborted by holder 9");

    // A dealer that deals 256 where a byte belongs, with new random entries, as each dealing needs: every holder accepts, for the parts agree, but what
    // opens is no key.
    let mut array = dealt.clone();
    array[6] = 256;
    SETUP.deal_all(&matrix, &array, &source.drawn(SETUP.random()), &mut gs, &mut hs)?;
    assert_eq!(judgements(&matrix, &gs, &hs)?, vec![Judgement::Accept; 16]);
    for i in 0..HOLDERS {
        assert_eq!(SETUP.outcome(part(&gs, i), &said, &mut shares[i as usize])?, Outcome::Kept);
    }
    assert_eq!(opened(&shares, &[[0; 4]; 16], 0xffff).err(), Some(Refusal::NoByte));
    println!("256 dealt for a byte: all accept; opened by all, it is no key: {}", Refusal::NoByte);

    twin_boards(&matrix, &dealt, seven, &mut source)?;
    door_timings(&mut source)
}
