//! The worked example of document 01: p 7, ℓ 1, e 1, n 3, points rows (6,2), (5,3), (4,4), F rows (3,1), (5,2).

use mavdrusek::{
    combine, refresh, Judgement, MappedParts, MappedSecrets, Outcome, Refusal, Rehearsal, SetJudgement, SetKind, Setup, Share, Shares,
    Verdict, PRIMES,
};

const SETUP: Setup = Setup { p: 7, l: 1, e: 1, n: 3 };
const MATRIX: [u16; 6] = [6, 2, 5, 3, 4, 4];
const GS: [u16; 6] = [0, 3, 2, 4, 4, 5];
const HS: [u16; 6] = [6, 6, 4, 3, 2, 0];

/// The second dealing, by the map 2 and the second random entries 4, 1: F_φ has the rows (6,2), (4,1).
const DEALT: MappedSecrets = MappedSecrets { secrets: &[3], random: &[1, 5, 2], phi: &[2], random2: &[4, 1] };
const GS2: [u16; 6] = [2, 0, 0, 6, 5, 5];
const HS2: [u16; 6] = [5, 5, 1, 2, 4, 6];

/// A zero dealing by the random entries 6, 1: its F has the rows (0,0), (6,1).
const ZERO_GS: [u16; 6] = [5, 2, 4, 3, 3, 4];
const ZERO_HS: [u16; 3] = [3, 5, 0];

#[test]
fn points() {
    let mut matrix = [9; 6];
    assert_eq!(SETUP.points(&mut matrix), Ok(()));
    assert_eq!(matrix, MATRIX);
}

#[test]
fn parts() {
    let (mut gs, mut hs) = ([9; 6], [9; 6]);
    assert_eq!(SETUP.deal_all(&MATRIX, &[3], &[1, 5, 2], &mut gs, &mut hs), Ok(()));
    assert_eq!((gs, hs), (GS, HS));
    for i in 0..3 {
        let (mut g, mut h) = ([9; 2], [9; 2]);
        assert_eq!(SETUP.deal(&MATRIX, &[3], &[1, 5, 2], i as u16, &mut g, &mut h), Ok(()));
        assert_eq!((&g[..], &h[..]), (&GS[2 * i..2 * i + 2], &HS[2 * i..2 * i + 2]));
    }
    assert_eq!(SETUP.rehearse(&MATRIX, &GS, &HS), Ok(Rehearsal::Fair));
}

#[test]
fn pair_values_and_judgement() {
    let values: Vec<u16> = GS.chunks(2).map(|g| SETUP.pair_value(&MATRIX, g, 1).unwrap()).collect();
    assert_eq!(values, [2, 1, 0]);
    assert_eq!(SETUP.judge(&MATRIX, &HS[2..4], &values), Ok(Judgement::Accept));
    assert_eq!(SETUP.judge(&MATRIX, &HS[2..4], &[3, 1, 0]), Ok(Judgement::Reject(0)));
    assert_eq!(SETUP.judge(&MATRIX, &HS[2..4], &[2, 1, 1]), Ok(Judgement::Reject(2)));
}

#[test]
fn mapped_parts() {
    let (mut gs, mut hs, mut gs2, mut hs2) = ([9; 6], [9; 6], [9; 6], [9; 6]);
    let parts = MappedParts { g: &mut gs, h: &mut hs, g2: &mut gs2, h2: &mut hs2 };
    assert_eq!(SETUP.deal_mapped_all(&MATRIX, &DEALT, parts), Ok(()));
    assert_eq!((gs, hs, gs2, hs2), (GS, HS, GS2, HS2));
    for i in 0..3 {
        let (mut g, mut h, mut g2, mut h2) = ([9; 2], [9; 2], [9; 2], [9; 2]);
        let parts = MappedParts { g: &mut g, h: &mut h, g2: &mut g2, h2: &mut h2 };
        assert_eq!(SETUP.deal_mapped(&MATRIX, &DEALT, i as u16, parts), Ok(()));
        let part = 2 * i..2 * i + 2;
        assert_eq!((&g[..], &h[..]), (&GS[part.clone()], &HS[part.clone()]));
        assert_eq!((&g2[..], &h2[..]), (&GS2[part.clone()], &HS2[part]));
    }
    assert_eq!(SETUP.rehearse(&MATRIX, &GS2, &HS2), Ok(Rehearsal::Fair));
}

/// Holder 1 on both dealings: the lowest sender wrong in either, and the map only where no sender is.
#[test]
fn mapped_judgement() {
    let values: Vec<u16> = GS2.chunks(2).map(|g| SETUP.pair_value(&MATRIX, g, 1).unwrap()).collect();
    assert_eq!(values, [3, 4, 5]);
    let judge = |values, phi, values2| SETUP.judge_mapped(&MATRIX, &HS[2..4], values, &[phi], &HS2[2..4], values2);
    assert_eq!(judge(&[2, 1, 0], 2, &[3, 4, 5]), Ok(Judgement::Accept));
    assert_eq!(judge(&[2, 1, 0], 3, &[3, 4, 5]), Ok(Judgement::RejectMap));
    assert_eq!(judge(&[2, 1, 1], 2, &[3, 4, 5]), Ok(Judgement::Reject(2)));
    assert_eq!(judge(&[2, 1, 0], 2, &[3, 5, 5]), Ok(Judgement::Reject(1)));
    assert_eq!(judge(&[2, 1, 1], 3, &[3, 5, 5]), Ok(Judgement::Reject(1)));
    assert_eq!(judge(&[3, 1, 0], 3, &[3, 5, 5]), Ok(Judgement::Reject(0)));
    assert_eq!(Judgement::RejectMap.verdict(), Verdict::Reject);
}

/// A map that is not symmetric: every column of the second opens to φ times that column of the first.
#[test]
fn mapped_columns() {
    let setup = Setup { p: 257, l: 2, e: 1, n: 4 };
    let mut matrix = vec![0; setup.entries()];
    setup.points(&mut matrix).unwrap();
    // columns (10, 20) and (30, 40), and the map (x, y) to (2x + 3y, 5y)
    let dealt = MappedSecrets { secrets: &[10, 20, 30, 40], random: &[1, 2, 3, 4, 5], phi: &[2, 3, 0, 5], random2: &[6, 7, 8] };
    let [mut gs, mut hs, mut gs2, mut hs2] = [[0; 12]; 4];
    setup.deal_mapped_all(&matrix, &dealt, MappedParts { g: &mut gs, h: &mut hs, g2: &mut gs2, h2: &mut hs2 }).unwrap();
    for (b, first, second) in [(0, [10, 20], [80, 100]), (1, [30, 40], [180, 200])] {
        let open = |gs: &[u16]| {
            let (shares, mut secrets) = ([gs[b], gs[6 + b], gs[9 + b]], [0; 2]);
            setup.open(&matrix, 0b1101, &Shares { values: &shares, rounds: &[4; 3] }, &mut secrets).map(|()| secrets)
        };
        assert_eq!((open(&gs), open(&gs2)), (Ok(first), Ok(second)));
    }
    for i in 0..4 {
        let received = |gs: &[u16]| gs.chunks(3).map(|g| setup.pair_value(&matrix, g, i as u16).unwrap()).collect::<Vec<_>>();
        let (h, h2) = (&hs[3 * i..][..3], &hs2[3 * i..][..3]);
        let judge = |phi| setup.judge_mapped(&matrix, h, &received(&gs), phi, h2, &received(&gs2));
        assert_eq!((judge(&[2, 3, 0, 5]), judge(&[2, 0, 3, 5])), (Ok(Judgement::Accept), Ok(Judgement::RejectMap)));
    }
}

#[test]
fn outcomes() {
    let mut share = [9];
    assert_eq!(SETUP.outcome(&GS[2..4], &[Verdict::Accept; 3], &mut share), Ok(Outcome::Kept));
    assert_eq!(share, [2]);
    let mut share = [9];
    let said = [Verdict::Accept, Verdict::Reject, Verdict::Reject];
    assert_eq!(SETUP.outcome(&GS[2..4], &said, &mut share), Ok(Outcome::Aborted(1)));
    assert_eq!(share, [9]);
}

#[test]
fn rehearsal_names_the_first_pair() {
    let mut gs = GS;
    gs[4] = 5; // holder 2's row part
    assert_eq!(SETUP.rehearse(&MATRIX, &gs, &HS), Ok(Rehearsal::Disagree { checker: 0, sender: 2 }));
    let mut hs = HS;
    hs[3] = 4; // holder 1's column part
    assert_eq!(SETUP.rehearse(&MATRIX, &GS, &hs), Ok(Rehearsal::Disagree { checker: 1, sender: 0 }));
}

/// The judgement of a set at a position, and the first entries of its buffer; those behind them are 0.
fn judged(setup: Setup, matrix: &[u16], set: u32, position: u16, entries: usize) -> (SetKind, u16, Vec<u16>) {
    let mut out = [9; 32];
    let SetJudgement { kind, steps } = setup.judge_set(matrix, set, position, &mut out).unwrap();
    assert!(out[entries..].iter().all(|&x| x == 0));
    (kind, steps, out[..entries].to_vec())
}

/// Opens shares of round 0.
fn open(set: u32, shares: &[u16]) -> Result<u16, Refusal> {
    open_at(set, shares, &vec![0; shares.len()])
}

fn open_at(set: u32, values: &[u16], rounds: &[u16]) -> Result<u16, Refusal> {
    let mut secret = [9];
    let answer = SETUP.open(&MATRIX, set, &Shares { values, rounds }, &mut secret);
    if answer.is_err() {
        assert_eq!(secret, [9]);
    }
    answer.map(|()| secret[0])
}

#[test]
fn openings() {
    assert_eq!(open(0b101, &[0, 4]), Ok(3));
    assert_eq!(open(0b111, &[0, 2, 4]), Ok(3));
    assert_eq!(open(0b111, &[0, 2, 5]), Err(Refusal::Inconsistent));
    assert_eq!(open(0b001, &[0]), Err(Refusal::Undetermined { position: 0 }));
    assert_eq!(open(0, &[]), Err(Refusal::Undetermined { position: 0 }));
}

/// With the row (1, 0) the share is the secret: one holder opens, though e is 1.
#[test]
fn unit_row() {
    let setup = Setup { p: 7, l: 1, e: 1, n: 1 };
    let mut secret = [9];
    assert_eq!(setup.private(&[1, 0], 0b1), Ok(false));
    assert_eq!(judged(setup, &[1, 0], 0b1, 0, 1), (SetKind::Row, 0, vec![1]));
    let shares = Shares { values: &[5], rounds: &[65535] };
    assert_eq!((setup.open(&[1, 0], 0b1, &shares, &mut secret), secret), (Ok(()), [5]));
}

/// A supplier's matrix with the row (1, 0, .., 0): holder 0 reads position 0 and no other, so that it is not private, though e is 3, and another is.
#[test]
fn supplied_matrix() {
    let setup = Setup { p: 257, l: 4, e: 3, n: 2 };
    let matrix = [1, 0, 0, 0, 0, 0, 0, 12, 34, 56, 78, 90, 123, 200];
    let private = [0b00, 0b01, 0b10, 0b11].map(|set| setup.private(&matrix, set));
    assert_eq!(private, [Ok(true), Ok(false), Ok(true), Ok(false)]);
    let judged = [0, 1, 2, 3].map(|position| setup.judge_set(&matrix, 0b01, position, &mut [9; 32]).unwrap());
    assert_eq!(judged.map(|x| x.kind), [SetKind::Row, SetKind::Vector, SetKind::Vector, SetKind::Vector]);
    assert_eq!(judged.map(|x| x.steps), [0; 4]);
}

/// A false share of holder 2: beside holder 1 alone it opens to a false secret, beside two honest openers it is refused.
#[test]
fn honest_openers() {
    assert_eq!(open(0b110, &[2, 4]), Ok(3));
    assert_eq!(open(0b110, &[2, 5]), Ok(0));
    assert_eq!(open(0b111, &[0, 2, 5]), Err(Refusal::Inconsistent));
}

/// The value and the round of a combination of shares of these rounds.
fn combined(p: u16, constants: &[u16], values: &[u16], rounds: &[u16]) -> Result<(u16, u16), Refusal> {
    combine(p, constants, &Shares { values, rounds }).map(|share| (share.value, share.round))
}

#[test]
fn combinations() {
    let doubled: Vec<u16> = [0, 2, 4].iter().map(|&share| combined(7, &[2], &[share], &[0]).unwrap().0).collect();
    assert_eq!(doubled, [0, 4, 1]);
    assert_eq!(open(0b111, &doubled), Ok(6));
    assert_eq!(combined(7, &[1, 6, 3], &[5, 2, 4], &[65535; 3]), Ok((1, 65535)));
    // 5 + 12 + 12 = 29
}

/// The parts of the zero dealing, to all and to each; holder 1's judgement of it; the same values are not those of a dealing.
#[test]
fn zero_dealing() {
    let (mut gs, mut hs) = ([9; 6], [9; 3]);
    assert_eq!(SETUP.deal_zero_all(&MATRIX, &[6, 1], &mut gs, &mut hs), Ok(()));
    assert_eq!((gs, hs), (ZERO_GS, ZERO_HS));
    for i in 0..3 {
        let (mut g, mut h) = ([9; 2], [9]);
        assert_eq!(SETUP.deal_zero(&MATRIX, &[6, 1], i as u16, &mut g, &mut h), Ok(()));
        assert_eq!((&g[..], h[0]), (&ZERO_GS[2 * i..2 * i + 2], ZERO_HS[i]));
    }
    let values: Vec<u16> = ZERO_GS.chunks(2).map(|g| SETUP.pair_value(&MATRIX, g, 1).unwrap()).collect();
    assert_eq!(values, [3, 1, 6]);
    assert_eq!(SETUP.judge_zero(&MATRIX, &[5], &values), Ok(Judgement::Accept));
    assert_eq!(SETUP.judge_zero(&MATRIX, &[5], &[3, 2, 0]), Ok(Judgement::Reject(1)));
    assert_eq!(SETUP.judge_zero(&MATRIX, &[4], &values), Ok(Judgement::Reject(0)));
    // The dealing of the secret 3 is none of zeros, whatever h it comes with.
    for h in 0..7 {
        assert!(matches!(SETUP.judge_zero(&MATRIX, &[h], &[2, 1, 0]), Ok(Judgement::Reject(_))));
    }
    for set in [0b011, 0b101, 0b110, 0b111u32] {
        let shares: Vec<u16> = (0..3).filter(|i| set >> i & 1 == 1).map(|i| ZERO_GS[2 * i]).collect();
        assert_eq!(open(set, &shares), Ok(0));
    }
}

/// Fresh shares open to the old secret, at their own round only: each old share among them is refused by its round, and under theirs as a false one.
#[test]
fn refreshed() {
    let old = [0, 2, 4];
    for round in [0, 1, 65534] {
        let fresh = [0, 1, 2].map(|i| refresh(7, &Share { value: old[i], round }, ZERO_GS[2 * i]).unwrap());
        assert!(fresh.iter().all(|share| share.round == round + 1));
        let values = fresh.map(|share| share.value);
        assert_eq!(values, [5, 6, 0]);
        assert_eq!(open_at(0b111, &values, &[round + 1; 3]), Ok(3));
        assert_eq!(open_at(0b101, &[values[0], values[2]], &[round + 1; 2]), Ok(3));
        for at in 0..3 {
            let (mut mixed, mut rounds) = (values, [round + 1; 3]);
            (mixed[at], rounds[at]) = (old[at], round);
            assert_eq!(open_at(0b111, &mixed, &rounds), Err(Refusal::Rounds));
            assert_eq!(open_at(0b111, &mixed, &[round; 3]), Err(Refusal::Inconsistent));
        }
    }
    assert!(refresh(7, &Share { value: 0, round: 65535 }, 0) == Err(Refusal::LastRound));
    // a combination of fresh shares, and of a fresh and an old one
    assert_eq!(combined(7, &[2, 3], &[5, 5], &[1, 1]), Ok((4, 1)));
    assert_eq!(combined(7, &[2, 3], &[5, 0], &[1, 0]), Err(Refusal::Rounds));
}

/// 19 comes after 5 and before 6 and 7.
#[test]
fn rounds() {
    assert_eq!(open_at(0b111, &[0, 2, 4], &[9, 9, 9]), Ok(3));
    for rounds in [[8, 9, 9], [9, 8, 9], [9, 9, 8], [9, 9, 10], [0, 0, 65535]] {
        assert_eq!(open_at(0b111, &[0, 2, 4], &rounds), Err(Refusal::Rounds));
        assert_eq!(open_at(0b111, &[0, 2, 5], &rounds), Err(Refusal::Rounds));
        assert_eq!(open_at(0b111, &[0, 2, 7], &rounds), Err(Refusal::Element));
        assert_eq!(open_at(0b1011, &[0, 2, 4], &rounds), Err(Refusal::Range));
        assert_eq!(open_at(0b111, &[0, 2, 4], &rounds[..2]), Err(Refusal::Length));
        assert_eq!(combined(7, &[1; 3], &[0, 2, 4], &rounds), Err(Refusal::Rounds));
    }
    // two holders that determine nothing
    let (setup, matrix) = (Setup { p: 7, l: 1, e: 2, n: 2 }, [1, 1, 0, 1, 0, 1]);
    let open = |rounds: &[u16]| setup.open(&matrix, 0b11, &Shares { values: &[0, 0], rounds }, &mut [9]);
    assert_eq!((open(&[1, 1]), open(&[1, 2])), (Err(Refusal::Undetermined { position: 0 }), Err(Refusal::Rounds)));
}

/// The sum of no columns: its share is 0 over every field, and every set that determines the secret opens it to 0, whatever was lent. A liar beside such
/// a set is refused.
#[test]
fn no_columns() {
    for p in PRIMES {
        assert_eq!(combined(p, &[], &[], &[]), Ok((0, 0)));
    }
    let (share, _) = combined(7, &[], &[], &[]).unwrap();
    for set in [0b011, 0b101, 0b110, 0b111u32] {
        assert_eq!(open(set, &vec![share; set.count_ones() as usize]), Ok(0));
    }
    assert_eq!(open(0b001, &[share]), Err(Refusal::Undetermined { position: 0 }));
    assert_eq!(open(0b111, &[share, share, 1]), Err(Refusal::Inconsistent));
}

#[test]
fn sets() {
    assert_eq!(judged(SETUP, &MATRIX, 0b101, 0, 2), (SetKind::Row, 2, vec![2, 6]));
    assert_eq!(judged(SETUP, &MATRIX, 0b001, 0, 2), (SetKind::Vector, 1, vec![1, 4]));
    assert_eq!(SETUP.determines(&MATRIX, 0b101), Ok(true));
    assert_eq!(SETUP.determines(&MATRIX, 0b001), Ok(false));
    assert_eq!(SETUP.private(&MATRIX, 0b001), Ok(true));
    assert_eq!(SETUP.private(&MATRIX, 0b101), Ok(false));
}

/// The row of each set of two or more. The third row is a combination of the first two, so that holder 2 has 0 beside them. On a points matrix the steps are
/// the smaller of k and d, times d − 1.
#[test]
fn rows() {
    assert_eq!(judged(SETUP, &MATRIX, 0b111, 0, 3), (SetKind::Row, 2, vec![3, 5, 0]));
    assert_eq!(judged(SETUP, &MATRIX, 0b011, 0, 2), (SetKind::Row, 2, vec![3, 5]));
    assert_eq!(judged(SETUP, &MATRIX, 0b110, 0, 2), (SetKind::Row, 2, vec![4, 4]));
    for (set, steps) in [(0b000, 0), (0b001, 1), (0b010, 1), (0b100, 1)] {
        let judgement = SETUP.judge_set(&MATRIX, set, 0, &mut [9; 32]);
        assert_eq!(judgement, Ok(SetJudgement { kind: SetKind::Vector, steps }));
    }
}

/// Holders whose row is a combination of lower members' rows have 0 in the set's row: a zero row, a repeated one, a multiple and a sum. Beside (1, 1, 1)
/// alone, the sum (2, 1, 1) is none. Each of the two pivots takes 2 steps.
#[test]
fn tied_rows() {
    let setup = Setup { p: 7, l: 2, e: 1, n: 6 };
    let matrix = [0, 0, 0, 1, 1, 1, 1, 1, 1, 1, 0, 0, 3, 3, 3, 2, 1, 1];
    assert_eq!(judged(setup, &matrix, 0b111111, 0, 6), (SetKind::Row, 4, vec![0, 0, 0, 1, 0, 0]));
    assert_eq!(judged(setup, &matrix, 0b110110, 0, 4), (SetKind::Row, 4, vec![6, 0, 0, 1]));
    assert_eq!(judged(setup, &matrix, 0b111111, 1, 3), (SetKind::Vector, 4, vec![0, 1, 6]));
}

#[test]
fn neither() {
    let setup = Setup { p: 7, l: 2, e: 1, n: 1 };
    assert_eq!((setup.private(&[1, 1, 0], 0b1), setup.determines(&[1, 1, 0], 0b1)), (Ok(false), Ok(false)));
    for position in 0..2 {
        assert_eq!(judged(setup, &[1, 1, 0], 0b1, position, 0), (SetKind::Neither, 1, vec![]));
    }
}

#[test]
fn limits() {
    let with = |l: u16, n: u16| {
        let setup = Setup { p: 257, l, e: 1, n };
        setup.points(&mut vec![0; setup.entries()])
    };
    assert_eq!((with(8, 1), with(9, 1)), (Ok(()), Err(Refusal::Limits)));
    assert_eq!((with(1, 32), with(1, 33)), (Ok(()), Err(Refusal::Limits)));
    assert_eq!((combined(7, &[6], &[6], &[7]), combined(7, &[6], &[7], &[7])), (Ok((1, 7)), Err(Refusal::Element)));
    let points = |n: u16| Setup { n, ..SETUP }.points(&mut vec![0; 2 * n as usize]);
    assert_eq!((points(5), points(6)), (Ok(()), Err(Refusal::TooFewPoints)));
}
