//! The compiled library against the reference, in one process, on fresh random inputs: `compare CALLS [SEED]` compares CALLS calls and a fifth as many
//! files. Each difference is printed with its input; the last line says how many were compared and how many differ.

#[allow(dead_code)]
mod cases;
#[allow(dead_code)]
mod draw;
use cases::*;
use draw::*;
use reference::{holder_file, is_of_kind, points, read_file, CONTENTS, TEXT};

/// The functions of include/mavdrusek.h.
#[path = "../rust/src/raw.rs"]
mod library;
use library::*;

/// What the compiled library makes of a case.
fn ours(case: &Case) -> After {
    let set = case.set();
    let Case { call, numbers: x, mut words, mut bytes } = case.clone();
    let [p, l, e, n, ..] = x;
    let mut places = [UNTOUCHED; 5];
    let [a, b, c, d, f] = &mut places;
    let (part, part_len) = (bytes.as_mut_ptr(), bytes.len());
    // Every pointer comes with the length of the vector behind it, and no two vectors overlap.
    let number = unsafe {
        match (call, &mut words[..]) {
            (0, [m]) => mavdrusek_points(p, l, e, n, m.as_mut_ptr(), m.len()),
            (1, [m, s, r, g, h]) => mavdrusek_deal(
                p, l, e, n, m.as_ptr(), m.len(), s.as_ptr(), s.len(), r.as_ptr(), r.len(), x[4], g.as_mut_ptr(), g.len(), h.as_mut_ptr(), h.len(),
            ),
            (2, [m, s, r, g, h]) => mavdrusek_deal_all(
                p, l, e, n, m.as_ptr(), m.len(), s.as_ptr(), s.len(), r.as_ptr(), r.len(), g.as_mut_ptr(), g.len(), h.as_mut_ptr(), h.len(),
            ),
            (3, [m, g]) => mavdrusek_pair_value(p, l, e, n, m.as_ptr(), m.len(), g.as_ptr(), g.len(), x[4], a),
            (4, [m, h, v]) => mavdrusek_judge(p, l, e, n, m.as_ptr(), m.len(), h.as_ptr(), h.len(), v.as_ptr(), v.len(), a, b),
            (5, [g, v, s]) => mavdrusek_outcome(p, l, e, n, g.as_ptr(), g.len(), v.as_ptr(), v.len(), s.as_mut_ptr(), s.len(), a, b),
            (6, [m, g, h]) => mavdrusek_rehearse(p, l, e, n, m.as_ptr(), m.len(), g.as_ptr(), g.len(), h.as_ptr(), h.len(), a, b, c),
            (7, [k, s, r]) => mavdrusek_combine(p, k.as_ptr(), k.len(), s.as_ptr(), s.len(), r.as_ptr(), r.len(), a, b),
            (8, [m, out]) => mavdrusek_judge_set(p, l, e, n, m.as_ptr(), m.len(), set, x[6], out.as_mut_ptr(), out.len(), a, b),
            (9, [m]) => mavdrusek_determines(p, l, e, n, m.as_ptr(), m.len(), set, a),
            (10, [m]) => mavdrusek_private(p, l, e, n, m.as_ptr(), m.len(), set, a),
            (11, [m, s, r, out]) => mavdrusek_open(
                p, l, e, n, m.as_ptr(), m.len(), set, s.as_ptr(), s.len(), r.as_ptr(), r.len(), out.as_mut_ptr(), out.len(), a,
            ),
            (13, [m]) => mavdrusek_write_setup(p, l, e, n, m.as_ptr(), m.len(), part, part_len),
            (14, [g, h]) => mavdrusek_write_dealing(p, l, e, n, x[4], x[5], g.as_ptr(), g.len(), h.as_ptr(), h.len(), part, part_len),
            (15, []) => mavdrusek_write_pair_value(p, l, e, n, x[4], x[5], x[6], x[7], part, part_len),
            (16, []) => mavdrusek_write_verdict(p, l, e, n, x[4], x[5], x[6], part, part_len),
            (17, []) => mavdrusek_write_share(p, l, e, n, x[4], x[5], x[6], x[7], x[8], part, part_len),
            (18, []) => mavdrusek_read_setup_head(part, part_len, a, b, c, d),
            (19, [m]) => mavdrusek_read_setup_matrix(part, part_len, m.as_mut_ptr(), m.len()),
            (20, [g, h]) => mavdrusek_read_dealing(p, l, e, n, part, part_len, g.as_mut_ptr(), g.len(), h.as_mut_ptr(), h.len(), a, b),
            (21, []) => mavdrusek_read_pair_value(p, l, e, n, part, part_len, a, b, c, d),
            (22, []) => mavdrusek_read_verdict(p, l, e, n, part, part_len, a, b, c),
            (23, []) => mavdrusek_read_share(p, l, e, n, part, part_len, a, b, c, d, f),
            (FIELD, []) => mavdrusek_field(p),
            (DEAL_KEY, [r, g, h]) => {
                mavdrusek_deal_key(part, part_len, r.as_ptr(), r.len(), g.as_mut_ptr(), g.len(), h.as_mut_ptr(), h.len())
            }
            (OPEN_KEY, [s, r]) => mavdrusek_open_key(set, s.as_ptr(), s.len(), r.as_ptr(), r.len(), part, part_len, a),
            (WRITE_PF, []) => mavdrusek_write_mapped_pair_value(p, l, e, n, x[4], x[5], x[6], x[7], part, part_len),
            (READ_PF, []) => mavdrusek_read_mapped_pair_value(p, l, e, n, part, part_len, a, b, c, d),
            (DEAL_MAPPED..=READ_DF, words) => mapped(call, x, words, part, part_len, a, b),
            (DEAL_ZERO, [m, r, g, h]) => mavdrusek_deal_zero(
                p, l, e, n, m.as_ptr(), m.len(), r.as_ptr(), r.len(), x[4], g.as_mut_ptr(), g.len(), h.as_mut_ptr(), h.len(),
            ),
            (DEAL_ZERO_ALL, [m, r, g, h]) => mavdrusek_deal_zero_all(
                p, l, e, n, m.as_ptr(), m.len(), r.as_ptr(), r.len(), g.as_mut_ptr(), g.len(), h.as_mut_ptr(), h.len(),
            ),
            (JUDGE_ZERO, [m, h, v]) => mavdrusek_judge_zero(p, l, e, n, m.as_ptr(), m.len(), h.as_ptr(), h.len(), v.as_ptr(), v.len(), a, b),
            (REFRESH, []) => mavdrusek_refresh(p, x[4], x[5], x[6], a, b),
            (WRITE_DZ, [g, h]) => {
                mavdrusek_write_zero_dealing(p, l, e, n, x[4], x[5], g.as_ptr(), g.len(), h.as_ptr(), h.len(), part, part_len)
            }
            (READ_DZ, [g, h]) => {
                mavdrusek_read_zero_dealing(p, l, e, n, part, part_len, g.as_mut_ptr(), g.len(), h.as_mut_ptr(), h.len(), a, b)
            }
            (SUPERSEDING, []) => {
                let (first, second) = case.two_slices();
                mavdrusek_superseding(p, l, e, n, first.as_ptr(), first.len(), second.as_ptr(), second.len(), a)
            }
            (HOLD, [x, out]) => on_signed(x, |x| mavdrusek_hold_corrections(p, x.as_ptr(), x.len(), out.as_mut_ptr(), out.len())),
            (READ_BACK, [s, out]) => on_signed(out, |out| mavdrusek_read_corrections(p, s.as_ptr(), s.len(), out.as_mut_ptr(), out.len())),
            (COMBINE_SIGNED, [k, s, r]) => {
                on_signed(k, |k| mavdrusek_combine_signed(p, k.as_ptr(), k.len(), s.as_ptr(), s.len(), r.as_ptr(), r.len(), a, b))
            }
            (OPEN_SIGNED, [m, s, r, out]) => on_signed(out, |out| {
                mavdrusek_open_signed(
                    p, l, e, n, m.as_ptr(), m.len(), set, s.as_ptr(), s.len(), r.as_ptr(), r.len(), out.as_mut_ptr(), out.len(), a,
                )
            }),
            _ => panic!("no such call: {case:?}"),
        }
    };
    After { number, places: places[..case.of().places].to_vec(), words, bytes }
}

/// The calls of a second dealing that take or give lists, on their slices of words, a slice of bytes and two places.
unsafe fn mapped(call: u16, x: [u16; 9], words: &mut [Vec<u16>], part: *mut u8, part_len: usize, a: &mut u16, b: &mut u16) -> u16 {
    let [p, l, e, n, ..] = x;
    match (call, words) {
        (DEAL_MAPPED, [m, s, r, f, r2, g, h, g2, h2]) => mavdrusek_deal_mapped(
            p, l, e, n, m.as_ptr(), m.len(), s.as_ptr(), s.len(), r.as_ptr(), r.len(), f.as_ptr(), f.len(), r2.as_ptr(), r2.len(), x[4],
            g.as_mut_ptr(), g.len(), h.as_mut_ptr(), h.len(), g2.as_mut_ptr(), g2.len(), h2.as_mut_ptr(), h2.len(),
        ),
        (DEAL_MAPPED_ALL, [m, s, r, f, r2, g, h, g2, h2]) => mavdrusek_deal_mapped_all(
            p, l, e, n, m.as_ptr(), m.len(), s.as_ptr(), s.len(), r.as_ptr(), r.len(), f.as_ptr(), f.len(), r2.as_ptr(), r2.len(),
            g.as_mut_ptr(), g.len(), h.as_mut_ptr(), h.len(), g2.as_mut_ptr(), g2.len(), h2.as_mut_ptr(), h2.len(),
        ),
        (JUDGE_MAPPED, [m, h, v, f, h2, v2]) => mavdrusek_judge_mapped(
            p, l, e, n, m.as_ptr(), m.len(), h.as_ptr(), h.len(), v.as_ptr(), v.len(), f.as_ptr(), f.len(), h2.as_ptr(), h2.len(), v2.as_ptr(),
            v2.len(), a, b,
        ),
        (WRITE_DF, [g, h, f]) => mavdrusek_write_mapped_dealing(
            p, l, e, n, x[4], x[5], g.as_ptr(), g.len(), h.as_ptr(), h.len(), f.as_ptr(), f.len(), part, part_len,
        ),
        (READ_DF, [g, h, f]) => mavdrusek_read_mapped_dealing(
            p, l, e, n, part, part_len, g.as_mut_ptr(), g.len(), h.as_mut_ptr(), h.len(), f.as_mut_ptr(), f.len(), a, b,
        ),
        (_, words) => panic!("no such call: {call} on {words:?}"),
    }
}

/// Whether the row steps of a judgement of a set are at most the smaller of k and d, times d − 1, for k members, and on the points matrix just as many.
fn within_bound(c: &Case, steps: u16) -> bool {
    let (s, members) = (c.params(), c.set().count_ones() as usize);
    let most = members.min(s.d()) * (s.d() - 1);
    let mut matrix = vec![0; s.entries()];
    let on_points = points(s, &mut matrix).number == 0 && matrix == c.words[0];
    steps as usize == most || !on_points && (steps as usize) < most
}

/// Whether both make the same of a case. Of the judgement of a set all is fixed but which sweeping vector its buffer holds; the row or the vector is tested
/// to be one, and the row steps to keep to their bound.
fn agree(c: &Case) -> bool {
    let (mut left, right) = (ours(c), c.run());
    if c.call == 8 && (left.number, right.number) == (0, 0) && left.places == right.places {
        let (kind, steps) = (left.places[0], left.places[1]);
        if !is_of_kind(c.params(), &c.words[0], c.set(), c.numbers[6], kind, &left.words[1]) || !within_bound(c, steps) {
            println!("differ: {c:?}\n  ours {left:?}, not one of its kind, or with steps that break their bound");
            return false;
        }
        if kind == 2 {
            left.words[1] = right.words[1].clone();
        }
    }
    if left != right {
        println!("differ: {c:?}\n  ours {left:?}\n  reference {right:?}");
    }
    left == right
}

/// Whether both make the same of a holder's file: its text, and its contents.
fn agree_on_file(file: &[u8], text: &[u8], contents: &[u16]) -> bool {
    let untouched = UNTOUCHED as usize;

    let (mut left, mut right) = (text.to_vec(), text.to_vec());
    let (mut count, mut byte) = (untouched, untouched);
    let number = unsafe { mavdrusek_holder_file(file.as_ptr(), file.len(), left.as_mut_ptr(), left.len(), &mut count, &mut byte) };
    let answer = holder_file(file, &mut right);
    let places = count_and_byte(&answer);
    let same_text = number == answer.number && (count, byte) == (places.0 as usize, places.1 as usize) && left == right;
    if !same_text {
        println!("differ: text of {file:?} in {text:?}\n  ours {number}, count {count}, byte {byte}, {left:?}\n  reference {answer:?}, {right:?}");
    }

    let (mut left, mut right) = (contents.to_vec(), contents.to_vec());
    let mut byte = untouched;
    let number = unsafe { mavdrusek_read_file(file.as_ptr(), file.len(), left.as_mut_ptr(), left.len(), &mut byte) };
    let answer = read_file(file, &mut right);
    let place = answer.values.first().map_or(untouched, |&k| k as usize);
    let same_contents = number == answer.number && byte == place && left == right;
    if !same_contents {
        println!("differ: contents of {file:?} in {contents:?}\n  ours {number}, byte {byte}, {left:?}\n  reference {answer:?}, {right:?}");
    }
    same_text && same_contents
}

/// A file, the buffer for its text and the one for its contents, now and then one of a length that is refused.
fn draw_file(r: &mut Random) -> (Vec<u8>, Vec<u8>, Vec<u16>) {
    let mut file = match r.below(3) {
        0 => draw(r, FILE).bytes,
        1 => with_second(r).bytes,
        _ => with_zeros(r).bytes,
    };
    if r.chance(200) {
        let size = r.one(&[4095, 4096, 4097, 5000]);
        file.resize(size, 0);
    }
    let bytes = if r.chance(50) { r.one(&[0, 256, TEXT - 1, TEXT + 1]) } else { TEXT };
    let words = if r.chance(50) { r.one(&[0, 18, CONTENTS - 1, CONTENTS + 1]) } else { CONTENTS };
    (file, r.noise_bytes(bytes), r.noise(words))
}

fn main() {
    let numbers: Result<Vec<u64>, _> = std::env::args().skip(1).map(|x| x.parse()).collect();
    let clock = || std::time::SystemTime::now().duration_since(std::time::UNIX_EPOCH).unwrap().as_nanos() as u64;
    let (calls, seed) = match numbers.as_deref() {
        Ok(&[calls]) => (calls, clock()),
        Ok(&[calls, seed]) => (calls, seed),
        _ => panic!("compare CALLS [SEED]"),
    };
    println!("seed {seed}, {calls} calls, {} files", calls.div_ceil(5));
    let mut r = Random(seed);
    let mut differ = 0;
    let others: Vec<u16> = (0..CALLS.len() as u16).filter(|&call| call != FILE && call != READ_FILE).collect();
    for k in 0..calls {
        let call = others[k as usize % others.len()];
        let on_a_set = (8..=11).contains(&call);
        let c = match r.below(4) {
            0 if on_a_set => supplied(&mut r, call),
            1 if on_a_set => tied(&mut r, call),
            _ => draw(&mut r, call),
        };
        differ += !agree(&rounded(&mut r, c)) as u64;
    }
    for _ in 0..calls.div_ceil(5) {
        let (file, text, contents) = draw_file(&mut r);
        differ += !agree_on_file(&file, &text, &contents) as u64;
    }
    println!("{} compared, {differ} differ", calls + calls.div_ceil(5));
    std::process::exit((differ > 0) as i32);
}
