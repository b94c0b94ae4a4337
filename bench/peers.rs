//! A board key against libgfshare and FLINT.

use crate::inputs::*;
use crate::measure::*;
use crate::{ours, TURN};

// As bench/peers.c defines them.
unsafe extern "C" {
    fn gfshare_here() -> i32;
    fn gfshare_begin(random: *const u8, random_len: usize);
    fn gfshare_split(key: *const u8, shares: *mut u8);
    fn gfshare_combine(count: i32, shares: *const u8, key: *mut u8);
    fn flint_here() -> i32;
    fn flint_begin(matrix: *const u16);
    fn flint_deal(secrets: *const u16, random: *const u16, gs: *mut u16, hs: *mut u16);
    fn flint_open(count: i32, matrix: *const u16, members: *const u16, shares: *const u16, secrets: *mut u16) -> i32;
    fn flint_reduce_16(matrix: *const u16, shares: *const u16, secrets: *mut u16) -> i32;
}

pub fn peers(targets: &mut Vec<Target>) {
    let w = &board();
    let (s, m) = (w.s, w.m(0));
    let bytes: Vec<Vec<u8>> = (0..TURN).map(|k| w.key(k)).collect();
    let (gfshare, flint) = unsafe { (gfshare_here() == 1, flint_here() == 1) };

    println!();
    println!("one board key (p 257, l 4, e 3, n 16) against the peers, ns");
    for (name, here) in [("libgfshare", gfshare), ("FLINT", flint)] {
        if !here {
            println!("{name}: not here, skipped");
        }
    }
    let pool: Vec<u8> = Random(1).elements(256, 1 << 14).iter().map(|&x| x as u8).collect();
    unsafe { gfshare_begin(pool.as_ptr(), pool.len()) };
    unsafe { flint_begin(m.as_ptr()) };

    // Dealing: all parts. By the call for board keys, and by the one for any setup.
    let (mut gs, mut hs) = ([0; 112], [0; 112]);
    let keys = &bytes;
    let mut race = Race::new(move |k, _| ours::deal_key(&keys[k], &w.deals[k].random, &mut gs, &mut hs) as u64);
    race.with("deal to all", move |k, _| {
        let x = &w.deals[k];
        ours::deal_all(s, m, &x.secrets, &x.random, &mut gs, &mut hs) as u64
    });
    if gfshare {
        let mut shares = [0u8; 256];
        race.with("libgfshare", move |k, _| {
            unsafe { gfshare_split(keys[k].as_ptr(), shares.as_mut_ptr()) };
            shares[0] as u64
        });
    }
    if flint {
        let mut deal = move |k: usize| {
            let x = &w.deals[k];
            unsafe { flint_deal(x.secrets.as_ptr(), x.random.as_ptr(), gs.as_mut_ptr(), hs.as_mut_ptr()) };
            (gs, hs)
        };
        let (gs, hs) = deal(3);
        assert_eq!((&gs[..], &hs[..]), (&w.deals[3].gs[..], &w.deals[3].hs[..]), "FLINT deals something else");
        race.with("FLINT", move |k, _| deal(k).0[0] as u64);
    }
    race.run("dealing a key");
    targets.push(target("dealing a key: at most 0.25 of libgfshare's split", race.ratio("libgfshare"), 0.25));
    targets.push(target("the same by deal to all: at most half of libgfshare's split", race.between("deal to all", "libgfshare"), 0.5));
    targets.push(target("the same by deal to all: at most half of FLINT's two products", race.between("deal to all", "FLINT"), 0.5));

    // Opening: by the call for board keys, and as four single openings.
    for count in [7, 16] {
        let sets = if count == 7 { w.sets(7, true) } else { vec![0xffff; TURN] };
        let columns: Vec<Vec<Vec<u16>>> = (0..TURN).map(|k| (0..4).map(|b| w.shares(k, sets[k], b)).collect()).collect();
        let who: Vec<Vec<u16>> = sets.iter().map(|&set| members(set).map(|i| i as u16).collect()).collect();
        let by_member: Vec<Vec<u16>> = (0..TURN).map(|k| members(sets[k]).flat_map(|i| w.g(k, i)[..4].to_vec()).collect()).collect();
        let split: Vec<[u8; 256]> = bytes
            .iter()
            .map(|key| {
                let mut shares = [0; 256];
                unsafe { gfshare_split(key.as_ptr(), shares.as_mut_ptr()) };
                shares
            })
            .collect();

        let shares: Vec<Vec<u16>> = (0..TURN).map(|k| w.key_shares(k, sets[k])).collect();
        let rounds = vec![3; 4 * count as usize];
        let (mut back, mut key) = ([0u8; 16], [0; 16]);
        let open_key = |k: usize, key: &mut [u8; 16]| ours::open_key(sets[k], &shares[k], &rounds, key, &mut 0);
        let open = |k: usize, key: &mut [u16; 16]| {
            let mut refused = 0;
            for (column, secrets) in columns[k].iter().zip(key.chunks_mut(4)) {
                refused += ours::open(s, m, sets[k], column, &rounds[..column.len()], secrets, &mut 0);
            }
            refused
        };
        for k in 0..TURN {
            assert_eq!((open_key(k, &mut back), &back[..]), (0, &bytes[k][..]), "the key does not come back");
            assert_eq!((open(k, &mut key), &key[..]), (0, &w.deals[k].secrets[..]), "the key does not come back");
        }
        let mut race = Race::new(move |k, _| open_key(k, &mut back) as u64);
        race.with("four openings", move |k, _| open(k, &mut key) as u64);
        if gfshare {
            let combine = |k: usize, back: &mut [u8; 16]| unsafe { gfshare_combine(count, split[k].as_ptr(), back.as_mut_ptr()) };
            combine(3, &mut back);
            assert_eq!(&back[..], &bytes[3][..], "libgfshare does not give the key back");
            race.with("libgfshare", move |k, _| {
                combine(k, &mut back);
                back[0] as u64
            });
        }
        if flint {
            let solve = |k: usize, out: &mut [u16; 16]| unsafe {
                flint_open(count, m.as_ptr(), who[k].as_ptr(), by_member[k].as_ptr(), out.as_mut_ptr())
            };
            assert_eq!((solve(3, &mut key), &key[..]), (1, &w.deals[3].secrets[..]), "FLINT does not give the key back");
            race.with("FLINT", move |k, _| solve(k, &mut key) as u64);
        }
        if flint && count == 16 {
            let reduce = |k: usize, out: &mut [u16; 16]| unsafe { flint_reduce_16(m.as_ptr(), by_member[k].as_ptr(), out.as_mut_ptr()) };
            assert_eq!((reduce(3, &mut key), &key[..]), (1, &w.deals[3].secrets[..]), "FLINT does not give the key back");
            race.with("FLINT's rref", move |k, _| reduce(k, &mut key) as u64);
        }
        race.run(&format!("opening a key by {count}"));
        if count == 7 {
            targets.push(target("opening a key by 7: at most 0.8 of libgfshare's unverified combine", race.ratio("libgfshare"), 0.8));
        } else {
            targets.push(target("opening a key by 16, every share tested: at most 0.15 of FLINT's solve", race.ratio("FLINT"), 0.15));
        }
        targets.push(target(
            &format!("the same by {count} as four openings: no slower than FLINT's one solve with four right sides"),
            race.between("four openings", "FLINT"),
            1.0,
        ));
        if let Some(x) = race.ratio("FLINT's rref") {
            println!("recorded: FLINT's rref of rows and shares, its faster way where they are not square: ours takes {x:.2} times as long");
        }
        if let (16, Some(x)) = (count, race.ratio("libgfshare")) {
            println!("recorded: libgfshare's combine by 16, which verifies nothing: ours takes {x:.2} times as long");
        }
    }
}
