// How long a call takes, beside floor.rs and beside one reading of the u16 store. Every number is the median of many calls.
mod antennas;
#[path = "../compare/build/channelizer.rs"]
mod channelizer;
#[allow(dead_code)]
#[path = "../compare/build/floor.rs"]
mod floor;
#[allow(dead_code)]
#[path = "../compare/layout.rs"]
mod layout;
mod linear;
#[path = "../compare/linear_rows.rs"]
mod linear_rows;
#[path = "../compare/map_rows.rs"]
mod map_rows;
#[allow(dead_code)]
#[path = "../compare/log_rows.rs"]
mod log_rows;
mod logs;
#[allow(dead_code)]
#[path = "../compare/numbers.rs"]
mod numbers;
#[path = "../compare/plain_antennas.rs"]
mod plain_antennas;
#[path = "../compare/plain_log.rs"]
mod plain_log;
mod receive;
mod registers;
#[path = "../compare/wolfcloak.rs"]
mod wolfcloak;

use floor::{FloorBank, Gate};
use layout::{place, CHANNEL_LEN, COUNTS, DECIMATION_HOPS, FILLED, NEXT, RING_LEN, SETTLING};
use numbers::{sample, Feed, Rng};
use std::hint::black_box;
use std::time::Instant;

/// Microseconds.
fn time<T>(call: impl FnOnce() -> T) -> f64 {
    let start = Instant::now();
    black_box(call());
    start.elapsed().as_nanos() as f64 / 1000.0
}

fn median(mut times: Vec<f64>) -> f64 {
    times.sort_by(f64::total_cmp);
    times[times.len() / 2]
}

/// The least that a call which reads the whole store can do.
fn sum(words: &[u16]) -> u32 {
    words.iter().fold(0, |s, &w| s.wrapping_add(w as u32))
}

/// Hops that come round: as many as 15 does not divide, so that each of them is a slow hop in its turn and a ring of noise is noise.
fn hops(n: usize, feed: Feed) -> Vec<(Vec<f64>, Vec<f32>)> {
    let mut rng = Rng(1);
    (0..151).map(|hop| (0..n).map(|k| sample(&mut rng, feed, hop, k)).unzip()).collect()
}

fn row(what: &str, ours: f64, old: f64) {
    println!("  {what:<22} {ours:9.2} µs   floor.rs {old:9.2} µs   ratio {:7.2}", ours / old);
}

/// The same, with how many times floor.rs's time is aimed at.
fn aimed_row(what: &str, ours: f64, old: f64, aim: f64) {
    println!("  {what:<22} {ours:9.2} µs   floor.rs {old:9.2} µs   ratio {:7.2}   (the aim is {aim:.1})", ours / old);
}

/// Hops of the bank, once its rings are full.
fn bank_rows(n: usize, rounds: usize) {
    let hops = hops(n, Feed::Noise);
    let mut oracle = FloorBank::new(n);
    let (mut u, mut f) = oracle.to_stores();
    assert_eq!(wolfcloak::bank_new(&mut u, &mut f, n), 0);
    let [mut ordinary, mut slow, mut old_ordinary, mut old_slow, mut sums, mut tests, mut explained]: [Vec<f64>; 7] = Default::default();
    for hop in 0..(RING_LEN + rounds) * DECIMATION_HOPS {
        let (db, power) = &hops[hop % hops.len()];
        let is_slow = hop % DECIMATION_HOPS == 0;
        let ours = time(|| wolfcloak::bank_update(&mut u, &mut f, db, power, None));
        let old = time(|| oracle.update(db, power));
        if hop < SETTLING {
            continue;
        }
        if is_slow { &mut slow } else { &mut ordinary }.push(ours);
        if is_slow { &mut old_slow } else { &mut old_ordinary }.push(old);
        if hop % 5 == 1 {
            sums.push(time(|| sum(black_box(&u))));
            let mut value = 0.0;
            tests.push(time(|| wolfcloak::channel_floor_db(&u, &f, 0, &mut value)));
            let mut origins = [(0, 0.0); 2];
            explained.push(time(|| wolfcloak::explain(&u, &f, 0, &mut origins)));
        }
    }
    assert!(oracle.to_stores().0 == u);
    let [ordinary, slow, old_ordinary, old_slow, sums, tests, explained] =
        [ordinary, slow, old_ordinary, old_slow, sums, tests, explained].map(median);
    println!("bank, n = {n}");
    row("ordinary hop", ordinary, old_ordinary);
    row("slow hop", slow, old_slow);
    println!("  {:<22} {sums:9.2} µs   ordinary hop / sum {:7.2}", "sum of store", ordinary / sums);
    println!("  {:<22} {tests:9.2} µs   (a reading of the raw floor)", "soundness");
    println!("  {:<22} {explained:9.2} µs", "explanation");
}

/// Ordinary hops of digital silence, once the slow hops have filled every ring with one bin.
fn silence_rows(n: usize, rounds: usize) {
    let hops = hops(n, Feed::Silence);
    let mut oracle = FloorBank::new(n);
    let (mut u, mut f) = oracle.to_stores();
    assert_eq!(wolfcloak::bank_new(&mut u, &mut f, n), 0);
    let [mut ordinary, mut old_ordinary, mut tests]: [Vec<f64>; 3] = Default::default();
    for hop in 0..(RING_LEN + rounds) * DECIMATION_HOPS {
        let (db, power) = &hops[hop % hops.len()];
        let ours = time(|| wolfcloak::bank_update(&mut u, &mut f, db, power, None));
        let old = time(|| oracle.update(db, power));
        if hop < SETTLING || hop % DECIMATION_HOPS == 0 {
            continue;
        }
        ordinary.push(ours);
        old_ordinary.push(old);
        if hop % 5 == 1 {
            let mut value = 0.0;
            tests.push(time(|| wolfcloak::channel_floor_db(&u, &f, 0, &mut value)));
        }
    }
    assert!(oracle.to_stores().0 == u);
    let [ordinary, old_ordinary, tests] = [ordinary, old_ordinary, tests].map(median);
    row("ordinary hop, silence", ordinary, old_ordinary);
    println!("  {:<22} {tests:9.2} µs", "soundness, silence");
}

/// A fresh bank.
fn fresh(n: usize) -> (Vec<u16>, Vec<f64>) {
    let (mut u, mut f) = FloorBank::new(n).to_stores();
    assert_eq!(wolfcloak::bank_new(&mut u, &mut f, n), 0);
    (u, f)
}

fn feed(bank: &mut (Vec<u16>, Vec<f64>), hops: &[(Vec<f64>, Vec<f32>)], which: std::ops::Range<usize>) {
    for hop in which {
        let (db, power) = &hops[hop % hops.len()];
        assert_eq!(wolfcloak::bank_update(&mut bank.0, &mut bank.1, db, power, None), 0);
    }
}

fn test(bank: &(Vec<u16>, Vec<f64>), rounds: usize) -> f64 {
    let mut value = 0.0;
    assert_eq!(wolfcloak::channel_floor_db(&bank.0, &bank.1, 0, &mut value), 0);
    median((0..rounds).map(|_| time(|| wolfcloak::channel_floor_db(&bank.0, &bank.1, 0, &mut value))).collect())
}

/// The soundness test while noise comes in after digital silence: rings of one bin, of one bin but for five entries, half of it, and of
/// noise alone; and of noise that has filled half of each ring so far. Then full rings, some of silence and the others of noise; and rings of
/// different fill, which no list of updates makes and a lent store may have. A set in a quiet hut must not be the slow one.
fn mixed_rows(n: usize, rounds: usize) {
    let (quiet, noisy) = (hops(n, Feed::Silence), hops(n, Feed::Noise));
    let mut bank = fresh(n);
    feed(&mut bank, &quiet, 0..SETTLING);
    let mut hop = 0;
    let tests = [0, 5, RING_LEN / 2, RING_LEN].map(|entries| {
        feed(&mut bank, &noisy, hop..entries * DECIMATION_HOPS);
        hop = entries * DECIMATION_HOPS;
        test(&bank, rounds)
    });
    let heard = |hops: &[(Vec<f64>, Vec<f32>)], count: usize| {
        let mut bank = fresh(n);
        feed(&mut bank, hops, 0..count);
        test(&bank, rounds)
    };
    let others = [
        heard(&noisy, RING_LEN / 2 * DECIMATION_HOPS),
        heard(&partly(&noisy, |k| k % 8 == 0), SETTLING),
        heard(&partly(&noisy, |k| [0, 7, 8, 15].contains(&(k % 16))), SETTLING),
        test(&filled_unlike(bank), rounds),
    ];
    println!("soundness after silence, n = {n}");
    let names = ["silence", "five entries noise", "half noise", "noise"].into_iter();
    let other_names = ["noise, half full", "silence on each eighth", "silence on 0, 7, 8, 15", "rings of seven fills"];
    for (what, test) in names.chain(other_names).zip(tests.into_iter().chain(others)) {
        println!("  {what:<22} {test:9.2} µs   times noise {:7.2}", test / tests[3]);
    }
}

/// The same hops with digital silence on some channels.
fn partly(noisy: &[(Vec<f64>, Vec<f32>)], is_silent: fn(usize) -> bool) -> Vec<(Vec<f64>, Vec<f32>)> {
    let mut hops = noisy.to_vec();
    for (db, power) in &mut hops {
        (0..db.len()).filter(|&k| is_silent(k)).for_each(|k| (db[k], power[k]) = (-200.0, 0.0));
    }
    hops
}

/// A bank of full rings, made by hand one whose rings have 244 to 250 entries, channel after channel.
fn filled_unlike(mut bank: (Vec<u16>, Vec<f64>)) -> (Vec<u16>, Vec<f64>) {
    let n = bank.0[0] as usize;
    for k in 0..n {
        let c = &mut bank.0[place(n, k)..][..CHANNEL_LEN];
        let filled = RING_LEN - k % 7;
        (filled..RING_LEN).for_each(|i| c[COUNTS + c[i] as usize] -= 1);
        if filled < RING_LEN {
            (c[NEXT], c[FILLED]) = (filled as u16, filled as u16);
        }
    }
    bank
}

const LENGTHS: [u16; 3] = [15, 75, 375];

/// As a receiver runs them: each hop a bank update and then a gate update; holds beside it. Rings and windows are full before anything is
/// timed. The longest windows are summed afresh every 750 hops. Floors are at rest but after slow hops; at every fifth hop all of them are
/// moved first, by an eighth of a dB up or down, so that no remembered threshold serves.
fn gate_rows(n: usize, rounds: usize) {
    let hops = hops(n, Feed::Noise);
    let (mut bank, mut gate) = (FloorBank::new(n), Gate::made(n, [48, 16, 96], &LENGTHS));
    let ((mut u, mut f), (mut g, mut h)) = (bank.to_stores(), gate.to_stores());
    let (mut rise, mut drop) = (vec![0; n], vec![0; n]);
    let [mut updates, mut old_updates, mut afresh, mut old_afresh, mut moved, mut old_moved]: [Vec<f64>; 6] = Default::default();
    let [mut holds, mut old_holds, mut moved_holds, mut old_moved_holds]: [Vec<f64>; 4] = Default::default();
    let [mut both, mut old_both, mut tests]: [Vec<f64>; 3] = Default::default();
    let move_floors = |f: &mut [f64], by: f64| f[3 * n..4 * n].iter_mut().for_each(|x| *x += by);
    for hop in 0..SETTLING + rounds * 750 {
        let (db, power) = &hops[hop % hops.len()];
        let first = time(|| wolfcloak::bank_update(&mut u, &mut f, db, power, None));
        let old_first = time(|| bank.update(db, power));
        let is_moved = hop % 5 == 3;
        if is_moved {
            move_floors(&mut f, if hop % 2 == 0 { 0.125 } else { -0.125 });
            bank = FloorBank::of_stores(&u, &f);
        }
        let second =
            time(|| wolfcloak::gate_update((&u, &f), (&mut g, &mut h), (db, power), (&mut rise, &mut drop)));
        let mut marks = (vec![], vec![]);
        let old_second = time(|| marks = gate.update(db, power, &bank));
        assert!(marks.0.iter().zip(&rise).all(|(&m, &byte)| m as u8 == byte));
        if hop < SETTLING {
            continue;
        }
        let is_afresh = hop % 750 == 749;
        let (ours, old) = match (is_afresh, is_moved, hop % 15 == 0) {
            (true, ..) => (&mut afresh, &mut old_afresh),
            (_, true, _) => (&mut moved, &mut old_moved),
            (.., true) => continue,
            _ => (&mut updates, &mut old_updates),
        };
        ours.push(second);
        old.push(old_second);
        if !is_moved {
            both.push(first + second);
            old_both.push(old_first + old_second);
        }
        if hop % 5 == 1 {
            holds.push(time(|| wolfcloak::gate_hold((&u, &f), (&g, &mut h), (&mut rise, &mut drop))));
            old_holds.push(time(|| gate.hold(&bank)));
            let mut value = 0.0;
            tests.push(time(|| {
                wolfcloak::channel_floor_db(&u, &f, 0, &mut value) + wolfcloak::smoothed_db((&g, &h), 0, &mut value)
            }));
        }
        if hop % 5 == 2 {
            move_floors(&mut f, 0.125);
            bank = FloorBank::of_stores(&u, &f);
            moved_holds.push(time(|| wolfcloak::gate_hold((&u, &f), (&g, &mut h), (&mut rise, &mut drop))));
            old_moved_holds.push(time(|| gate.hold(&bank)));
        }
    }
    assert!(gate.words() == g);
    let [updates, old_updates, afresh, old_afresh, moved, old_moved] =
        [updates, old_updates, afresh, old_afresh, moved, old_moved].map(median);
    let [holds, old_holds, moved_holds, old_moved_holds, both, old_both, tests] =
        [holds, old_holds, moved_holds, old_moved_holds, both, old_both, tests].map(median);
    println!("gate, n = {n}, window lengths 15, 75, 375");
    row("gate update", updates, old_updates);
    row("  floors moving", moved, old_moved);
    row("  summed afresh", afresh, old_afresh);
    row("hold", holds, old_holds);
    row("  floors moving", moved_holds, old_moved_holds);
    aimed_row("bank and gate update", both, old_both, if n > 32 { 5.0 } else { 10.0 });
    println!("  {:<22} {tests:9.2} µs   (a reading of the raw floor, and one of the smoothed dB)", "soundness of both");
    let beyond = (updates - tests) / old_updates;
    println!("  {:<22} {beyond:9.2}      (gate update - soundness) / floor.rs; the aim is 1 for n = 512 (R-3)", "beyond the tests");
}

/// The wardens' store of the last 600 slow hops: hops that carry it beside hops that don't, once it is full; then readings.
fn worst_rows(n: usize, rounds: usize) {
    const SPAN: usize = 600;
    let hops = hops(n, Feed::Noise);
    let (mut u, mut f) = FloorBank::new(n).to_stores();
    assert_eq!(wolfcloak::bank_new(&mut u, &mut f, n), 0);
    let (mut plain_u, mut plain_f) = (u.clone(), f.clone());
    let (mut w, mut g) = (vec![0; 4], vec![0.0; wolfcloak::worst_f_len(n, SPAN)]);
    assert_eq!(wolfcloak::worst_new(&mut w, &mut g, n, SPAN), 0);
    let [mut ordinary, mut slow, mut plain_ordinary, mut plain_slow]: [Vec<f64>; 4] = Default::default();
    for hop in 0..(SPAN + rounds) * 15 {
        let (db, power) = &hops[hop % hops.len()];
        let carried = time(|| wolfcloak::bank_update_worst((&mut u, &mut f), (&mut w, &mut g), (db, power), false));
        let plain = time(|| wolfcloak::bank_update(&mut plain_u, &mut plain_f, db, power, None));
        if hop >= SPAN * 15 {
            let is_slow = hop % 15 == 0;
            if is_slow { &mut slow } else { &mut ordinary }.push(carried);
            if is_slow { &mut plain_slow } else { &mut plain_ordinary }.push(plain);
        }
    }
    assert!(u == plain_u && w[3] as usize == SPAN);
    let mut value = 0.0;
    let reading = median((0..2000).map(|i| time(|| wolfcloak::worst_floor((&u, &f), (&w, &g), i % n, &mut value))).collect());
    let effective = median((0..2000).map(|i| time(|| wolfcloak::effective_floor_db(&u, &f, i % n, &mut value))).collect());
    let mut all = || (0..n).for_each(|k| assert_eq!(wolfcloak::worst_floor((&u, &f), (&w, &g), k, &mut value), 0));
    let every = median((0..15).map(|_| time(&mut all)).collect());
    let [ordinary, slow, plain_ordinary, plain_slow] = [ordinary, slow, plain_ordinary, plain_slow].map(median);
    println!("worst floor of late, n = {n}, W = {SPAN}");
    println!("  {:<22} {ordinary:9.2} µs   not carried {plain_ordinary:9.2} µs", "ordinary hop, carried");
    println!("  {:<22} {slow:9.2} µs   not carried {plain_slow:9.2} µs", "slow hop, carried");
    println!("  {:<22} {reading:9.2} µs   effective floor {effective:9.2} µs", "one reading");
    println!("  {:<22} {:9.2} ms   once a minute: {:.4} of a percent of the time", "all channels", every / 1e3, every / 60e6 * 100.0);
}

fn main() {
    bank_rows(32, 2000);
    silence_rows(32, 2000);
    mixed_rows(32, 5000);
    bank_rows(512, 600);
    silence_rows(512, 600);
    mixed_rows(512, 1000);
    gate_rows(32, 12);
    gate_rows(512, 6);
    receive::rows(32, 60);
    receive::rows(512, 20);
    linear::rows(32, 3000);
    linear::rows(512, 900);
    registers::rows(32, 6);
    registers::rows(512, 3);
    for n in [32, 512] {
        for kept in [0, 90, 100] {
            logs::rows(n, kept);
            antennas::row(n, kept);
        }
    }
    worst_rows(32, 600);
    worst_rows(512, 200);
}
