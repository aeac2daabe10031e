// Document 02, R-4 in plain Rust, from document 01's formulas: where the floors of a channel come from; and stores on which the sides of a
// minimum or maximum are equal, or NaN.
use crate::calls::{Call, BEFORE};
use crate::faults::any_bank;
use crate::layout::{place, BLOCK_CHANNELS, CHANNEL_LEN, FILLED, LEAD, RING_LEN};
use crate::numbers::{any_f64, same, Rng};
use crate::tally::Tally;
use crate::wolfcloak as lib;
use std::fmt::Arguments;

/// What was seen: each origin named, effective before rise; equal sides; two NaNs; a NaN passed over.
pub const SEEN: [&str; 9] = [
    "own quartile", "block plus 3", "seed of the effective floor", "effective floor", "block", "seed of the rise floor",
    "equal sides", "two NaNs", "a NaN passed over",
];

pub type Seen = [u64; SEEN.len()];

/// An origin's number and its dB.
type Origin = (u8, f64);

/// Two sides, in document 02's order: a NaN loses to a number, and the later has to beat the earlier.
fn named(earlier: Origin, later: Origin, beats: fn(&f64, &f64) -> bool, seen: &mut Seen) -> Origin {
    let nans = earlier.1.is_nan() as usize + later.1.is_nan() as usize;
    seen[6] += (earlier.1 == later.1) as u64;
    seen[7] += (nans == 2) as u64;
    seen[8] += (nans == 1) as u64;
    if later.1.is_nan() {
        earlier
    } else if earlier.1.is_nan() || beats(&later.1, &earlier.1) {
        later
    } else {
        earlier
    }
}

/// The effective floor's origin and the rise floor's, of channel k of sound stores.
fn explanation(u: &[u16], f: &[f64], k: usize, seen: &mut Seen) -> [Origin; 2] {
    let n = u[0] as usize;
    let (blocks, block) = (n.div_ceil(BLOCK_CHANNELS), k / BLOCK_CHANNELS);
    let channel = &u[place(n, k)..][..CHANNEL_LEN];
    let since = (channel[FILLED] - channel[LEAD]) as usize;
    let pushes = u[3 + block];
    let (usable, block_floor) = (f[n + k], f[4 * n + block]);
    let seed = (2, f[4 * n + blocks + block] / pushes as f64 - 3.8);
    let mut effective = named((0, usable), (1, block_floor + 3.0), f64::lt, seen);
    if since < 25 && pushes > 0 {
        effective = named(effective, seed, f64::gt, seen);
    }
    let mut rise = named((0, effective.1), (1, block_floor), f64::gt, seen);
    if since < RING_LEN && pushes > 0 {
        rise = named(rise, seed, f64::gt, seen);
    }
    seen[effective.0 as usize] += 1;
    seen[3 + rise.0 as usize] += 1;
    [effective, rise]
}

/// The explanation of channel k; a refused one leaves the values as they were.
pub fn explain(t: &mut Tally, what: Arguments, c: &Call, due: u16) {
    let mut got = [(77, BEFORE); 2];
    t.answer(format_args!("{what}: explain {}", c.k), lib::explain(c.u, c.f, c.k, &mut got), due);
    let want = if due == 0 { explanation(c.u, c.f, c.k, &mut t.seen) } else { [(77, BEFORE); 2] };
    let ok = got.iter().zip(&want).all(|(g, w)| g.0 == w.0 && same(g.1, w.1));
    t.check(ok, format_args!("{what}: explain {}: {got:?}, and {want:?} is due", c.k));
}

/// After updates alone the rise floor explained is the stored one.
pub fn as_stored(t: &mut Tally, what: Arguments, u: &[u16], f: &[f64], k: usize) {
    let (mut got, mut stored) = ([(77, BEFORE); 2], BEFORE);
    t.answer(format_args!("{what}: explain {k}"), lib::explain(u, f, k, &mut got), 0);
    t.answer(format_args!("{what}: rise_floor_db {k}"), lib::rise_floor_db(u, f, k, &mut stored), 0);
    t.check(same(got[1].1, stored), format_args!("{what}: rise floor {k} explained as {:?}, and {stored:?} is stored", got[1]));
}

/// Sound stores whose usable floors, block floors and seeds are often equal to each other or to the allowance above, zeros, NaN or infinite.
pub fn any_sides(t: &mut Tally, n: usize, rng: &mut Rng) {
    let (u, mut f) = any_bank(n, rng);
    let blocks = n.div_ceil(BLOCK_CHANNELS);
    for block in 0..blocks {
        let pushes = u[3 + block] as f64;
        let odd = [any_f64(rng), any_f64(rng)];
        let sum = rng.pick(&[3.8 * pushes, -80.0 * pushes, odd[0], f64::NAN, f64::INFINITY]);
        let seed = sum / pushes - 3.8;
        let floor = rng.pick(&[seed, seed - 3.0, -3.0, -0.0, 0.0, -90.0, odd[1], f64::NAN, f64::NEG_INFINITY]);
        f[4 * n + block] = floor;
        f[4 * n + blocks + block] = sum;
        for k in BLOCK_CHANNELS * block..n.min(BLOCK_CHANNELS * (block + 1)) {
            let odd = any_f64(rng);
            f[n + k] = rng.pick(&[floor + 3.0, floor, seed, -0.0, 0.0, odd, f64::NAN, (floor + 3.0).next_up()]);
        }
    }
    for k in 0..n {
        explain(t, format_args!("n {n}, equal sides"), &Call { u: &u, f: &f, k, ..Call::default() }, 0);
    }
}
