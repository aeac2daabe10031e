// the dB of a power, beside a plain search over the oracle's rungs. That search makes the dB that floor.rs is fed where the library
// is fed powers alone.
use crate::channelizer::power_linear;
use crate::floor::{rung, TOP};
use crate::linear_rows::power_db;
use crate::tally::Tally;
use std::sync::OnceLock;

fn rungs() -> &'static [f64] {
    static RUNGS: OnceLock<Vec<f64>> = OnceLock::new();
    RUNGS.get_or_init(|| (0..=TOP).map(rung).collect())
}

/// The highest rung at most P + 1e-20, the lowest if none is; nothing is at most a NaN.
pub fn plain_db(power: f32) -> f64 {
    let x = power_linear(power);
    let at_most = rungs().partition_point(|&value| value <= x);
    -260.0 + at_most.saturating_sub(1) as f64 / 8.0
}

pub fn plain_dbs(power: &[f32]) -> Vec<f64> {
    power.iter().map(|&p| plain_db(p)).collect()
}

fn is_plain(t: &mut Tally, p: f32) {
    t.value(format_args!("power_db({p:?}), bits {:#x}", p.to_bits()), power_db(p), plain_db(p));
}

/// The rungs rise, and every rung's value, what is short of it by 1e-20, and the floats beside these are as plain; then the ends.
pub fn each_rung(t: &mut Tally) {
    t.check(rungs().len() == 5281 && rungs().is_sorted_by(|a, b| a < b), format_args!("the rungs do not rise"));
    for &value in rungs() {
        for p in [value as f32, (value - 1e-20) as f32] {
            [p.next_down(), p, p.next_up(), -p].into_iter().for_each(|p| is_plain(t, p));
        }
    }
    let least = f32::from_bits(1);
    let ends = [
        (0.0, -200.0),
        (-0.0, -200.0),
        (least, -200.0),
        (-least, -200.0),
        (-1e-20, -260.0),
        (1.0, 0.0),
        (1f32.next_down(), -0.125),
        (f32::MAX, 385.25),
        (f32::MIN, -260.0),
        (f32::INFINITY, 400.0),
        (f32::NEG_INFINITY, -260.0),
        (f32::NAN, -260.0),
        (-f32::NAN, -260.0),
    ];
    for (p, db) in ends {
        t.value(format_args!("power_db({p:?})"), power_db(p), db);
        is_plain(t, p);
    }
}

/// 2^32 / 64 patterns, evenly spread, in so many parts; the seed says which of each 64.
pub const PARTS: usize = 64;

pub fn spread(t: &mut Tally, part: usize, seed: u64) {
    let each = (1 << 32) / 64 / PARTS;
    for i in part * each..(part + 1) * each {
        is_plain(t, f32::from_bits((64 * i) as u32 + (seed % 64) as u32));
    }
}
