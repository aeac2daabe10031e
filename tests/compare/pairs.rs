// R-3 in plain Rust, over the stores as they are lent: the remembered pairs, and what is judged with them.
use crate::faults::{any_bank, any_gate};
use crate::floor;
use crate::numbers::{any_f32, any_f64, any_lengths, any_levels, same, Rng};
use crate::tally::Tally;
use crate::wolfcloak as lib;
use std::fmt::Arguments;

/// The rise floors last used and their thresholds after a call: `rise` begins with the bank's stored rise floors, and on is in dB. The pairs
/// are the last 2n floats of a gate; one is renewed if its floor differs, and a NaN does.
pub fn after(gate_f: &[f64], rise: &[f64], n: usize, on: f64) -> (Vec<f64>, Vec<f64>) {
    let (used, thresholds) = gate_f[gate_f.len() - 2 * n..].split_at(n);
    let renewed = |k: usize| if rise[k] == used[k] { (used[k], thresholds[k]) } else { (rise[k], floor::ladder(rise[k] + on)) };
    (0..n).map(renewed).unzip()
}

/// Pairs that no list of calls leaves, among others: of the stored rise floor, of the other zero, of a NaN with the same bits, of
/// another floor, each with any threshold.
pub fn put_untrue(gate_f: &mut [f64], rise: &[f64], n: usize, rng: &mut Rng) {
    let at = gate_f.len() - 2 * n;
    for k in 0..n {
        let other = rng.below(n);
        gate_f[at + k] = match rng.below(8) {
            0 => f64::NAN,
            1 => rise[other],
            2 => any_f64(rng),
            3 if rise[k] == 0.0 => -rise[k],
            _ => rise[k],
        };
        gate_f[at + n + k] = match rng.below(4) {
            0 => any_f64(rng),
            1 => floor::ladder(rise[other]),
            _ => 10f64.powf(-14.0 * rng.unit()),
        };
    }
}

/// The rises of a gate that has started, by its stores after a call and these thresholds.
fn rises(bank: &floor::FloorBank, gate: &[u16], gate_f: &[f64], thresholds: &[f64]) -> Vec<u8> {
    let n = gate[0] as usize;
    let early = |k: usize| gate[4] != 65535 && gate_f[k] >= bank.effective_floor_db(k) + (gate[4] as f64 - 800.0) / 8.0;
    let mut marks: Vec<bool> = (0..n).map(early).collect();
    let mut at = n;
    for l in gate[6..].chunks(3).take(gate[5] as usize) {
        let m = l[0] as usize;
        let (recent, previous) = gate_f[at + 2 * m * n..][..2 * n].split_at(n);
        let stronger = |k: usize, d: usize| recent[(k + d) % n] > recent[k] || recent[(k + 2 * n - d) % n] > recent[k];
        for k in 0..n {
            let level = thresholds[k] * m as f64;
            let full = l[2] as usize == 2 * m;
            marks[k] |= full && recent[k] >= level && previous[k] >= level && !stronger(k, 1) && !stronger(k, 2);
        }
        at += 2 * m * n + 2 * n;
    }
    marks.into_iter().map(|m| m as u8).collect()
}

/// What a call left, beside the plain writing: the pairs and the rises. Counts marks that the ladder's thresholds would not give.
fn judge(t: &mut Tally, what: Arguments, bank: (&[u16], &[f64]), before: &[f64], gate: (&[u16], &[f64]), rise: &[u8]) {
    let n = gate.0[0] as usize;
    let floors = &bank.1[3 * n..4 * n];
    let on = (gate.0[2] as f64 - 800.0) / 8.0;
    let (used, thresholds) = after(before, floors, n, on);
    t.floats(what, &gate.1[gate.1.len() - 2 * n..], &[used, thresholds.clone()].concat());
    let oracle = floor::FloorBank::of_stores(bank.0, bank.1);
    let due = rises(&oracle, gate.0, gate.1, &thresholds);
    t.check(rise == due, format_args!("{what}: rise is {rise:?}, and {due:?} is due"));
    let anew: Vec<f64> = floors.iter().map(|x| floor::ladder(x + on)).collect();
    let parted = rises(&oracle, gate.0, gate.1, &anew).iter().zip(&due).filter(|(a, d)| a != d).count();
    t.untrue += parted as u64;
}

/// Sound stores with pairs of all kinds: an update, and a hold.
pub fn any_pairs(t: &mut Tally, n: usize, rng: &mut Rng) {
    let bank = any_bank(n, rng);
    let gate = any_gate(&bank, any_levels(rng), &any_lengths(rng, 6), rng);
    let db: Vec<f64> = (0..n).map(|_| any_f64(rng)).collect();
    let power: Vec<f32> = (0..n).map(|_| any_f32(rng)).collect();
    let lent = (&bank.0[..], &bank.1[..]);
    let (mut rise, mut drop) = (vec![7; n], vec![7; n]);

    let (mut g, mut f) = gate.clone();
    let what = format_args!("n {n}, pairs: gate_update");
    t.answer(what, lib::gate_update(lent, (&mut g, &mut f), (&db, &power), (&mut rise, &mut drop)), 0);
    judge(t, what, lent, &gate.1, (&g, &f), &rise);

    let mut f = gate.1.clone();
    let what = format_args!("n {n}, pairs: gate_hold");
    t.answer(what, lib::gate_hold(lent, (&gate.0, &mut f), (&mut rise, &mut drop)), 0);
    let others = f.len() - 2 * n;
    t.floats(what, &f[..others], &gate.1[..others]);
    if gate.0[1] == 1 {
        judge(t, what, lent, &gate.1, (&gate.0, &f), &rise);
    } else {
        let kept = f.iter().zip(&gate.1).all(|(a, b)| same(*a, *b)) && rise.iter().chain(&drop).all(|&m| m == 0);
        t.check(kept, format_args!("{what}: started 0, and something has changed or is marked"));
    }
}
