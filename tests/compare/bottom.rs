// hops between the new bottom and the old one, at every edge of a bin and at the float on either side of it.
use crate::floor::ABSENT;
use crate::layout::DECIMATION_HOPS;
use crate::numbers::{old_bottom, OLD_BOTTOM};
use crate::runs::Both;
use crate::tally::Tally;

/// A power of that many dB.
fn power(db: f64) -> f32 {
    10f64.powf(db / 10.0) as f32
}

/// A fresh bank for each float; then one bank that hears them all, each as a slow hop, and its gate. With on at -100 dB the thresholds
/// lie between -260 and -240 dB.
pub fn every_edge(t: &mut Tally) {
    for i in 0..OLD_BOTTOM {
        let db = old_bottom(i);
        let mut both = Both::new(t, 1, [48, 16, ABSENT], &[1]);
        let what = format_args!("a first hop of {db}");
        both.bank_update(t, what, &[db], &[power(db)], None);
        both.readings(t, what, 0);
    }
    for n in [1, 2, 33] {
        let mut both = Both::new(t, n, [-800, 16, 0], &[1, 2]);
        for i in 0..OLD_BOTTOM {
            let db: Vec<f64> = (0..n).map(|k| old_bottom(i + 7 * k)).collect();
            let power: Vec<f32> = db.iter().map(|&x| power(x)).collect();
            let what = format_args!("n {n}, hop {i} around the old bottom");
            for _ in 0..DECIMATION_HOPS {
                both.bank_update(t, what, &db, &power, None);
            }
            both.gate_update(t, what, &db, &power, true);
            both.gate_hold(t, what);
            (0..n).for_each(|k| both.readings(t, what, k));
        }
    }
}
