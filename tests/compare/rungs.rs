// the ladder, seen through a gate of one channel, m = 1, on = 0 dB: with the rise floor at s a hold marks a rise exactly where both
// sums reach ladder(s). Each rung, the floats beside it, and the ends of the range by their rungs' numbers; any s beside the oracle's.
use crate::floor::{self, rung, FloorBank, Gate, ABSENT, TOP, ZERO_DB};
use crate::numbers::{any_f64, Rng};
use crate::tally::Tally;
use crate::wolfcloak::gate_hold;

struct Set {
    bank: (Vec<u16>, Vec<f64>),
    gate: (Vec<u16>, Vec<f64>),
}

impl Set {
    /// Started, and both windows full.
    fn new() -> Set {
        let mut gate = Gate::made(1, [0, 0, ABSENT], &[1]).to_stores();
        gate.0[1] = 1;
        gate.0[8] = 2;
        Set { bank: FloorBank::new(1).to_stores(), gate }
    }

    /// Whether sums of this size open the channel, its rise floor at s.
    fn opens(&mut self, t: &mut Tally, s: f64, sum: f64) -> bool {
        self.bank.1[3] = s;
        self.gate.1[3..5].fill(sum); // behind them stands the remembered pair, which follows s
        let (mut rise, mut drop) = ([9], [9]);
        let answer = gate_hold((&self.bank.0, &self.bank.1), (&self.gate.0, &mut self.gate.1), (&mut rise, &mut drop));
        t.answer(format_args!("hold, rise floor {s:?}"), answer, 0);
        rise == [1]
    }

    /// The library's threshold for s is this value, and so is the oracle's.
    fn is(&mut self, t: &mut Tally, s: f64, value: f64) {
        let below = value.next_down();
        let (at, under) = (self.opens(t, s, value), self.opens(t, s, below));
        t.check(at && !under, format_args!("ladder({s:?}) is not {value:?}: {value:?} opens: {at}, {below:?} opens: {under}"));
        t.value(format_args!("the oracle's ladder({s:?})"), floor::ladder(s), value);
    }
}

pub fn each_rung(t: &mut Tally) {
    let mut set = Set::new();
    for r in 0..=TOP {
        let s = (r as f64 - ZERO_DB as f64) / 8.0;
        set.is(t, s, rung(r));
        set.is(t, s.next_up(), rung(TOP.min(r + 1)));
        set.is(t, s.next_down(), rung(r));
    }
    let least = f64::from_bits(1);
    let edges = [
        (least, ZERO_DB + 1),
        (-least, ZERO_DB),
        (-0.0, ZERO_DB),
        (0.1, ZERO_DB + 1),
        (-0.1, ZERO_DB),
        (-0.125, ZERO_DB - 1),
        (f64::MAX, TOP),
        (f64::INFINITY, TOP),
        (f64::MIN, 0),
        (f64::NEG_INFINITY, 0),
    ];
    for (s, r) in edges {
        set.is(t, s, rung(r));
    }
    // nothing reaches a NaN
    let opens = set.opens(t, f64::NAN, f64::INFINITY);
    t.check(!opens && floor::ladder(f64::NAN).is_nan(), format_args!("ladder(NaN) is a number"));
}

pub fn any_s(t: &mut Tally, rng: &mut Rng) {
    let mut set = Set::new();
    for i in 0..200_000 {
        let s = if i % 2 == 0 { any_f64(rng) } else { -270.0 + 680.0 * rng.unit() };
        if !s.is_nan() {
            set.is(t, s, floor::ladder(s));
        }
    }
}
