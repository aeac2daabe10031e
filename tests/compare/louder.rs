// R-10, run on the library: of two lists of bank updates, each dB of the second at least that of the first, the second leaves no raw
// floor lower. Of its neighbours, which are not claimed, an example each.
use crate::floor::FloorBank;
use crate::layout::{DECIMATION_HOPS, SETTLING};
use crate::numbers::{any_f32, any_f64, edge, sample, Feed, Rng};
use crate::tally::Tally;
use crate::wolfcloak::{self as lib, act_as, LEADER, TECHNICIAN};
use std::fmt::Arguments;

/// A fresh bank and what it hears.
#[derive(Clone)]
struct Bank {
    n: usize,
    u: Vec<u16>,
    f: Vec<f64>,
}

impl Bank {
    fn new(n: usize) -> Bank {
        let (mut u, mut f) = FloorBank::new(n).to_stores();
        assert_eq!(lib::bank_new(&mut u, &mut f, n), 0);
        Bank { n, u, f }
    }

    /// An update with any powers, held or not; now and then two that are refused come before it.
    fn hear(&mut self, t: &mut Tally, what: Arguments, db: &[f64], rng: &mut Rng) {
        let power: Vec<f32> = (0..self.n).map(|_| any_f32(rng)).collect();
        let hold = rng.pick(&[None, Some(false), Some(true)]);
        if rng.one_in(40) {
            t.answer(what, lib::bank_update(&mut self.u, &mut self.f, &db[1..], &power, hold), 5);
            act_as(LEADER); // who may not
            t.answer(what, lib::bank_update(&mut self.u, &mut self.f, db, &power, hold), 16);
            act_as(TECHNICIAN);
        }
        t.answer(what, lib::bank_update(&mut self.u, &mut self.f, db, &power, hold), 0);
    }

    /// So many updates of one channel, each of this dB.
    fn hear_one(&mut self, t: &mut Tally, what: Arguments, times: usize, db: f64) {
        for _ in 0..times {
            t.answer(what, lib::bank_update(&mut self.u, &mut self.f, &[db], &[1e-9], None), 0);
        }
    }

    fn raw(&self, k: usize) -> f64 {
        let mut value = f64::NAN;
        assert_eq!(lib::channel_floor_db(&self.u, &self.f, k, &mut value), 0);
        value
    }

    fn effective(&self, k: usize) -> f64 {
        let mut value = f64::NAN;
        assert_eq!(lib::effective_floor_db(&self.u, &self.f, k, &mut value), 0);
        value
    }
}

/// How the second list is louder, and what must come of it beside R-10.
#[derive(Clone, Copy, Debug, PartialEq)]
enum Plan {
    TopBin,     // both fill their rings with the top bin: the floors are equal
    OneHop,     // one slow hop, which leaves the ring once that has filled anew: the floors are equal again
    SomeGains,  // a gain on every third channel: the floors of the others are equal
    AnyNumbers, // any dB but NaN, infinities among them
    Noise,      // noise, a gain that rises with time
}

const PLANS: [Plan; 5] = [Plan::TopBin, Plan::OneHop, Plan::SomeGains, Plan::AnyNumbers, Plan::Noise];
const SIZES: [usize; 4] = [1, 2, 33, 64];
pub const PAIRS: usize = PLANS.len() * SIZES.len();

/// Which hop is the loud one: a slow one.
const LOUD: usize = DECIMATION_HOPS * 40;
const HOPS: usize = LOUD + SETTLING + DECIMATION_HOPS * 5;

/// Any number but NaN.
fn number(rng: &mut Rng) -> f64 {
    let x = any_f64(rng);
    if x.is_nan() { f64::NEG_INFINITY } else { x }
}

/// dB of channel k for the first list and the second.
fn heard(plan: Plan, rng: &mut Rng, hop: usize, k: usize) -> (f64, f64) {
    let first = match plan {
        Plan::TopBin => rng.pick(&[-0.5, -0.25, 0.0, 7.0, 1e9, f64::MAX, f64::INFINITY]),
        Plan::AnyNumbers => number(rng),
        Plan::OneHop if hop == LOUD => -130.0,
        Plan::SomeGains if rng.one_in(3) => edge(rng),
        _ => sample(rng, Feed::Noise, hop, k).0,
    };
    let second = match plan {
        Plan::TopBin => first + 10.0 * rng.unit(),
        Plan::OneHop => first + if hop == LOUD { 60.0 } else { 0.0 },
        Plan::SomeGains => first + if k % 3 == 0 { rng.pick(&[2f64.powi(-45), 0.5, 6.0, 40.0]) } else { 0.0 },
        Plan::AnyNumbers => first.max(number(rng)),
        Plan::Noise => first + hop as f64 / 300.0,
    };
    (first, second)
}

/// Pair i: after each slow hop every raw floor of the second bank is at least the first's, and some floor was really higher.
pub fn any_pair(t: &mut Tally, i: usize, rng: &mut Rng) {
    let (plan, n) = (PLANS[i % PLANS.len()], SIZES[i / PLANS.len()]);
    let what = format_args!("louder, {plan:?}, n {n}");
    let (mut one, mut other) = (Bank::new(n), Bank::new(n));
    let mut higher = 0;
    for hop in 0..HOPS {
        let (first, second): (Vec<f64>, Vec<f64>) = (0..n).map(|k| heard(plan, rng, hop, k)).unzip();
        one.hear(t, what, &first, rng);
        other.hear(t, what, &second, rng);
        for k in (0..n).filter(|_| hop % DECIMATION_HOPS == 0 || hop + 1 == HOPS) {
            let (a, b) = (one.raw(k), other.raw(k));
            t.check(a <= b, format_args!("{what}: after hop {hop} raw floor {k} falls from {a:?} to {b:?}"));
            higher += (a < b) as usize;
            let alike = match plan {
                Plan::TopBin => true,
                Plan::OneHop => hop < LOUD || hop >= LOUD + SETTLING,
                Plan::SomeGains => k % 3 != 0,
                _ => false,
            };
            t.check(a == b || !alike, format_args!("{what}: after hop {hop} raw floor {k} is {a:?} and {b:?}"));
        }
    }
    t.check((higher > 0) == (plan != Plan::TopBin), format_args!("{what}: {higher} floors were higher"));
    t.channel_hops += 2 * (n * HOPS) as u64;
}

/// Why R-10 says no more: one channel, and the two floors that each wrong claim would have in another order.
pub fn no_more(t: &mut Tally) {
    let what = format_args!("louder, no more than that");
    let after = |t: &mut Tally, list: &[(usize, f64)]| {
        let mut bank = Bank::new(1);
        list.iter().for_each(|&(times, db)| bank.hear_one(t, what, times, db));
        bank
    };
    // strictly: within a bin the floor stays
    let (one, other) = (after(t, &[(1, -50.0)]), after(t, &[(1, -49.75)]));
    t.check(one.raw(0) == other.raw(0), format_args!("{what}: strictly"));
    // a NaN is not below -50
    let nan = after(t, &[(1, f64::NAN)]);
    t.check(one.raw(0) > nan.raw(0), format_args!("{what}: with a NaN"));
    // a longer list
    let longer = after(t, &[(DECIMATION_HOPS, -50.0), (1, -130.0)]);
    t.check(one.raw(0) > longer.raw(0), format_args!("{what}: a longer list"));
    // effective floors: at -200 the block takes no seed, and the first entry is left out; at the bottom it is an entry like any other
    let bottom = Bank::new(1).raw(0);
    let (one, other) = (after(t, &[(DECIMATION_HOPS, -200.0), (1, -50.0)]), after(t, &[(DECIMATION_HOPS, bottom), (1, -50.0)]));
    t.check(one.raw(0) <= other.raw(0), format_args!("{what}: raw floors, too"));
    t.check(one.effective(0) > other.effective(0), format_args!("{what}: effective floors"));
}
