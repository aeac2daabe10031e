// Long mixed lists of calls of a bank and a gate from fresh, beside floor.rs.
use crate::calls::{gate_readings_of, readings_of, Call, Lent};
use crate::decibels::plain_dbs;
use crate::explain::as_stored;
use crate::faults;
use crate::floor::{FloorBank, Gate};
use crate::linear_rows;
use crate::numbers::{any_f64, any_levels, sample, Feed, Rng};
use crate::pairs;
use crate::rules::{garbled, Alone};
use crate::tally::Tally;
use crate::wolfcloak::{self as lib, act_as, LEADER, TECHNICIAN};
use std::fmt::Arguments;

/// What a run hears first, and for how many hops; what it hears from then on, by turns; and whether floats are put into its stores.
pub struct Plan {
    first: (Feed, usize),
    then: &'static [Feed],
    injected: bool,
}

pub const PLANS: [Plan; 5] = [
    Plan { first: (Feed::Noise, 3900), then: &[Feed::Noise, Feed::Silence], injected: false },
    Plan { first: (Feed::Silence, 900), then: &[Feed::Noise], injected: false },
    Plan { first: (Feed::Partly, 4200), then: &[Feed::Partly, Feed::Noise, Feed::Silence], injected: true },
    Plan { first: (Feed::Edges, 300), then: &[Feed::Edges, Feed::Bottom, Feed::Numbers, Feed::Silence], injected: false },
    Plan { first: (Feed::Numbers, 200), then: &[Feed::Any, Feed::Numbers, Feed::Noise], injected: true },
];

/// Window lengths: the usual ones, the shortest, the longest, doubles, and twice eight at once.
pub const LENGTHS: [&[u16]; 6] = [
    &[15, 75, 375],
    &[1],
    &[375],
    &[5, 5, 7, 5, 1, 7],
    &[1, 2, 3, 5, 8, 13, 21, 34],
    &[375, 3, 374, 250, 125, 62, 31, 1],
];

/// Levels at which noise and tones give all kinds of marks.
pub const LEVELS: [[i32; 3]; 4] = [[48, 16, 65535], [40, 24, 96], [8, 40, 65535], [56, 8, 72]];

/// The library's stores and marks, and floor.rs's bank and gate beside them.
pub struct Both {
    u: Vec<u16>,
    f: Vec<f64>,
    gate: Vec<u16>,
    gate_f: Vec<f64>,
    rise: Vec<u8>,
    drop: Vec<u8>,
    old_bank: FloorBank,
    old_gate: Gate,
}

impl Both {
    pub fn new(t: &mut Tally, n: usize, levels: [i32; 3], lengths: &[u16]) -> Both {
        let (old_bank, old_gate) = (FloorBank::new(n), Gate::made(n, levels, lengths));
        let ((mut u, mut f), (mut gate, mut gate_f)) = (old_bank.to_stores(), old_gate.to_stores());
        u.fill(77);
        f.fill(77.0);
        gate.fill(77);
        gate_f.fill(77.0);
        t.answer(format_args!("bank_new {n}"), lib::bank_new(&mut u, &mut f, n), 0);
        t.answer(format_args!("gate_new {n}"), lib::gate_new(&mut gate, &mut gate_f, n, levels, lengths), 0);
        let mut both = Both { u, f, gate, gate_f, rise: vec![7; n], drop: vec![7; n], old_bank, old_gate };
        both.compare_bank(t, format_args!("bank_new {n}"));
        both.compare_gate(t, format_args!("gate_new {n}"), true);
        both
    }

    fn compare_bank(&self, t: &mut Tally, what: Arguments) {
        let (u, f) = self.old_bank.to_stores();
        t.words(what, &self.u, &u);
        t.floats(what, &self.f, &f);
    }

    /// The rings of samples are left out unless `whole`.
    fn compare_gate(&mut self, t: &mut Tally, what: Arguments, whole: bool) {
        t.words(what, &self.gate, &self.old_gate.words());
        let mut at = 0;
        let last_ring = 3 * self.gate[5] as usize; // behind the lengths stand the pairs of R-3
        for (i, part) in self.old_gate.floats().into_iter().enumerate() {
            if whole || i % 3 != 1 || i > last_ring {
                t.floats(what, &self.gate_f[at..at + part.len()], part);
            }
            at += part.len();
        }
        t.check(at == self.gate_f.len(), format_args!("{what}: {at} floats are due"));
    }

    fn compare_marks(&mut self, t: &mut Tally, what: Arguments, marks: (Vec<bool>, Vec<bool>)) {
        let marked = |marks: &[bool]| marks.iter().filter(|&&m| m).count() as u64;
        t.rises += marked(&marks.0);
        t.drops += marked(&marks.1);
        for (name, got, want) in [("rise", &mut self.rise, marks.0), ("drop", &mut self.drop, marks.1)] {
            let same = got.iter().zip(&want).all(|(&g, &w)| g == w as u8);
            t.check(same, format_args!("{what}: {name} is {got:?}, and {want:?} is due"));
            got.fill(7);
        }
    }

    pub fn bank_update(&mut self, t: &mut Tally, what: Arguments, db: &[f64], power: &[f32], hold: Option<bool>) {
        let due = if self.u[1] == 0 && garbled(db) { 6 } else { 0 };
        t.answer(what, lib::bank_update(&mut self.u, &mut self.f, db, power, hold), due);
        if due == 0 {
            self.old_bank.update_holding_reference(db, power, hold == Some(true));
        }
        self.compare_bank(t, what);
    }

    pub fn gate_update(&mut self, t: &mut Tally, what: Arguments, db: &[f64], power: &[f32], whole: bool) {
        let marks = (&mut self.rise[..], &mut self.drop[..]);
        let gate = (&mut self.gate[..], &mut self.gate_f[..]);
        t.answer(what, lib::gate_update((&self.u, &self.f), gate, (db, power), marks), 0);
        self.gate_updated(t, what, db, power, whole);
    }

    /// the library is lent powers alone, and floor.rs their rungs.
    pub fn linear_updates(&mut self, t: &mut Tally, what: Arguments, power: &[f32], hold: bool, whole: bool) {
        let db = plain_dbs(power);
        t.answer(what, linear_rows::bank_update(&mut self.u, &mut self.f, power, hold), 0);
        self.old_bank.update_holding_reference(&db, power, hold);
        self.compare_bank(t, what);
        let marks = (&mut self.rise[..], &mut self.drop[..]);
        let gate = (&mut self.gate[..], &mut self.gate_f[..]);
        t.answer(what, linear_rows::gate_update((&self.u, &self.f), gate, power, marks), 0);
        self.gate_updated(t, what, &db, power, whole);
    }

    fn gate_updated(&mut self, t: &mut Tally, what: Arguments, db: &[f64], power: &[f32], whole: bool) {
        let due = self.old_gate.update(db, power, &self.old_bank);
        self.compare_marks(t, what, due);
        self.compare_gate(t, what, whole);
    }

    pub fn gate_hold(&mut self, t: &mut Tally, what: Arguments) {
        let marks = (&mut self.rise[..], &mut self.drop[..]);
        t.answer(what, lib::gate_hold((&self.u, &self.f), (&self.gate, &mut self.gate_f), marks), 0);
        let due = self.old_gate.hold(&self.old_bank);
        self.compare_marks(t, what, due);
        self.compare_gate(t, what, false);
    }

    /// other levels, and all else fresh; a leader may.
    fn gate_remake(&mut self, t: &mut Tally, what: Arguments, levels: [i32; 3], lengths: &[u16]) {
        act_as(LEADER);
        t.answer(what, lib::gate_remake(&mut self.gate, &mut self.gate_f, levels), 0);
        act_as(TECHNICIAN);
        self.old_gate = Gate::made(self.rise.len(), levels, lengths);
        self.compare_gate(t, what, true);
    }

    pub fn readings(&self, t: &mut Tally, what: Arguments, k: usize) {
        let c = Call { u: &self.u, f: &self.f, gate: &self.gate, gate_f: &self.gate_f, k, ..Call::default() };
        readings_of(t, what, &c, 0, Some(&self.old_bank));
        gate_readings_of(t, what, &c, [0, 0], Some(&self.old_gate), Some(&self.old_bank));
    }

    /// Floats put into both f64 stores, untrue pairs among them; now and then all smoothed dB of the gate become usual again.
    fn inject(&mut self, rng: &mut Rng) {
        for store in [&mut self.f, &mut self.gate_f] {
            for _ in 0..1 + store.len().min(3000) / 9 {
                let i = rng.below(store.len());
                store[i] = any_f64(rng);
            }
        }
        pairs::put_untrue(&mut self.gate_f, &self.f[3 * self.rise.len()..], self.rise.len(), rng);
        if rng.one_in(3) {
            self.gate_f[..self.rise.len()].iter_mut().for_each(|x| *x = -110.0 + 50.0 * rng.unit());
        }
        self.old_bank = FloorBank::of_stores(&self.u, &self.f);
        self.old_gate = Gate::of_stores(&self.gate, &self.gate_f);
    }
}

const HOPS: usize = 8200;

pub fn run(t: &mut Tally, n: usize, plan: &Plan, lengths: &[u16], rng: &mut Rng, alone: &mut Alone) {
    let levels = if rng.one_in(3) { any_levels(rng) } else { rng.pick(&LEVELS) };
    let mut both = Both::new(t, n, levels, lengths);
    let (mut feed, mut left) = plan.first;
    for hop in 0..HOPS {
        if left == 0 {
            (feed, left) = (rng.pick(plan.then), 1 + rng.below(600));
        }
        left -= 1;
        let (db, power): (Vec<f64>, Vec<f32>) = (0..n).map(|k| sample(rng, feed, hop, k)).unzip();
        let hold = rng.pick(&[None, None, Some(false), Some(true)]);
        let what = format_args!("n {n}, {levels:?}, {lengths:?}, hop {hop}");
        let whole = hop % 25 == 0 || both.gate_f.len() < 5000;
        let turn = rng.below(20);
        if (1..16).contains(&turn) {
            both.bank_update(t, what, &db, &power, hold);
        }
        match turn {
            1 => (),
            2 | 3 => both.gate_hold(t, what),
            16.. => both.linear_updates(t, what, &power, hold == Some(true), whole),
            _ => both.gate_update(t, what, &db, &power, whole),
        }
        t.channel_hops += n as u64;
        if t.differences > 1000 {
            return; // a fault of every hop
        }
        if rng.one_in(4 + n / 8) {
            let k = rng.below(n);
            both.readings(t, what, k);
            if !plan.injected {
                as_stored(t, what, &both.u, &both.f, k);
            }
        }
        if rng.one_in(3000) {
            both.gate_remake(t, what, any_levels(rng), lengths);
        }
        if plan.injected && rng.one_in(40) {
            both.inject(rng);
        }
        // with part-filled rings, and with full ones
        if hop == 1200 || hop == 4650 {
            refusals(t, &both, (&db, &power), levels, rng, alone);
        }
    }
    both.compare_gate(t, format_args!("n {n}, after all hops"), true);
}

/// Every fault, as before a slow hop, with a gate of its own: some of its windows are full.
fn refusals(t: &mut Tally, both: &Both, hop: (&[f64], &[f32]), levels: [i32; 3], rng: &mut Rng, alone: &mut Alone) {
    let n = hop.0.len();
    let lengths: &[u16] = if rng.one_in(3) { &[1, 2, 3, 4, 5, 6, 7, 8] } else { &[2, 5, 2] };
    let mut gate = Gate::made(n, levels, lengths);
    (0..7).for_each(|_| drop(gate.update(hop.0, hop.1, &both.old_bank)));
    let bank = (both.u.clone(), both.f.clone());
    let mut l = Lent::new(&bank, &gate.to_stores(), hop.0, hop.1, levels, lengths);
    l.u[1] = 0;
    l.db.iter_mut().filter(|x| x.is_nan()).for_each(|x| *x = -70.0);
    let pairs = match n {
        ..=3 => 100,
        ..=40 => 8,
        _ => 0,
    };
    faults::singles_and_pairs(t, &l, rng, pairs, alone);
    faults::any_words(t, &l, rng, 4000 / (n + 10));
}
