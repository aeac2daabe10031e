// One set of arguments, lent to every function, and what is compared of each.
use crate::decibels::plain_dbs;
use crate::explain::explain;
use crate::floor::{FloorBank, Gate, ABSENT};
use crate::layout::place;
use crate::linear_rows;
use crate::rules::{
    refusal, Rule, GATE_FLOATS, GATE_HOLD, GATE_MAKING, GATE_READ, GATE_REMAKING, GATE_SOUND, GATE_STORE, GATE_UPDATE, GATE_UPDATE_LINEAR,
    MAKING, PAIR, READ, RECEIVE, SOUND, STORE, UPDATE, UPDATE_LINEAR,
};
use crate::tally::Tally;
use crate::wolfcloak as lib;
use std::fmt::Arguments;

#[derive(Clone, Copy, Default)]
pub struct Call<'a> {
    pub u: &'a [u16],
    pub f: &'a [f64],
    pub db: &'a [f64],
    pub power: &'a [f32],
    pub k: usize,
    pub n: usize,
    pub gate: &'a [u16],
    pub gate_f: &'a [f64],
    pub rise: &'a [u8],
    pub drop: &'a [u8],
    pub levels: [i32; 3],
    pub lengths: &'a [u16],
}

/// The arguments, with room behind each slice: the first `_len` entries are lent, and the others must stay as they are.
#[derive(Clone)]
pub struct Lent {
    pub u: Vec<u16>,
    pub u_len: usize,
    pub f: Vec<f64>,
    pub f_len: usize,
    pub db: Vec<f64>,
    pub db_len: usize,
    pub power: Vec<f32>,
    pub power_len: usize,
    pub k: usize,
    pub n: usize,
    pub hold: Option<bool>,
    pub gate: Vec<u16>,
    pub gate_len: usize,
    pub gate_f: Vec<f64>,
    pub gate_f_len: usize,
    pub rise: Vec<u8>,
    pub rise_len: usize,
    pub drop: Vec<u8>,
    pub drop_len: usize,
    pub levels: [i32; 3],
    pub lengths: Vec<u16>,
}

fn with_room<T: Copy>(s: &[T], x: T) -> Vec<T> {
    s.iter().copied().chain([x; 4]).collect()
}

fn bits(f: &[f64]) -> Vec<u64> {
    f.iter().map(|x| x.to_bits()).collect()
}

pub type Stores = (Vec<u16>, Vec<f64>);

/// Two stores after a call: all bits as before if it was refused, else what is due, and as before beyond what was lent.
fn compare_stores(t: &mut Tally, what: Arguments, before: (&[u16], &[f64]), u: &[u16], f: &[f64], due: Option<Stores>) {
    let Some((want_u, want_f)) = due else {
        t.words(what, u, before.0);
        t.check(bits(f) == bits(before.1), format_args!("{what}: refused, and an f64 store has changed"));
        return;
    };
    let (u_len, f_len) = (want_u.len(), want_f.len());
    t.words(what, &u[..u_len], &want_u);
    t.floats(what, &f[..f_len], &want_f);
    t.words(what, &u[u_len..], &before.0[u_len..]);
    t.floats(what, &f[f_len..], &before.1[f_len..]);
}

impl Lent {
    /// The stores of a bank, those of a gate, a hop, and what makes such a gate.
    pub fn new(bank: &Stores, gate: &Stores, db: &[f64], power: &[f32], levels: [i32; 3], lengths: &[u16]) -> Lent {
        let n = db.len();
        let ((u, f), (gate, gate_f)) = (bank, gate);
        Lent {
            u: with_room(u, 7),
            u_len: u.len(),
            f: with_room(f, 7.5),
            f_len: f.len(),
            db: with_room(db, -90.0),
            db_len: db.len(),
            power: with_room(power, 0.5),
            power_len: power.len(),
            k: 0,
            n,
            hold: None,
            gate: with_room(gate, 7),
            gate_len: gate.len(),
            gate_f: with_room(gate_f, 7.5),
            gate_f_len: gate_f.len(),
            rise: vec![77; n + 4],
            rise_len: n,
            drop: vec![78; n + 4],
            drop_len: n,
            levels,
            lengths: lengths.to_vec(),
        }
    }

    pub fn call(&self) -> Call<'_> {
        Call {
            u: &self.u[..self.u_len],
            f: &self.f[..self.f_len],
            db: &self.db[..self.db_len],
            power: &self.power[..self.power_len],
            k: self.k,
            n: self.n,
            gate: &self.gate[..self.gate_len],
            gate_f: &self.gate_f[..self.gate_f_len],
            rise: &self.rise[..self.rise_len],
            drop: &self.drop[..self.drop_len],
            levels: self.levels,
            lengths: &self.lengths,
        }
    }

    fn compare_bank(&self, t: &mut Tally, what: Arguments, u: &[u16], f: &[f64], due: Option<Stores>) {
        compare_stores(t, what, (&self.u, &self.f), u, f, due);
    }

    fn compare_gate(&self, t: &mut Tally, what: Arguments, g: &[u16], f: &[f64], due: Option<Stores>) {
        compare_stores(t, what, (&self.gate, &self.gate_f), g, f, due);
    }

    /// Rise and drop after a call.
    fn compare_marks(&self, t: &mut Tally, what: Arguments, rise: &[u8], drop: &[u8], due: Option<(Vec<bool>, Vec<bool>)>) {
        let (want_rise, want_drop) = due.unwrap_or_default();
        for (name, got, want, before) in [("rise", rise, want_rise, &self.rise), ("drop", drop, want_drop, &self.drop)] {
            let beyond = before.iter().copied().skip(want.len());
            let want: Vec<u8> = want.iter().map(|&m| m as u8).chain(beyond).collect();
            t.check(got == want, format_args!("{what}: {name} is {got:?}, and {want:?} is due"));
        }
    }
}

/// Every function with these arguments.
pub fn every_call(t: &mut Tally, what: Arguments, l: &Lent) {
    let c = l.call();
    making(t, format_args!("{what}: bank_new"), l);
    gate_making(t, format_args!("{what}: gate_new"), l);
    let then = |first: u16, rules: &[Rule]| if first != 0 { first } else { refusal(&c, &[rules]) };
    let bank = refusal(&c, &[&STORE, &SOUND]);
    update(t, format_args!("{what}: bank_update {:?}", l.hold), l, then(bank, &UPDATE));
    update_linear(t, format_args!("{what}: bank_update_linear {:?}", l.hold), l, then(bank, &UPDATE_LINEAR));
    readings(t, what, &c, then(bank, &READ));
    let gate = refusal(&c, &[&GATE_STORE, &GATE_SOUND, &GATE_FLOATS]);
    remaking(t, format_args!("{what}: gate_remake"), l, then(gate, &GATE_REMAKING));
    let both = then(if bank != 0 { bank } else { gate }, &PAIR);
    gate_update(t, format_args!("{what}: gate_update"), l, then(both, &GATE_UPDATE));
    gate_update_linear(t, format_args!("{what}: gate_update_linear"), l, then(both, &GATE_UPDATE_LINEAR));
    gate_hold(t, format_args!("{what}: gate_hold"), l, then(both, &GATE_HOLD));
    receive(t, format_args!("{what}: receive {:?}", l.hold), l, then(both, &RECEIVE));
    gate_readings(t, what, &c, then(gate, &GATE_READ), then(both, &GATE_READ));
}

pub fn making(t: &mut Tally, what: Arguments, l: &Lent) {
    let (mut u, mut f) = (l.u.clone(), l.f.clone());
    let due = refusal(&l.call(), &[&MAKING]);
    t.answer(what, lib::bank_new(&mut u[..l.u_len], &mut f[..l.f_len], l.n), due);
    l.compare_bank(t, what, &u, &f, (due == 0).then(|| FloorBank::new(l.n).to_stores()));
}

pub fn gate_making(t: &mut Tally, what: Arguments, l: &Lent) {
    let (mut g, mut f) = (l.gate.clone(), l.gate_f.clone());
    let due = refusal(&l.call(), &[&GATE_MAKING]);
    t.answer(what, lib::gate_new(&mut g[..l.gate_len], &mut f[..l.gate_f_len], l.n, l.levels, &l.lengths), due);
    l.compare_gate(t, what, &g, &f, (due == 0).then(|| Gate::made(l.n, l.levels, &l.lengths).to_stores()));
}

/// R-14 in plain Rust: n and the lengths stay where they stand, the levels are the new ones, the rise floors last used are NaN, and all else is 0.
pub fn remade(gate: &[u16], gate_f: &[f64], levels: [i32; 3]) -> Stores {
    let (mut g, mut f) = (gate.to_vec(), vec![0.0; gate_f.len()]);
    g[1] = 0;
    for (word, level) in g[2..5].iter_mut().zip(levels) {
        *word = if level == ABSENT { 65535 } else { (level + 800) as u16 };
    }
    g[6..].chunks_mut(3).for_each(|of_a_length| of_a_length[1..].fill(0));
    let n = g[0] as usize;
    let used = f.len() - 2 * n;
    f[used..used + n].fill(f64::NAN);
    (g, f)
}

/// Beside the plain writing, and that beside floor.rs's gate, made with these lengths.
fn remaking(t: &mut Tally, what: Arguments, l: &Lent, due: u16) {
    let (mut g, mut f) = (l.gate.clone(), l.gate_f.clone());
    t.answer(what, lib::gate_remake(&mut g[..l.gate_len], &mut f[..l.gate_f_len], l.levels), due);
    let c = l.call();
    let plain = (due == 0).then(|| remade(c.gate, c.gate_f, l.levels));
    if let Some((words, floats)) = &plain {
        let lengths: Vec<u16> = c.gate[6..].chunks(3).take(c.gate[5] as usize).map(|of_a_length| of_a_length[0]).collect();
        let (made, made_f) = Gate::made(c.gate[0] as usize, l.levels, &lengths).to_stores();
        t.words(format_args!("{what}: plain beside floor.rs"), words, &made);
        t.floats(format_args!("{what}: plain beside floor.rs"), floats, &made_f);
    }
    l.compare_gate(t, what, &g, &f, plain);
}

fn update(t: &mut Tally, what: Arguments, l: &Lent, due: u16) {
    let c = l.call();
    let (mut u, mut f) = (l.u.clone(), l.f.clone());
    t.answer(what, lib::bank_update(&mut u[..l.u_len], &mut f[..l.f_len], c.db, c.power, l.hold), due);
    updated(t, what, l, (&u, &f), c.db, due);
}

/// the oracle's dB are the rungs of the powers.
fn update_linear(t: &mut Tally, what: Arguments, l: &Lent, due: u16) {
    let c = l.call();
    let (mut u, mut f) = (l.u.clone(), l.f.clone());
    t.answer(what, linear_rows::bank_update(&mut u[..l.u_len], &mut f[..l.f_len], c.power, l.hold == Some(true)), due);
    updated(t, what, l, (&u, &f), &plain_dbs(c.power), due);
}

fn updated(t: &mut Tally, what: Arguments, l: &Lent, (u, f): (&[u16], &[f64]), db: &[f64], due: u16) {
    let c = l.call();
    let stepped = || {
        let mut oracle = FloorBank::of_stores(c.u, c.f);
        oracle.update_holding_reference(db, c.power, l.hold == Some(true));
        oracle.to_stores()
    };
    l.compare_bank(t, what, u, f, (due == 0).then(stepped));
}

fn gate_update(t: &mut Tally, what: Arguments, l: &Lent, due: u16) {
    let c = l.call();
    gate_updated(t, what, l, due, c.db, |stores, marks| lib::gate_update((c.u, c.f), stores, (c.db, c.power), marks));
}

/// R-13, as above.
fn gate_update_linear(t: &mut Tally, what: Arguments, l: &Lent, due: u16) {
    let c = l.call();
    let db = plain_dbs(c.power);
    gate_updated(t, what, l, due, &db, |stores, marks| linear_rows::gate_update((c.u, c.f), stores, c.power, marks));
}

type GateStores<'a> = (&'a mut [u16], &'a mut [f64]);
type Marks<'a> = (&'a mut [u8], &'a mut [u8]);

fn gate_updated(t: &mut Tally, what: Arguments, l: &Lent, due: u16, db: &[f64], call: impl Fn(GateStores, Marks) -> u16) {
    let c = l.call();
    let (mut g, mut f, mut rise, mut drop) = (l.gate.clone(), l.gate_f.clone(), l.rise.clone(), l.drop.clone());
    let stores = (&mut g[..l.gate_len], &mut f[..l.gate_f_len]);
    let marks = (&mut rise[..l.rise_len], &mut drop[..l.drop_len]);
    t.answer(what, call(stores, marks), due);
    let stepped = || {
        let mut gate = Gate::of_stores(c.gate, c.gate_f);
        let marks = gate.update(db, c.power, &FloorBank::of_stores(c.u, c.f));
        (gate.to_stores(), marks)
    };
    let (stores, marks) = (due == 0).then(stepped).unzip();
    l.compare_gate(t, what, &g, &f, stores);
    l.compare_marks(t, what, &rise, &drop, marks);
}

fn gate_hold(t: &mut Tally, what: Arguments, l: &Lent, due: u16) {
    let c = l.call();
    let (mut f, mut rise, mut drop) = (l.gate_f.clone(), l.rise.clone(), l.drop.clone());
    let marks = (&mut rise[..l.rise_len], &mut drop[..l.drop_len]);
    t.answer(what, lib::gate_hold((c.u, c.f), (c.gate, &mut f[..l.gate_f_len]), marks), due);
    let held = || {
        let mut gate = Gate::of_stores(c.gate, c.gate_f);
        let marks = gate.hold(&FloorBank::of_stores(c.u, c.f));
        (gate.to_stores(), marks)
    };
    let (stores, marks) = (due == 0).then(held).unzip();
    l.compare_gate(t, what, &l.gate, &f, stores);
    l.compare_marks(t, what, &rise, &drop, marks);
}

/// A run of one hop; receive.rs has longer ones.
fn receive(t: &mut Tally, what: Arguments, l: &Lent, due: u16) {
    let c = l.call();
    let mut after = l.clone();
    let is_held = l.hold == Some(true);
    let bank = (&mut after.u[..l.u_len], &mut after.f[..l.f_len]);
    let gate = (&mut after.gate[..l.gate_len], &mut after.gate_f[..l.gate_f_len]);
    let marks = (&mut after.rise[..l.rise_len], &mut after.drop[..l.drop_len]);
    t.answer(what, lib::receive(bank, gate, (&[is_held as u8], c.db, c.power), marks), due);
    let heard = || {
        let (mut bank, mut gate) = (FloorBank::of_stores(c.u, c.f), Gate::of_stores(c.gate, c.gate_f));
        bank.update_holding_reference(c.db, c.power, is_held);
        let marks = if is_held { gate.hold(&bank) } else { gate.update(c.db, c.power, &bank) };
        ((bank.to_stores(), gate.to_stores()), marks)
    };
    let (stores, marks) = (due == 0).then(heard).unzip();
    let (bank, gate) = stores.unzip();
    l.compare_bank(t, what, &after.u, &after.f, bank);
    l.compare_gate(t, what, &after.gate, &after.gate_f, gate);
    l.compare_marks(t, what, &after.rise, &after.drop, marks);
}

pub const BEFORE: f64 = 12345.678;

/// The smoothed dB, and the early rise; a refused one leaves the value as it was.
fn gate_readings(t: &mut Tally, what: Arguments, c: &Call, smoothed: u16, early: u16) {
    let gate = (smoothed == 0).then(|| Gate::of_stores(c.gate, c.gate_f));
    let bank = (early == 0).then(|| FloorBank::of_stores(c.u, c.f));
    gate_readings_of(t, what, c, [smoothed, early], gate.as_ref(), bank.as_ref());
}

pub fn gate_readings_of(t: &mut Tally, what: Arguments, c: &Call, due: [u16; 2], gate: Option<&Gate>, bank: Option<&FloorBank>) {
    let k = c.k;
    let (mut smoothed, mut early) = (BEFORE, BEFORE);
    t.answer(format_args!("{what}: smoothed_db {k}"), lib::smoothed_db((c.gate, c.gate_f), k, &mut smoothed), due[0]);
    t.value(format_args!("{what}: smoothed_db {k}"), smoothed, gate.map_or(BEFORE, |g| g.smoothed_db(k)));
    t.answer(format_args!("{what}: ema_rise {k}"), lib::ema_rise((c.u, c.f), (c.gate, c.gate_f), k, &mut early), due[1]);
    let want = gate.zip(bank).map_or(BEFORE, |(g, b)| g.ema_rise(k, b) as u8 as f64);
    t.value(format_args!("{what}: ema_rise {k}"), early, want);
}

/// Every reading of channel k; a refused one leaves the values as they were.
fn readings(t: &mut Tally, what: Arguments, c: &Call, due: u16) {
    let oracle = (due == 0).then(|| FloorBank::of_stores(c.u, c.f));
    readings_of(t, what, c, due, oracle.as_ref());
}

pub fn readings_of(t: &mut Tally, what: Arguments, c: &Call, due: u16, oracle: Option<&FloorBank>) {
    let (u, f, k) = (c.u, c.f, c.k);
    let or_before = |read: fn(&FloorBank, usize) -> f64| oracle.map_or(BEFORE, |o| read(o, k));
    let raw = or_before(FloorBank::channel_floor_db);
    let effective = or_before(FloorBank::effective_floor_db);
    let rise = or_before(FloorBank::rise_floor_db);
    type Read = fn(&[u16], &[f64], usize, &mut f64) -> u16;
    let singles: [(&str, Read, f64); 4] = [
        ("channel_floor_db", lib::channel_floor_db, raw),
        ("effective_floor_db", lib::effective_floor_db, effective),
        ("rise_floor_db", lib::rise_floor_db, rise),
        ("spectral_reference", lib::spectral_reference, or_before(FloorBank::spectral_reference)),
    ];
    for (name, read, want) in singles {
        let mut value = BEFORE;
        t.answer(format_args!("{what}: {name} {k}"), read(u, f, k, &mut value), due);
        t.value(format_args!("{what}: {name} {k}"), value, want);
    }
    let mut three = [BEFORE; 3];
    t.answer(format_args!("{what}: floors {k}"), lib::floors(u, f, k, &mut three), due);
    t.floats(format_args!("{what}: floors {k}"), &three, &[effective, rise, raw]);
    explain(t, what, c, due);
    let mut part = [98765, 43210];
    t.answer(format_args!("{what}: ring {k}"), lib::ring(u, f, k, &mut part), due);
    let [start, len] = part;
    match oracle {
        None => t.check(part == [98765, 43210], format_args!("{what}: ring {k}: refused, and start and len have changed")),
        Some(o) if start <= u.len() && len <= u.len() - start => {
            let places = place(u[0] as usize, k);
            t.check(start == places, format_args!("{what}: ring {k}: starts at {start}, and {places} is due"));
            t.words(format_args!("{what}: ring {k}"), &u[start..start + len], o.ring(k));
        }
        Some(_) => t.check(false, format_args!("{what}: ring {k}: {start}, {len} is no part of the store")),
    }
}
