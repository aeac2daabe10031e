// A run of hops beside the single calls of its hops and beside floor.rs: long lists cut into runs, garbled hops, and every refusal alone and in
// pairs. Here a run has any number of hops; calls.rs lends one of a single hop with every other call's faults.
use crate::calls::Call;
use crate::faults::{any_bank, any_gate};
use crate::floor::{FloorBank, Gate};
use crate::layout::DECIMATION_HOPS;
use crate::numbers::{any_lengths, any_levels, sample, Feed, Rng};
use crate::rules::{garbled, refusal, GATE_FLOATS, GATE_SOUND, GATE_STORE, PAIR, SOUND, STORE};
use crate::runs::{LENGTHS, LEVELS};
use crate::tally::Tally;
use crate::wolfcloak::{self as lib, act_as, KEEPER, LEADER, TECHNICIAN};
use std::collections::BTreeSet;
use std::fmt::Arguments;

/// A block of one, of two, a whole one, one and a channel alone, one and some, and sixteen.
pub const SIZES: [usize; 6] = [1, 2, 32, 33, 40, 512];

/// A bank and a gate.
#[derive(Clone)]
struct Set {
    u: Vec<u16>,
    f: Vec<f64>,
    gate: Vec<u16>,
    gate_f: Vec<f64>,
}

/// Hops one after another, and the places of their marks.
#[derive(Clone, Default)]
struct Run {
    hold: Vec<u8>,
    db: Vec<f64>,
    power: Vec<f32>,
    rise: Vec<u8>,
    drop: Vec<u8>,
}

/// floor.rs's bank and gate.
struct Old {
    bank: FloorBank,
    gate: Gate,
}

impl Set {
    fn of(old: &Old) -> Set {
        let ((u, f), (gate, gate_f)) = (old.bank.to_stores(), old.gate.to_stores());
        Set { u, f, gate, gate_f }
    }

    fn fresh(n: usize, levels: [i32; 3], lengths: &[u16]) -> Set {
        let mut set = Set::of(&Old { bank: FloorBank::new(n), gate: Gate::made(n, levels, lengths) });
        assert_eq!(lib::bank_new(&mut set.u, &mut set.f, n), 0);
        assert_eq!(lib::gate_new(&mut set.gate, &mut set.gate_f, n, levels, lengths), 0);
        set
    }

    /// Sound and nothing more, at this phase.
    fn any(n: usize, phase: usize, levels: [i32; 3], lengths: &[u16], rng: &mut Rng) -> Set {
        let (mut u, f) = any_bank(n, rng);
        u[1] = phase as u16;
        let bank = (u, f);
        let (gate, gate_f) = any_gate(&bank, levels, lengths, rng);
        Set { u: bank.0, f: bank.1, gate, gate_f }
    }

    fn n(&self) -> usize {
        self.u[0] as usize
    }

    fn phase(&self) -> usize {
        self.u[1] as usize
    }

    fn receive(&mut self, r: &mut Run) -> u16 {
        let (bank, gate) = ((&mut self.u[..], &mut self.f[..]), (&mut self.gate[..], &mut self.gate_f[..]));
        lib::receive(bank, gate, (&r.hold, &r.db, &r.power), (&mut r.rise, &mut r.drop))
    }

    /// The single calls of a run: how many of them were refused.
    fn one_by_one(&mut self, r: &mut Run) -> usize {
        let (n, mut refused) = (self.n(), 0);
        for (i, &hold) in r.hold.iter().enumerate() {
            let its = i * n..(i + 1) * n;
            let (db, power) = (&r.db[its.clone()], &r.power[its.clone()]);
            refused += (lib::bank_update(&mut self.u, &mut self.f, db, power, Some(hold != 0)) != 0) as usize;
            let (bank, marks) = ((&self.u[..], &self.f[..]), (&mut r.rise[its.clone()], &mut r.drop[its]));
            let answer = if hold != 0 {
                lib::gate_hold(bank, (&self.gate, &mut self.gate_f), marks)
            } else {
                lib::gate_update(bank, (&mut self.gate, &mut self.gate_f), (db, power), marks)
            };
            refused += (answer != 0) as usize;
        }
        refused
    }
}

impl Old {
    fn of(set: &Set) -> Old {
        Old { bank: FloorBank::of_stores(&set.u, &set.f), gate: Gate::of_stores(&set.gate, &set.gate_f) }
    }

    fn hear(&mut self, r: &mut Run) {
        let n = self.bank.n_channels();
        for (i, &hold) in r.hold.iter().enumerate() {
            let its = i * n..(i + 1) * n;
            let (db, power) = (&r.db[its.clone()], &r.power[its.clone()]);
            self.bank.update_holding_reference(db, power, hold != 0);
            let marks = if hold != 0 { self.gate.hold(&self.bank) } else { self.gate.update(db, power, &self.bank) };
            for (to, from) in [(&mut r.rise, marks.0), (&mut r.drop, marks.1)] {
                to[its.clone()].iter_mut().zip(from).for_each(|(byte, mark)| *byte = mark as u8);
            }
        }
    }
}

fn compare_marks(t: &mut Tally, what: Arguments, n: usize, got: [&[u8]; 2], want: [&[u8]; 2]) {
    for (name, got, want) in [("rise", got[0], want[0]), ("drop", got[1], want[1])] {
        let at = got.iter().zip(want).position(|(g, w)| g != w).unwrap_or(got.len());
        t.check(got == want, format_args!("{what}: {name} of hop {}, channel {} is another", at / n, at % n));
    }
}

/// A set after a run, and another's after the same.
fn compare(t: &mut Tally, what: Arguments, (set, r): (&Set, &Run), (due, due_r): (&Set, &Run)) {
    t.words(what, &set.u, &due.u);
    t.floats(what, &set.f, &due.f);
    t.words(what, &set.gate, &due.gate);
    t.floats(what, &set.gate_f, &due.gate_f);
    compare_marks(t, what, due.n(), [&r.rise, &r.drop], [&due_r.rise, &due_r.drop]);
}

/// One set that is fed runs, one that is fed the same hops by single calls, and floor.rs.
struct Three {
    set: Set,
    singles: Set,
    old: Old,
}

impl Three {
    fn of(set: &Set) -> Three {
        Three { set: set.clone(), singles: set.clone(), old: Old::of(set) }
    }

    /// A run that is accepted.
    fn hear(&mut self, t: &mut Tally, what: Arguments, r: Run) {
        let (mut ours, mut single, mut old) = (r.clone(), r.clone(), r);
        t.answer(what, self.set.receive(&mut ours), 0);
        let refused = self.singles.one_by_one(&mut single);
        t.check(refused == 0, format_args!("{what}: {refused} of its calls are refused alone"));
        self.old.hear(&mut old);
        compare(t, format_args!("{what}, beside single calls"), (&self.set, &ours), (&self.singles, &single));
        compare(t, format_args!("{what}, beside floor.rs"), (&self.set, &ours), (&Set::of(&self.old), &old));
        t.channel_hops += old.rise.len() as u64;
        t.rises += old.rise.iter().map(|&byte| byte as u64).sum::<u64>();
        t.drops += old.drop.iter().map(|&byte| byte as u64).sum::<u64>();
    }
}

// ---- lists cut into runs

/// What is heard: a feed for a while, then another; and static, which comes and goes, and is held.
struct Air {
    feeds: &'static [Feed],
    feed: Feed,
    left: usize,
    is_static: bool,
    hop: usize,
}

impl Air {
    fn of(feeds: &'static [Feed], rng: &mut Rng) -> Air {
        Air { feeds, feed: feeds[0], left: 200, is_static: rng.one_in(2), hop: 0 }
    }

    fn turn(&mut self, rng: &mut Rng) {
        if self.left == 0 {
            (self.feed, self.left) = (rng.pick(self.feeds), 1 + rng.below(600));
        }
        self.left -= 1;
        self.hop += 1;
        self.is_static ^= rng.one_in(if self.is_static { 6 } else { 30 });
    }

    /// The next hops of n channels, none of them garbled where this phase comes before the first.
    fn run(&mut self, n: usize, phase: usize, hops: usize, rng: &mut Rng) -> Run {
        let mut r = Run { rise: vec![77; hops * n], drop: vec![78; hops * n], ..Run::default() };
        for i in 0..hops {
            self.turn(rng);
            let (mut db, power): (Vec<f64>, Vec<f32>) = (0..n).map(|k| sample(rng, self.feed, self.hop, k)).unzip();
            if is_slow(phase, i) && garbled(&db) {
                db.iter_mut().filter(|x| x.is_nan()).for_each(|x| *x = -70.0);
            }
            r.hold.push(if self.is_static { rng.pick(&[1, 2, 128, 255]) } else { 0 });
            r.db.extend(db);
            r.power.extend(power);
        }
        r
    }
}

/// Whether hop i of a run that begins at this phase is a slow one.
fn is_slow(phase: usize, i: usize) -> bool {
    (phase + i) % DECIMATION_HOPS == 0
}

const FEEDS: [&[Feed]; 3] = [
    &[Feed::Noise, Feed::Noise, Feed::Partly, Feed::Silence],
    &[Feed::Numbers, Feed::Edges, Feed::Bottom, Feed::Noise],
    &[Feed::Any, Feed::Noise, Feed::Numbers],
];

/// Of no hop, of one, of about as many as from one slow hop to the next, of a second, and of more than the rings hold.
const HOPS: [usize; 7] = [0, 1, 14, 15, 16, 375, 4000];

/// Runs of all these lengths in any order, others of any length among them, so that each begins anywhere.
fn any_cuts(rng: &mut Rng) -> Vec<usize> {
    let mut cuts: Vec<usize> = HOPS.into_iter().chain(HOPS.into_iter().take(6)).collect();
    cuts.extend((0..6).map(|_| rng.below(40)));
    for i in (1..cuts.len()).rev() {
        cuts.swap(i, rng.below(i + 1));
    }
    cuts
}

/// Lists from fresh stores and, by turns, from any that are sound, for several sets of window lengths.
pub fn lists(t: &mut Tally, n: usize, rng: &mut Rng) {
    for i in 0..if n < 100 { LENGTHS.len() } else { 2 } {
        let lengths = LENGTHS[i];
        let levels = if rng.one_in(3) { any_levels(rng) } else { rng.pick(&LEVELS) };
        let set = if i % 2 == 0 { Set::fresh(n, levels, lengths) } else { Set::any(n, rng.below(DECIMATION_HOPS), levels, lengths, rng) };
        let (mut three, mut air) = (Three::of(&set), Air::of(FEEDS[i % 3], rng));
        for hops in any_cuts(rng) {
            let (from, phase) = (air.hop, three.singles.phase());
            let run = air.run(n, phase, hops, rng);
            three.hear(t, format_args!("run of {hops} from hop {from}, phase {phase}, n {n}, {levels:?}, {lengths:?}, list {i}"), run);
            if t.differences > 1000 {
                return; // a fault of every run
            }
        }
    }
}

// ---- refusals

/// A run and what it is lent with, and who makes the call.
#[derive(Clone)]
struct Lent {
    role: u16,
    set: Set,
    r: Run,
}

impl Lent {
    fn any(n: usize, phase: usize, hops: usize, rng: &mut Rng) -> Lent {
        let set = Set::any(n, phase, any_levels(rng), &any_lengths(rng, 6), rng);
        Lent { role: TECHNICIAN, set, r: Air::of(FEEDS[0], rng).run(n, phase, hops, rng) }
    }

    /// What is due, in the order of the checks.
    fn due(&self) -> u16 {
        if self.role != TECHNICIAN {
            return 16;
        }
        let (set, r) = (&self.set, &self.r);
        let c = Call { u: &set.u, f: &set.f, gate: &set.gate, gate_f: &set.gate_f, ..Call::default() };
        let stores = refusal(&c, &[&STORE, &SOUND, &GATE_STORE, &GATE_SOUND, &GATE_FLOATS, &PAIR]);
        if stores != 0 {
            return stores;
        }
        let long = r.hold.len() * set.n();
        if [r.db.len(), r.power.len(), r.rise.len(), r.drop.len()] != [long; 4] {
            return 5;
        }
        let is_garbled = r.db.chunks(set.n()).enumerate().any(|(i, db)| is_slow(set.phase(), i) && garbled(db));
        if is_garbled { 6 } else { 0 }
    }

    /// Bit for bit.
    fn is_as(&self, l: &Lent) -> bool {
        let bits = |a: &[f64], b: &[f64]| a.iter().map(|x| x.to_bits()).eq(b.iter().map(|x| x.to_bits()));
        let (set, was, r, run) = (&self.set, &l.set, &self.r, &l.r);
        (&set.u, &set.gate, &r.hold, &r.rise, &r.drop) == (&was.u, &was.gate, &run.hold, &run.rise, &run.drop)
            && bits(&set.f, &was.f)
            && bits(&set.gate_f, &was.gate_f)
    }

    /// The call: accepted, and as it is due; or refused, and every bit as before. What was due.
    fn call(&self, t: &mut Tally, what: Arguments) -> u16 {
        let due = self.due();
        if due == 0 {
            Three::of(&self.set).hear(t, what, self.r.clone());
            return 0;
        }
        let mut after = self.clone();
        act_as(self.role);
        t.answer(what, after.set.receive(&mut after.r), due);
        act_as(TECHNICIAN);
        t.check(after.is_as(self), format_args!("{what}: refused with {due}, and what was lent has changed"));
        due
    }

    /// The slow hops of the run.
    fn slow(&self) -> Vec<usize> {
        (0..self.r.hold.len()).filter(|&i| is_slow(self.set.phase(), i)).collect()
    }

    fn put_nan(&mut self, hop: usize, k: usize) {
        let at = hop * self.set.n() + k;
        if let Some(db) = self.r.db.get_mut(at) {
            *db = f64::NAN;
        }
    }
}

/// Runs for a garbled hop: short ones, one of a second and, for two sizes and few phases, which say enough of it, one of more than the rings hold.
fn garbled_runs(n: usize, phase: usize) -> impl Iterator<Item = usize> {
    let is_long = matches!(n, 2 | 33) && matches!(phase, 0 | 7);
    [1, 14, 15, 16, 50, 375].into_iter().chain(is_long.then_some(4000))
}

/// A NaN dB at the first slow hop, at one in the middle, at the last, at another hop and at all of these, held or not.
pub fn garbled_hops(t: &mut Tally, n: usize, rng: &mut Rng) {
    let mut answers = BTreeSet::new();
    for phase in (0..DECIMATION_HOPS).step_by(if n < 100 { 1 } else { 7 }) {
        for hops in garbled_runs(n, phase) {
            let l = Lent::any(n, phase, hops, rng);
            let slow = l.slow();
            let places = slow.first().into_iter().chain(slow.get(slow.len() / 2)).chain(slow.last()).copied();
            for (hop, k) in places.chain([rng.below(hops)]).flat_map(|hop| [(hop, rng.below(n)), (hop, n - 1)]).collect::<Vec<_>>() {
                for hold in [0, 255] {
                    let mut bad = l.clone();
                    bad.r.hold[hop] = hold;
                    bad.put_nan(hop, k);
                    answers.insert(bad.call(t, format_args!("n {n}, phase {phase}, run of {hops}, NaN at hop {hop}, channel {k}, hold {hold}")));
                }
            }
            let mut ordinary = l.clone();
            (0..hops).filter(|i| !slow.contains(i)).for_each(|i| (0..n).for_each(|k| ordinary.put_nan(i, k)));
            answers.insert(ordinary.call(t, format_args!("n {n}, phase {phase}, run of {hops}, every dB NaN but on slow hops")));
        }
    }
    let due: &[u16] = if n == 1 { &[0] } else { &[0, 6] };
    t.check(answers.iter().eq(due), format_args!("n {n}: runs with a NaN got {answers:?}, and {due:?} are due"));
}

type Fault = (&'static str, fn(&mut Lent, &mut Rng));

const FAULTS: [Fault; 40] = [
    ("a gate of another n", |l, _| {
        let n = l.set.n();
        let other = Set::fresh(if n < 512 { n + 1 } else { n - 1 }, [0; 3], &[1, 2]);
        (l.set.gate, l.set.gate_f) = (other.gate, other.gate_f)
    }),
    ("a keeper", |l, _| l.role = KEEPER),
    ("a leader", |l, _| l.role = LEADER),
    ("role 3", |l, _| l.role = 3),
    ("bank's u16 store of 2", |l, _| l.set.u.truncate(2)),
    ("bank's u16 store one short", |l, _| shorten(&mut l.set.u)),
    ("bank's u16 store one long", |l, _| l.set.u.push(0)),
    ("bank's f64 store one short", |l, _| shorten(&mut l.set.f)),
    ("bank's f64 store one long", |l, _| l.set.f.push(0.0)),
    ("bank's n 0", |l, _| l.set.u[0] = 0),
    ("bank's n one more", |l, _| l.set.u[0] += 1),
    ("bank's phase one too many", |l, _| l.set.u[1] = DECIMATION_HOPS as u16),
    ("the last lead 65535", |l, _| *l.set.u.last_mut().unwrap() = 65535),
    ("a count one more", |l, _| {
        let at = l.set.u.len().saturating_sub(4);
        l.set.u[at] += 1
    }),
    ("gate's u16 store one short", |l, _| shorten(&mut l.set.gate)),
    ("gate's u16 store one long", |l, _| l.set.gate.push(0)),
    ("gate's f64 store one short", |l, _| shorten(&mut l.set.gate_f)),
    ("gate's f64 store one long", |l, _| l.set.gate_f.push(0.0)),
    ("gate's n 0", |l, _| l.set.gate[0] = 0),
    ("gate's started 2", |l, _| l.set.gate[1] = 2),
    ("gate's off 1601", |l, _| l.set.gate[3] = 1601),
    ("gate's cursor 65535", |l, _| l.set.gate[7] = 65535),
    ("dB one short", |l, _| shorten(&mut l.r.db)),
    ("dB one long", |l, _| l.r.db.push(-90.0)),
    ("power one short", |l, _| shorten(&mut l.r.power)),
    ("power one long", |l, _| l.r.power.push(0.5)),
    ("power a hop short", |l, _| l.r.power.truncate(l.r.power.len().saturating_sub(l.set.n()))),
    ("rise one short", |l, _| shorten(&mut l.r.rise)),
    ("rise one long", |l, _| l.r.rise.push(77)),
    ("drop one short", |l, _| shorten(&mut l.r.drop)),
    ("drop one long", |l, _| l.r.drop.push(78)),
    ("hold one short", |l, _| shorten(&mut l.r.hold)),
    ("hold one long", |l, _| l.r.hold.push(0)),
    ("hold one long, a held hop", |l, _| l.r.hold.push(1)),
    ("no hops, and the others as they were", |l, _| l.r.hold.clear()),
    ("no dB, no power and no marks", |l, _| l.r = Run { hold: std::mem::take(&mut l.r.hold), ..Run::default() }),
    ("the first slow hop garbled", |l, rng| garble(l, |slow| slow.first().copied(), rng)),
    ("a slow hop in the middle garbled", |l, rng| garble(l, |slow| slow.get(slow.len() / 2).copied(), rng)),
    ("the last slow hop garbled", |l, rng| garble(l, |slow| slow.last().copied(), rng)),
    ("the last slow hop garbled and held", |l, rng| {
        if let Some(&hop) = l.slow().last() {
            l.r.hold[hop] = 7;
        }
        garble(l, |slow| slow.last().copied(), rng)
    }),
];

fn shorten<T>(slice: &mut Vec<T>) {
    slice.pop();
}

fn garble(l: &mut Lent, which: fn(&[usize]) -> Option<usize>, rng: &mut Rng) {
    let n = l.set.n();
    if let Some(hop) = which(&l.slow()) {
        l.put_nan(hop, rng.below(n.max(1)));
    }
}

/// Each fault alone and each with each, on a run of some hops and on one of none.
pub fn refusals(t: &mut Tally, n: usize, rng: &mut Rng) {
    let mut answers = BTreeSet::new();
    for hops in [0, 1, 46] {
        let l = Lent::any(n, rng.below(DECIMATION_HOPS), hops, rng);
        answers.insert(l.call(t, format_args!("n {n}, run of {hops}")));
        for (i, (first, one)) in FAULTS.iter().enumerate() {
            let mut bad = l.clone();
            one(&mut bad, rng);
            answers.insert(bad.call(t, format_args!("n {n}, run of {hops}, {first}")));
            for (second, two) in &FAULTS[i..] {
                let mut worse = bad.clone();
                two(&mut worse, rng);
                answers.insert(worse.call(t, format_args!("n {n}, run of {hops}, {first} and {second}")));
            }
        }
    }
    let due: &[u16] = if n == 1 { &[0, 2, 5, 8, 9, 16] } else { &[0, 2, 5, 6, 8, 9, 16] };
    t.check(answers.iter().eq(due), format_args!("n {n}: runs got {answers:?}, and {due:?} are due"));
}
