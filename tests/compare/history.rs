// Demand 3, run on the library: two sets with different histories hear the same further list. Calls have their roles: one that is stopped
// counts for nothing.
use crate::floor::{FloorBank, Gate, ABSENT};
use crate::layout::{DECIMATION_HOPS, HIST_MIN_DB, SETTLING};
use crate::numbers::{any_f64, any_levels, sample, same, Feed, Rng};
use crate::rules::garbled;
use crate::tally::Tally;
use crate::wolfcloak::{self as lib, act_as, KEEPER, LEADER, TECHNICIAN};
use std::fmt::Arguments;

#[derive(Clone, Copy, PartialEq)]
enum Kind {
    Bank,
    Gate,
    Hold,
    Run,
}

/// One call, the same for both sets.
struct Step {
    kind: Kind,
    db: Vec<f64>,
    power: Vec<f32>,
    hold: Option<bool>,
    holds: Vec<u8>, // of a run, for which dB and power have hop after hop
    carries: bool, // a bank update carries the store of the worst floor
    marks: usize, // how long rise and drop are
    role: u16, // who makes it
}

impl Step {
    fn any(rng: &mut Rng, n: usize, kind: Kind, feed: Feed, hop: usize) -> Step {
        let (db, power) = (0..n).map(|k| sample(rng, feed, hop, k)).unzip();
        let (hold, carries) = (rng.pick(&[None, Some(false), Some(true)]), rng.one_in(2));
        let role = if rng.one_in(30) { rng.pick(&[KEEPER, LEADER, 3, 65535]) } else { TECHNICIAN }; // none of the others may
        let mut s = Step { kind, db, power, hold, holds: vec![], carries, marks: n, role };
        match rng.below(60) {
            0 => drop(s.db.pop()),
            1 => s.power.push(1.0),
            2 => s.marks += 1,
            3 => s.db[rng.below(n)] = f64::NAN, // refused on a slow hop
            4 => s.db[rng.below(n)] = any_f64(rng),
            _ => (),
        }
        s
    }

    /// A run of at most so many hops: in demand 3's lists, its calls.
    fn any_run(rng: &mut Rng, n: usize, most: usize, feed: Feed, hop: usize) -> Step {
        let (mut s, hops) = (Step::any(rng, n, Kind::Run, feed, hop), 1 + rng.below(most));
        for i in 1..hops {
            let (db, power): (Vec<f64>, Vec<f32>) = (0..n).map(|k| sample(rng, feed, hop + i, k)).unzip();
            s.db.extend(db);
            s.power.extend(power);
        }
        s.marks += (hops - 1) * n;
        s.holds = (0..hops).map(|_| rng.one_in(4) as u8).collect();
        s
    }
}

/// A bank and a gate as the calls leave them, and how many updates they have accepted.
#[derive(Clone)]
struct Set {
    u: Vec<u16>,
    f: Vec<f64>,
    gate: Vec<u16>,
    gate_f: Vec<f64>,
    worst: Vec<u16>,
    worst_f: Vec<f64>,
    rise: Vec<u8>,
    banks: usize,
    gates: usize,
}

impl Set {
    fn new(n: usize, levels: [i32; 3], lengths: &[u16]) -> Set {
        let (mut u, mut f) = FloorBank::new(n).to_stores();
        let (mut gate, mut gate_f) = Gate::made(n, levels, lengths).to_stores();
        assert_eq!(lib::bank_new(&mut u, &mut f, n), 0);
        assert_eq!(lib::gate_new(&mut gate, &mut gate_f, n, levels, lengths), 0);
        Set { u, f, gate, gate_f, worst: vec![0; 4], worst_f: vec![], rise: vec![0; n], banks: 0, gates: 0 }.keeping(1)
    }

    /// With a fresh store of the worst floor of late over so many slow hops.
    fn keeping(mut self, span: usize) -> Set {
        let n = self.n();
        self.worst_f = vec![0.0; lib::worst_f_len(n, span)];
        assert_eq!(lib::worst_new(&mut self.worst, &mut self.worst_f, n, span), 0);
        self
    }

    fn n(&self) -> usize {
        self.u[0] as usize
    }

    fn call(&mut self, s: &Step) -> u16 {
        let (mut rise, mut drop) = (vec![9; s.marks], vec![9; s.marks]);
        let (bank, marks) = ((&self.u[..], &self.f[..]), (&mut rise[..], &mut drop[..]));
        act_as(s.role);
        let answer = match s.kind {
            Kind::Bank if s.carries => {
                let store = (&mut self.worst[..], &mut self.worst_f[..]);
                lib::bank_update_worst((&mut self.u, &mut self.f), store, (&s.db, &s.power), s.hold == Some(true))
            }
            Kind::Bank => lib::bank_update(&mut self.u, &mut self.f, &s.db, &s.power, s.hold),
            Kind::Gate => lib::gate_update(bank, (&mut self.gate, &mut self.gate_f), (&s.db, &s.power), marks),
            Kind::Hold => lib::gate_hold(bank, (&self.gate, &mut self.gate_f), marks),
            Kind::Run => {
                let (bank, gate) = ((&mut self.u[..], &mut self.f[..]), (&mut self.gate[..], &mut self.gate_f[..]));
                lib::receive(bank, gate, (&s.holds, &s.db, &s.power), marks)
            }
        };
        act_as(TECHNICIAN);
        if answer == 0 {
            self.banks += (s.kind == Kind::Bank) as usize + s.holds.len();
            self.gates += (s.kind == Kind::Gate) as usize + s.holds.iter().filter(|&&hold| hold == 0).count();
            if s.kind != Kind::Bank {
                self.rise = rise;
            }
        }
        answer
    }

    /// a leader makes the gate anew with these levels, and its updates are counted from there.
    fn remake(&mut self, levels: [i32; 3]) {
        act_as(LEADER);
        assert_eq!(lib::gate_remake(&mut self.gate, &mut self.gate_f, levels), 0);
        act_as(TECHNICIAN);
        self.gates = 0;
    }

    /// A season in which that happens, some way into it: the gate was made with other levels.
    fn hear_remade(&mut self, rng: &mut Rng, feeds: &[Feed], banks: usize, gates: usize, levels: [i32; 3]) {
        self.remake(any_levels(rng));
        let before = [rng.below(banks + 1), rng.below(1000)];
        self.hear(rng, feeds, before[0], before[1]);
        self.remake(levels);
        self.hear(rng, feeds, banks, gates);
    }

    /// A history of so many accepted updates, refused calls and holds among them: leading silence, then anything.
    fn hear(&mut self, rng: &mut Rng, feeds: &[Feed], banks: usize, gates: usize) {
        let mut feed = feeds[0];
        for hop in 0.. {
            if hop > (banks + gates) / 4 && hop % 40 == 0 {
                feed = rng.pick(feeds);
            }
            let kind = match (self.banks < banks, self.gates < gates) {
                (false, false) => return,
                (true, true) => rng.pick(&[Kind::Bank, Kind::Gate, Kind::Hold, Kind::Run]),
                (true, false) => rng.pick(&[Kind::Bank, Kind::Bank, Kind::Hold]),
                (false, true) => rng.pick(&[Kind::Gate, Kind::Gate, Kind::Hold]),
            };
            let step = if kind == Kind::Run {
                Step::any_run(rng, self.n(), (banks - self.banks).min(gates - self.gates).min(20), feed, hop)
            } else {
                Step::any(rng, self.n(), kind, feed, hop)
            };
            self.call(&step);
        }
    }

    fn floors(&self) -> Vec<[f64; 3]> {
        (0..self.n())
            .map(|k| {
                let mut three = [0.0; 3];
                assert_eq!(lib::floors(&self.u, &self.f, k, &mut three), 0);
                three
            })
            .collect()
    }
}

fn same_floors(a: &Set, b: &Set) -> bool {
    a.floors().iter().flatten().zip(b.floors().iter().flatten()).all(|(x, y)| same(*x, *y))
}

/// Both sets under the further list, and after how many of its accepted updates floors and rises last differed.
struct Pair {
    one: Set,
    other: Set,
    before: [usize; 2],
    floors_differed: usize,
    rises_differed: usize,
}

impl Pair {
    fn new(one: Set, other: Set) -> Pair {
        let before = [one.banks, one.gates];
        Pair { one, other, before, floors_differed: 0, rises_differed: 0 }
    }

    fn banks(&self) -> usize {
        self.one.banks - self.before[0]
    }

    fn gates(&self) -> usize {
        self.one.gates - self.before[1]
    }

    fn call(&mut self, t: &mut Tally, what: Arguments, s: &Step) -> u16 {
        let was_slow = s.kind == Kind::Bank && self.one.u[1] == 0 || s.kind == Kind::Run;
        let answer = self.one.call(s);
        t.answer(what, self.other.call(s), answer);
        if answer == 0 && was_slow && self.banks() < SETTLING && !same_floors(&self.one, &self.other) {
            self.floors_differed = self.banks();
        }
        if answer == 0 && s.kind != Kind::Bank && self.one.rise != self.other.rise {
            self.rises_differed = self.gates();
        }
        answer
    }

    /// What the demand says of the end of the further list: all floors, and the rises of the call that comes next.
    fn compare(&self, t: &mut Tally, what: Arguments, next: &Step, early: i32) {
        t.check(same_floors(&self.one, &self.other), format_args!("{what}: the floors of two histories differ"));
        if early != ABSENT {
            return;
        }
        let (mut one, mut other) = (self.one.clone(), self.other.clone());
        t.answer(what, other.call(next), one.call(next));
        t.check(one.rise == other.rise || next.kind == Kind::Bank, format_args!("{what}: the rises of two histories differ"));
    }
}

/// n, window lengths, early; then for two histories how many accepted bank updates and gate updates they have.
type Setting = (usize, &'static [u16], i32, [usize; 2], [usize; 2]);

const SETTINGS: [Setting; 8] = [
    (1, &[375], ABSENT, [0, 0], [4500, 750]),
    (1, &[1, 375, 2, 3, 125], ABSENT, [3, 5], [1503, 3005]),
    (2, &[1, 3, 5, 15, 25, 75, 125, 375], ABSENT, [7, 11], [3907, 1511]),
    (2, &[375, 75], ABSENT, [1509, 749], [4509, 1499]),
    (33, &[15, 75, 375], ABSENT, [14, 700], [1214, 1450]),
    (33, &[1, 5, 375], 40, [2, 2], [1502, 1502]),
    (64, &[375, 15, 375], ABSENT, [0, 1], [3900, 751]),
    (64, &[1, 25], ABSENT, [31, 49], [1531, 949]),
];

const ANY: [Feed; 5] = [Feed::Silence, Feed::Any, Feed::Numbers, Feed::Noise, Feed::Edges];

/// Of each setting, one pair of histories of demand 3's calls alone, and one in which the other's leader remade the gate in mid-season.
pub const PAIRS: usize = 2 * SETTINGS.len();

/// Pair i: two histories, and a further list of any calls; its first accepted slow hop is loud.
pub fn any_histories(t: &mut Tally, i: usize, rng: &mut Rng) {
    let (n, lengths, early, a, b) = SETTINGS[i % SETTINGS.len()];
    let is_remade = i >= SETTINGS.len();
    let meets = (b[0] - a[0]) % DECIMATION_HOPS == 0 && lengths.iter().all(|&m| (b[1] - a[1]) % (2 * m as usize) == 0);
    t.check(meets, format_args!("history, n {n}, {lengths:?}: {a:?} and {b:?} are not equal modulo 15 and twice every length"));
    let levels = [rng.pick(&[0, 16, 40]), 16, early];
    let mut one = Set::new(n, levels, lengths).keeping(1 + rng.below(600));
    let mut other = one.clone().keeping(1 + rng.below(600));
    one.hear(rng, &[Feed::Noise, Feed::Any, Feed::Noise], a[0], a[1]);
    if is_remade {
        other.hear_remade(rng, &ANY, b[0], b[1], levels);
    } else {
        other.hear(rng, &ANY, b[0], b[1]);
    }
    let mut pair = Pair::new(one, other);
    let what = format_args!("history, n {n}, {levels:?}, {lengths:?}, {a:?} and {b:?}, remade {is_remade}");
    let (mut feed, mut is_loud, mut compared) = (Feed::Noise, false, 0);
    for hop in 0.. {
        if is_loud && hop % 50 == 0 {
            feed = rng.pick(&[Feed::Noise, Feed::Noise, Feed::Partly, ANY[hop / 50 % 5]]);
        }
        let any = rng.pick(&[Kind::Bank, Kind::Bank, Kind::Bank, Kind::Gate, Kind::Hold]);
        let kind = if pair.gates() < 1500 && hop % 2 == 0 { Kind::Gate } else { any };
        let step = if is_loud && rng.one_in(12) {
            Step::any_run(rng, n, 20, feed, hop)
        } else {
            Step::any(rng, n, kind, feed, hop)
        };
        if !is_loud && step.kind == Kind::Bank && !garbled(&step.db) && !step.db.iter().all(|&x| x >= HIST_MIN_DB) {
            continue; // it could be the first accepted slow hop
        }
        if pair.banks() >= SETTLING && pair.gates() >= 1500 {
            pair.compare(t, what, &step, early);
            compared += 1;
            if compared == 40 || t.differences > 1000 {
                break;
            }
        }
        let is_slow = step.kind == Kind::Bank && pair.one.u[1] == 0;
        is_loud |= pair.call(t, what, &step) == 0 && is_slow;
    }
    t.channel_hops += 2 * (n * (pair.banks() + pair.gates())) as u64;
    t.parted[0] += (pair.floors_differed > 0) as u64;
    t.parted[1] += (pair.rises_differed > 0) as u64;
}

/// Two channels, one length of 375 and a further list that has no call too many: floors differ until its last bank update, and
/// rises until its 1,499th gate update, when the windows are summed afresh.
pub fn no_call_too_many(t: &mut Tally) {
    let step = |kind, db: f64, power: f32| Step { kind, db: vec![db; 2], power: vec![power; 2], hold: None, holds: vec![], carries: false, marks: 2, role: TECHNICIAN };
    let mut one = Set::new(2, [0, 0, ABSENT], &[375]);
    let mut other = one.clone();
    let what = format_args!("history, no call too many");
    t.answer(what, one.call(&step(Kind::Bank, -120.0, 1e-12)), 0);
    t.answer(what, one.call(&step(Kind::Gate, -120.0, f32::INFINITY)), 0);
    (0..SETTLING + 1).for_each(|_| t.answer(what, other.call(&step(Kind::Bank, -60.0, 1e-6)), 0));
    (0..751).for_each(|_| t.answer(what, other.call(&step(Kind::Gate, -60.0, 1e-6)), 0));
    let mut pair = Pair::new(one, other);
    for hop in 1..=SETTLING {
        // of the 249 slow hops before the last, 62 are quiet: the entry from before decides the quartile
        let is_quiet = hop % DECIMATION_HOPS == 0 && (2..64).contains(&(hop / DECIMATION_HOPS));
        pair.call(t, what, &step(Kind::Bank, if is_quiet { -120.0 } else { -60.0 }, 1e-6));
        let due = hop < SETTLING;
        t.check(same_floors(&pair.one, &pair.other) != due || hop < 945, format_args!("{what}: floors after {hop} bank updates"));
    }
    for _ in 0..1500 {
        pair.call(t, what, &step(Kind::Gate, -60.0, 1e-3));
    }
    t.check(pair.rises_differed == 1498, format_args!("{what}: rises last differed after {} gate updates", pair.rises_differed));
    pair.compare(t, what, &step(Kind::Hold, 0.0, 0.0), ABSENT);
    t.check(pair.one.rise == [1, 1], format_args!("{what}: both channels rise"));
}
