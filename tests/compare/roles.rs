// every call in each role, with arguments that are in order, with each fault, with pairs of faults and with all at once. The rule is written
// once, over any call: a role that lacks the right gets 16 before all else that is due and every bit that was lent is as it was; one that has it
// gets what a technician gets, which the other files compare.
use crate::calls::{Lent, BEFORE};
use crate::faults::{any_bank, any_gate, FAULTS};
use crate::numbers::{any_lengths, any_levels, Rng};
use crate::tally::Tally;
use crate::wolfcloak::{self as lib, act_as, KEEPER, LEADER, TECHNICIAN};
use crate::{linear_rows, log_rows, map_rows, plain_log};
use std::collections::BTreeSet;

/// A keeper, a leader, a technician, and two that are nobody.
const ROLES: [u16; 5] = [0, 1, 2, 3, 65535];

/// The table of rights, as the papers have it: each call's name, the least role that has the right, and all that it answers a technician.
pub const CALLS: [(&str, u16, &[u16], fn(Parts) -> u16); 35] = [
    ("channel_floor_db", KEEPER, &[0, 2, 7, 9], |p| lib::channel_floor_db(p.u, p.f, p.k, &mut p.values[0])),
    ("effective_floor_db", KEEPER, &[0, 2, 7, 9], |p| lib::effective_floor_db(p.u, p.f, p.k, &mut p.values[0])),
    ("rise_floor_db", KEEPER, &[0, 2, 7, 9], |p| lib::rise_floor_db(p.u, p.f, p.k, &mut p.values[0])),
    ("spectral_reference", KEEPER, &[0, 2, 7, 9], |p| lib::spectral_reference(p.u, p.f, p.k, &mut p.values[0])),
    ("floors", KEEPER, &[0, 2, 7, 9], |p| lib::floors(p.u, p.f, p.k, p.values)),
    ("ring", KEEPER, &[0, 2, 7, 9], |p| lib::ring(p.u, p.f, p.k, p.sizes)),
    ("explain", KEEPER, &[0, 2, 7, 9], |p| lib::explain(p.u, p.f, p.k, p.origins)),
    ("smoothed_db", KEEPER, &[0, 2, 7, 9], |p| lib::smoothed_db((p.gate, p.gate_f), p.k, &mut p.values[0])),
    ("ema_rise", KEEPER, &[0, 2, 7, 8, 9], |p| lib::ema_rise((p.u, p.f), (p.gate, p.gate_f), p.k, &mut p.values[0])),
    ("worst_floor", KEEPER, &[0, 2, 7, 8, 9, 101], |p| lib::worst_floor((p.u, p.f), (p.worst, p.worst_f), p.k, &mut p.values[0])),
    ("map_read", KEEPER, &[0, 2, 9, 15], |p| map_rows::read((p.gate, p.gate_f), p.map, p.address, p.byte)),
    ("map_wire", KEEPER, &[0, 2, 9], |p| map_rows::wire((p.gate, p.gate_f), p.map, p.byte)),
    ("map_write", LEADER, &[0, 2, 9, 15], |p| map_rows::write((p.gate, p.gate_f), p.map, p.address, 255)),
    ("gate_remake", LEADER, &[0, 2, 4, 9], |p| lib::gate_remake(p.gate, p.gate_f, p.levels)),
    ("bank_new", TECHNICIAN, &[0, 1, 2], |p| lib::bank_new(p.u, p.f, p.n)),
    ("bank_update", TECHNICIAN, &[0, 2, 5, 6, 9], |p| lib::bank_update(p.u, p.f, p.db, p.power, None)),
    ("bank_update_holding_reference", TECHNICIAN, &[0, 2, 5, 6, 9], |p| lib::bank_update(p.u, p.f, p.db, p.power, Some(p.hold))),
    ("bank_update_linear", TECHNICIAN, &[0, 2, 5, 9], |p| linear_rows::bank_update(p.u, p.f, p.power, p.hold)),
    ("worst_new", TECHNICIAN, &[0, 1, 2, 12], |p| lib::worst_new(p.worst, p.worst_f, p.n, p.span)),
    ("bank_update_worst", TECHNICIAN, &[0, 2, 5, 6, 8, 9], |p| lib::bank_update_worst((p.u, p.f), (p.worst, p.worst_f), (p.db, p.power), p.hold)),
    ("bank_update_linear_worst", TECHNICIAN, &[0, 2, 5, 8, 9], |p| {
        linear_rows::bank_update_worst((p.u, p.f), (p.worst, p.worst_f), p.power, p.hold)
    }),
    ("gate_new", TECHNICIAN, &[0, 1, 2, 3, 4], |p| lib::gate_new(p.gate, p.gate_f, p.n, p.levels, p.lengths)),
    ("gate_update", TECHNICIAN, &[0, 2, 5, 8, 9], |p| lib::gate_update((p.u, p.f), (p.gate, p.gate_f), (p.db, p.power), (p.rise, p.drop))),
    ("gate_update_linear", TECHNICIAN, &[0, 2, 5, 8, 9], |p| {
        linear_rows::gate_update((p.u, p.f), (p.gate, p.gate_f), p.power, (p.rise, p.drop))
    }),
    ("gate_hold", TECHNICIAN, &[0, 2, 5, 8, 9], |p| lib::gate_hold((p.u, p.f), (p.gate, p.gate_f), (p.rise, p.drop))),
    ("receive", TECHNICIAN, &[0, 2, 5, 6, 8, 9], |p| {
        lib::receive((p.u, p.f), (p.gate, p.gate_f), (p.holds, p.db, p.power), (p.rise, p.drop))
    }),
    ("map_new", TECHNICIAN, &[0, 2, 9], |p| map_rows::new((p.gate, p.gate_f), p.map)),
    ("gate_update_map", TECHNICIAN, &[0, 2, 5, 8, 9], |p| {
        map_rows::update((p.u, p.f), (p.gate, p.gate_f), p.map, (p.db, p.power), (p.rise, p.drop))
    }),
    ("gate_update_linear_map", TECHNICIAN, &[0, 2, 5, 8, 9], |p| {
        linear_rows::gate_update_map((p.u, p.f), (p.gate, p.gate_f), p.map, p.power, (p.rise, p.drop))
    }),
    ("gate_hold_map", TECHNICIAN, &[0, 2, 5, 8, 9], |p| map_rows::hold((p.u, p.f), (p.gate, p.gate_f), p.map, (p.rise, p.drop))),
    ("log_write", TECHNICIAN, &[0, 1, 2, 5], |p| log_rows::write(p.n, p.hops.0, p.hops.1, p.log, &mut p.sizes[0])),
    ("log_channels", TECHNICIAN, &[0, 1, 10], |p| log_rows::channels(p.first, &mut p.sizes[0])),
    ("log_read", TECHNICIAN, &[0, 1, 5, 10, 11, 100], |p| log_rows::read(p.first, p.position, p.hop.0, p.hop.1)),
    ("log_combine", TECHNICIAN, &[0, 1, 2, 10, 11, 13], |p| log_rows::combine(p.first, p.second, p.log, &mut p.sizes[0])),
    ("dispatch", TECHNICIAN, &[0, 14, 102], |p| lib::dispatch(p.count, p.waiting, p.last)),
];

/// The least role that has the right to a call that takes one.
pub fn least(name: &str) -> Option<u16> {
    CALLS.iter().find(|call| call.0 == name).map(|call| call.1)
}

/// All that some call is lent.
#[derive(Clone)]
struct Set {
    /// a bank, a gate, a hop with its marks, and what makes them; and which hops of a run are held: that hop
    l: Lent,
    holds: Vec<u8>,
    worst: Vec<u16>,
    worst_f: Vec<f64>,
    span: usize,
    map: Vec<u8>,
    address: usize,
    /// hops to be written, two logs, where the first is read and the hop before, and the output
    hops: (Vec<u64>, Vec<u32>),
    first: Vec<u8>,
    second: Vec<u8>,
    position: usize,
    hop: (Vec<u64>, Vec<u32>),
    log: Vec<u8>,
    count: usize,
    waiting: u8,
    last: usize,
    /// what stands behind references
    values: [f64; 3],
    origins: [(u8, f64); 2],
    sizes: [usize; 2],
    byte: u8,
}

/// The same, as it is lent.
pub struct Parts<'a> {
    u: &'a mut [u16],
    f: &'a mut [f64],
    db: &'a [f64],
    power: &'a [f32],
    hold: bool,
    holds: &'a [u8],
    k: usize,
    n: usize,
    gate: &'a mut [u16],
    gate_f: &'a mut [f64],
    rise: &'a mut [u8],
    drop: &'a mut [u8],
    levels: [i32; 3],
    lengths: &'a [u16],
    worst: &'a mut [u16],
    worst_f: &'a mut [f64],
    span: usize,
    map: &'a mut [u8],
    address: usize,
    hops: (&'a [u64], &'a [u32]),
    first: &'a [u8],
    second: &'a [u8],
    position: &'a mut usize,
    hop: (&'a mut [u64], &'a mut [u32]),
    log: &'a mut [u8],
    count: usize,
    waiting: u8,
    last: &'a mut usize,
    values: &'a mut [f64; 3],
    origins: &'a mut [(u8, f64); 2],
    sizes: &'a mut [usize; 2],
    byte: &'a mut u8,
}

/// Two hops in which every channel changes, and their log.
fn any_log(n: usize, rng: &mut Rng) -> ((Vec<u64>, Vec<u32>), Vec<u8>) {
    let hops: (Vec<u64>, Vec<u32>) = (0..2 * n).map(|_| (rng.next() | 1, rng.next() as u32)).unzip();
    let mut log = vec![0; 2 + 2 * (n.div_ceil(8) + 12 * n)];
    let len = plain_log::write(n, &hops.0, &hops.1, &mut log).expect("there is room");
    log.truncate(len);
    (hops, log)
}

impl Set {
    /// In order, a slow hop coming.
    fn any(n: usize, rng: &mut Rng) -> Set {
        let bank = any_bank(n, rng);
        let lengths = any_lengths(rng, 6);
        let gate = any_gate(&bank, any_levels(rng), &lengths, rng);
        let (db, power): (Vec<f64>, Vec<f32>) = (0..n).map(|_| (-100.0 * rng.unit(), rng.unit() as f32)).unzip();
        let mut l = Lent::new(&bank, &gate, &db, &power, any_levels(rng), &lengths);
        l.u[1] = 0;
        let ((hops, first), (_, second)) = (any_log(n, rng), any_log(n, rng));
        let bits: Vec<bool> = (0..n).map(|_| rng.one_in(2)).collect();
        let group = |_| bits.chunks(8).map(|byte| byte.iter().rev().fold(0, |b, &bit| 2 * b + bit as u8));
        Set {
            l,
            holds: vec![0],
            worst: vec![n as u16, 3, 2, 2],
            worst_f: (0..3 * n).map(|_| -100.0 * rng.unit()).collect(),
            span: 3,
            map: (0..3).flat_map(group).collect(),
            address: 0,
            log: vec![0xa5; first.len()],
            hops,
            first,
            second,
            position: 2,
            hop: (vec![0; n], vec![0; n]),
            count: 3,
            waiting: 5,
            last: 1,
            values: [BEFORE; 3],
            origins: [(77, BEFORE); 2],
            sizes: [98765, 43210],
            byte: 9,
        }
    }

    fn parts(&mut self) -> Parts<'_> {
        let l = &mut self.l;
        Parts {
            u: &mut l.u[..l.u_len],
            f: &mut l.f[..l.f_len],
            db: &l.db[..l.db_len],
            power: &l.power[..l.power_len],
            hold: l.hold == Some(true),
            holds: &self.holds,
            k: l.k,
            n: l.n,
            gate: &mut l.gate[..l.gate_len],
            gate_f: &mut l.gate_f[..l.gate_f_len],
            rise: &mut l.rise[..l.rise_len],
            drop: &mut l.drop[..l.drop_len],
            levels: l.levels,
            lengths: &l.lengths,
            worst: &mut self.worst,
            worst_f: &mut self.worst_f,
            span: self.span,
            map: &mut self.map,
            address: self.address,
            hops: (&self.hops.0, &self.hops.1),
            first: &self.first,
            second: &self.second,
            position: &mut self.position,
            hop: (&mut self.hop.0, &mut self.hop.1),
            log: &mut self.log,
            count: self.count,
            waiting: self.waiting,
            last: &mut self.last,
            values: &mut self.values,
            origins: &mut self.origins,
            sizes: &mut self.sizes,
            byte: &mut self.byte,
        }
    }

    /// Every bit that a call can reach, and the room behind the slices.
    fn bits(&self) -> Vec<u64> {
        let l = &self.l;
        let words = [&l.u, &l.gate, &l.lengths, &self.worst].into_iter().flatten().map(|&x| x as u64);
        let floats = [&l.f, &l.gate_f, &l.db, &self.worst_f].into_iter().flatten().chain(&self.values).map(|x| x.to_bits());
        let bytes = [&l.rise, &l.drop, &self.holds, &self.map, &self.first, &self.second, &self.log].into_iter().flatten().map(|&x| x as u64);
        let powers = l.power.iter().map(|x| x.to_bits()).chain(self.hops.1.iter().chain(&self.hop.1).copied()).map(|x| x as u64);
        let patterns = self.hops.0.iter().chain(&self.hop.0).copied();
        let origins = self.origins.iter().flat_map(|&(origin, db)| [origin as u64, db.to_bits()]);
        let numbers = [self.position, self.last, self.sizes[0], self.sizes[1], self.byte as usize].map(|x| x as u64);
        words.chain(floats).chain(bytes).chain(powers).chain(patterns).chain(origins).chain(numbers).collect()
    }
}

fn shorten<T>(slice: &mut Vec<T>) {
    slice.pop();
}

/// What else may be wrong, or otherwise, behind the faults of bank, gate, hop and settings.
const MORE: [(&str, fn(&mut Set)); 30] = [
    ("a hop that holds the reference", |s| (s.l.hold, s.holds) = (Some(true), vec![1])),
    ("a run of a hop too many", |s| s.holds.push(0)),
    ("a run of no hop", |s| s.holds.clear()),
    ("worst floor's u16 store one short", |s| shorten(&mut s.worst)),
    ("worst floor's W 0", |s| s.worst[1..].fill(0)),
    ("worst floor's f64 store one long", |s| s.worst_f.push(0.0)),
    ("worst floor of another n", |s| {
        s.worst = vec![s.worst[0] + 1, 3, 2, 2];
        s.worst_f.resize(3 * s.worst[0] as usize, 0.0)
    }),
    ("worst floor, none yet", |s| s.worst[2..].fill(0)),
    ("made with W 0", |s| s.span = 0),
    ("made with W 601", |s| s.span = 601),
    ("map one short", |s| shorten(&mut s.map)),
    ("map one long", |s| s.map.push(0)),
    ("a map's bit past n", |s| *s.map.last_mut().unwrap() |= 128),
    ("address past the map", |s| s.address = s.map.len()),
    ("a mask's address", |s| s.address = s.map.len().saturating_sub(1)),
    ("one dB pattern short", |s| shorten(&mut s.hops.0)),
    ("no hops", |s| s.hops = Default::default()),
    ("first log with a bit past n", |s| s.first[1 + s.hop.0.len().div_ceil(8)] |= 128),
    ("first log cut in its header", |s| s.first.truncate(1)),
    ("first log cut in a hop", |s| shorten(&mut s.first)),
    ("first log of n 0", |s| s.first = vec![0, 0]),
    ("second log cut", |s| shorten(&mut s.second)),
    ("second log without hops", |s| s.second.truncate(2)),
    ("output one short", |s| shorten(&mut s.log)),
    ("reader's slice one short", |s| shorten(&mut s.hop.1)),
    ("position 1", |s| s.position = 1),
    ("position at the end", |s| s.position = s.first.len()),
    ("9 segments", |s| s.count = 9),
    ("no segment waiting", |s| s.waiting = 0),
    ("a last served past count", |s| s.last = 3),
];

/// Puts fault i into a set; its name.
fn spoil(s: &mut Set, i: usize, rng: &mut Rng) -> &'static str {
    match FAULTS.get(i) {
        Some((name, fault)) => {
            fault(&mut s.l, rng);
            name
        }
        None => {
            let (name, fault) = MORE[i - FAULTS.len()];
            fault(s);
            name
        }
    }
}

/// What was answered to a technician, call by call.
type Answers = [BTreeSet<u16>; CALLS.len()];

fn in_each_role(t: &mut Tally, what: &str, s: &Set, answers: &mut Answers) {
    let before = s.bits();
    for ((name, least, _, call), answers) in CALLS.iter().zip(answers) {
        let made_by = |role: u16| {
            act_as(role);
            let mut after = s.clone();
            (call(after.parts()), after.bits())
        };
        let due = made_by(TECHNICIAN);
        answers.insert(due.0);
        for role in ROLES {
            let (answer, after) = made_by(role);
            let is_let = *least <= role && role <= TECHNICIAN;
            let (want, kept) = if is_let { (due.0, after == due.1) } else { (16, after == before) };
            t.answer(format_args!("{name} in role {role}, {what}"), answer, want);
            t.check(kept, format_args!("{name} in role {role}, {what}: what was lent is not as it is due"));
        }
    }
    act_as(TECHNICIAN);
}

pub fn each_role(t: &mut Tally, rng: &mut Rng) {
    let mut answers: Answers = [const { BTreeSet::new() }; CALLS.len()];
    let faults = FAULTS.len() + MORE.len();
    for n in [1, 2, 5, 33] {
        let set = Set::any(n, rng);
        in_each_role(t, &format!("n {n}"), &set, &mut answers);
        for i in 0..faults {
            let mut bad = set.clone();
            let first = spoil(&mut bad, i, rng);
            in_each_role(t, &format!("n {n}, {first}"), &bad, &mut answers);
            for _ in 0..if n < 10 { 4 } else { 0 } {
                let mut worse = bad.clone();
                let second = spoil(&mut worse, i + rng.below(faults - i), rng);
                in_each_role(t, &format!("n {n}, {first} and {second}"), &worse, &mut answers);
            }
        }
        let mut worst = set.clone();
        for i in 0..faults {
            spoil(&mut worst, i, rng);
        }
        in_each_role(t, &format!("n {n}, every fault"), &worst, &mut answers);
    }
    for ((name, _, due, _), answers) in CALLS.iter().zip(answers) {
        t.check(answers.iter().eq(*due), format_args!("{name} answered a technician {answers:?}, and {due:?} are due"));
    }
}
