// the registers beside document 02's words in plain Rust, over an array of bool for each group: every address and value, lists of calls
// that carry the map and that don't, each fault alone and with each other.
use crate::faults::{any_bank, any_gate};
use crate::layout::DECIMATION_HOPS;
use crate::linear_rows as linear;
use crate::map_rows as map;
use crate::numbers::{any_f32, any_f64, any_lengths, any_levels, same, Rng};
use crate::tally::Tally;
use crate::wolfcloak as lib;

pub const SIZES: [usize; 6] = [1, 7, 8, 9, 31, 512];

/// Rise flags, drop flags and mask of each channel.
#[derive(Clone, PartialEq, Debug)]
struct Plain([Vec<bool>; 3]);

impl Plain {
    fn any(n: usize, rng: &mut Rng) -> Plain {
        Plain([0, 1, 2].map(|_| (0..n).map(|_| rng.one_in(2)).collect()))
    }

    /// Channel 0 in the lowest bit of the first byte of each group.
    fn bytes(&self) -> Vec<u8> {
        let byte = |bits: &[bool]| (0..bits.len()).fold(0, |b, j| b | (bits[j] as u8) << j);
        self.0.iter().flat_map(|group| group.chunks(8).map(byte)).collect()
    }

    fn write(&mut self, address: usize, value: u8) {
        let w = self.0[0].len().div_ceil(8);
        let (group, first) = (address / w, address % w * 8);
        for (j, bit) in self.0[group].iter_mut().skip(first).take(8).enumerate() {
            let is_one = value >> j & 1 == 1;
            *bit = if group == 2 { is_one } else { *bit && !is_one };
        }
    }

    fn mark(&mut self, rise: &[u8], drop: &[u8]) {
        for (group, marks) in self.0.iter_mut().zip([rise, drop]) {
            group.iter_mut().zip(marks).for_each(|(flag, &mark)| *flag |= mark == 1);
        }
    }

    fn wire(&self) -> bool {
        let [rise, drop, mask] = &self.0;
        (0..mask.len()).any(|k| mask[k] && (rise[k] || drop[k]))
    }
}

/// A set: a bank, a gate and a map of n channels.
#[derive(Clone)]
struct Set {
    bank: (Vec<u16>, Vec<f64>),
    gate: (Vec<u16>, Vec<f64>),
    map: Vec<u8>,
}

fn equal(a: &(Vec<u16>, Vec<f64>), b: &(Vec<u16>, Vec<f64>)) -> bool {
    a.0 == b.0 && a.1.len() == b.1.len() && a.1.iter().zip(&b.1).all(|(x, y)| same(*x, *y))
}

impl Set {
    fn any(n: usize, rng: &mut Rng) -> (Set, Plain) {
        let bank = any_bank(n, rng);
        let gate = any_gate(&bank, any_levels(rng), &any_lengths(rng, 6), rng);
        let plain = Plain::any(n, rng);
        (Set { bank, gate, map: plain.bytes() }, plain)
    }

    fn lent(&self) -> (&[u16], &[f64]) {
        (&self.gate.0, &self.gate.1)
    }

    fn same(&self, other: &Set) -> bool {
        equal(&self.bank, &other.bank) && equal(&self.gate, &other.gate) && self.map == other.map
    }
}

/// The map, each register and the wire, as they are due.
fn due(t: &mut Tally, what: &str, s: &Set, plain: &Plain) {
    let bytes = plain.bytes();
    t.check(s.map == bytes, format_args!("{what}: the map is {:?}, and {bytes:?} is due", s.map));
    for (address, &byte) in bytes.iter().enumerate() {
        let mut value = !byte;
        t.answer(format_args!("{what}: read"), map::read(s.lent(), &s.map, address, &mut value), 0);
        t.check(value == byte, format_args!("{what}: register {address} reads {value}, and {byte} is due"));
    }
    let mut up = 7;
    t.answer(format_args!("{what}: wire"), map::wire(s.lent(), &s.map, &mut up), 0);
    t.check(up == plain.wire() as u8, format_args!("{what}: the wire is {up}"));
}

/// A fresh map, then every value at every address, each to a map of its own, and addresses past the end; the wire with one flag and one mask
/// bit of each kind.
pub fn every_address(t: &mut Tally, n: usize, rng: &mut Rng) {
    let w = n.div_ceil(8);
    let (mut s, _) = Set::any(n, rng);
    t.check(unsafe { map::wolfcloak_map_len(n) } == 3 * w, format_args!("map_len({n})"));
    let gate = s.gate.clone();
    s.map.fill(255);
    t.answer(format_args!("a fresh map of {n}"), map::new((&gate.0, &gate.1), &mut s.map), 0);
    due(t, "a fresh map", &s, &Plain([0, 1, 2].map(|_| vec![false; n])));
    for address in 0..3 * w {
        for value in 0..=255 {
            let mut plain = Plain::any(n, rng);
            s.map = plain.bytes();
            t.answer(format_args!("write"), map::write((&gate.0, &gate.1), &mut s.map, address, value), 0);
            plain.write(address, value);
            if n < 100 || value % 64 == 0 {
                due(t, "a write", &s, &plain);
            } else {
                t.check(s.map == plain.bytes(), format_args!("{value} written at {address} of {n}"));
            }
        }
    }
    for address in [3 * w, 3 * w + 1, 4 * w, usize::MAX] {
        let (before, mut value) = (s.map.clone(), 9);
        t.answer(format_args!("read at {address} of {n}"), map::read((&gate.0, &gate.1), &s.map, address, &mut value), 15);
        t.answer(format_args!("write at {address} of {n}"), map::write((&gate.0, &gate.1), &mut s.map, address, 255), 15);
        t.check(s.map == before && value == 9, format_args!("a refusal with 15 left something"));
    }
    for k in 0..n {
        for (flag, masked) in [(0, k), (1, k), (0, (k + 1) % n), (1, (k + 1) % n)] {
            let mut plain = Plain([0, 1, 2].map(|_| vec![false; n]));
            plain.0[flag][k] = true;
            plain.0[2][masked] = true;
            s.map = plain.bytes();
            let mut up = 7;
            t.answer(format_args!("wire"), map::wire((&gate.0, &gate.1), &s.map, &mut up), 0);
            t.check(up == plain.wire() as u8, format_args!("the wire with flag {k} and mask {masked} of {n}"));
        }
    }
}

/// A list of updates and holds that carry the map and that don't, and of writes, from any sound set. Beside each call that carries the map stands
/// the one without, on stores of its own: the same answer, gate and marks.
pub fn any_list(t: &mut Tally, n: usize, rng: &mut Rng) {
    let (mut s, mut plain) = Set::any(n, rng);
    for _ in 0..40 {
        let (mut rise, mut drop) = (vec![7; n], vec![7; n]);
        let (mut plain_rise, mut plain_drop) = (rise.clone(), drop.clone());
        let (db, power): (Vec<f64>, Vec<f32>) = (0..n).map(|_| (any_f64(rng), any_f32(rng))).unzip();
        let mut other = s.clone();
        let (bank, carries) = ((&s.bank.0[..], &s.bank.1[..]), rng.below(4) > 0);
        let (answer, plain_answer) = match rng.below(4) {
            0 => {
                let value = rng.next() as u8;
                let address = rng.below(s.map.len());
                t.answer(format_args!("write in a list"), map::write((&s.gate.0, &s.gate.1), &mut s.map, address, value), 0);
                plain.write(address, value);
                due(t, "a write in a list", &s, &plain);
                continue;
            }
            1 => {
                let without = lib::gate_update(bank, (&mut other.gate.0, &mut other.gate.1), (&db, &power), (&mut plain_rise, &mut plain_drop));
                let marks = (&mut rise[..], &mut drop[..]);
                let gate = (&mut s.gate.0[..], &mut s.gate.1[..]);
                (if carries { map::update(bank, gate, &mut s.map, (&db, &power), marks) } else { lib::gate_update(bank, gate, (&db, &power), marks) }, without)
            }
            2 => {
                let without = linear::gate_update(bank, (&mut other.gate.0, &mut other.gate.1), &power, (&mut plain_rise, &mut plain_drop));
                let marks = (&mut rise[..], &mut drop[..]);
                let gate = (&mut s.gate.0[..], &mut s.gate.1[..]);
                (if carries { linear::gate_update_map(bank, gate, &mut s.map, &power, marks) } else { linear::gate_update(bank, gate, &power, marks) }, without)
            }
            _ => {
                let without = lib::gate_hold(bank, (&other.gate.0, &mut other.gate.1), (&mut plain_rise, &mut plain_drop));
                let marks = (&mut rise[..], &mut drop[..]);
                let gate = (&s.gate.0[..], &mut s.gate.1[..]);
                (if carries { map::hold(bank, gate, &mut s.map, marks) } else { lib::gate_hold(bank, gate, marks) }, without)
            }
        };
        t.check(answer == 0 && plain_answer == 0, format_args!("a gate call in a list answers {answer} and {plain_answer}"));
        t.check(equal(&s.gate, &other.gate) && rise == plain_rise && drop == plain_drop, format_args!("with the map a gate call of {n} channels is another"));
        if carries {
            plain.mark(&rise, &drop);
        }
        due(t, "a gate call in a list", &s, &plain);
    }
}

/// What may be wrong with a call, in the order in which it is refused.
const FAULTS: [(&str, u16); 10] = [
    ("bank length", 2), ("bank contents", 9), ("gate length", 2), ("gate contents", 9), ("gate f64 length", 2), ("map length", 2),
    ("a bit past n", 9), ("another n", 8), ("slice length", 5), ("address", 15),
];

/// Which of them a gate call can have that carries the map.
const CARRIED: &[usize] = &[0, 1, 2, 3, 4, 5, 6, 7, 8];

/// And each call: making, read, write, wire, update, hold, update from linear power alone.
const HAS: [&[usize]; 7] = [&[2, 3, 4, 5], &[2, 3, 4, 5, 6, 9], &[2, 3, 4, 5, 6, 9], &[2, 3, 4, 5, 6], CARRIED, CARRIED, CARRIED];

/// A call with two faults, which may be the same one: the first in the order is answered, and nothing changes.
fn faulty(t: &mut Tally, n: usize, call: usize, wrong: [usize; 2], rng: &mut Rng) {
    let is = |fault: usize| wrong.contains(&fault);
    let (mut s, _) = Set::any(n, rng);
    let w = n.div_ceil(8);
    if is(7) {
        s.bank = any_bank(if n == 512 || rng.one_in(2) && n > 1 { n - 1 } else { n + 1 }, rng);
    }
    if is(1) {
        s.bank.0[1] = DECIMATION_HOPS as u16;
    }
    if is(0) {
        s.bank.0.pop();
    }
    if is(3) {
        s.gate.0[1] = 2;
    }
    if is(2) {
        s.gate.0.pop();
    }
    if is(4) {
        s.gate.1.pop();
    }
    if is(6) {
        let last = w * (1 + rng.below(3)) - 1;
        s.map[last] |= 1 << (n % 8 + rng.below(8 - n % 8));
    }
    if is(5) {
        let long = rng.pick(&[0, 3 * w - 1, 3 * w + 1, w]);
        s.map.resize(long, 255);
    }
    let mut long = [n; 4];
    if is(8) {
        let slice = match call {
            4 => rng.below(4),
            6 => 1 + rng.below(3),
            _ => 2 + rng.below(2),
        };
        long[slice] = rng.pick(&[n - 1, n + 1]);
    }
    let address = if is(9) { 3 * w + rng.below(3) } else { rng.below(3 * w) };
    let due = wrong.iter().filter(|f| HAS[call].contains(f)).min().map(|&f| FAULTS[f].1).unwrap();
    let (db, power) = (vec![0.0; long[0]], vec![0.0; long[1]]);
    let (mut rise, mut drop, mut value) = (vec![7; long[2]], vec![8; long[3]], 9);
    let before = s.clone();
    let lent = (&before.gate.0[..], &before.gate.1[..]);
    let bank = (&before.bank.0[..], &before.bank.1[..]);
    let marks = (&mut rise[..], &mut drop[..]);
    let answer = match call {
        0 => map::new(lent, &mut s.map),
        1 => map::read(lent, &s.map, address, &mut value),
        2 => map::write(lent, &mut s.map, address, 255),
        3 => map::wire(lent, &s.map, &mut value),
        4 => map::update(bank, (&mut s.gate.0, &mut s.gate.1), &mut s.map, (&db, &power), marks),
        5 => map::hold(bank, (&s.gate.0, &mut s.gate.1), &mut s.map, marks),
        _ => linear::gate_update_map(bank, (&mut s.gate.0, &mut s.gate.1), &mut s.map, &power, marks),
    };
    let names = wrong.map(|f| FAULTS[f].0);
    t.answer(format_args!("call {call} of {n} channels with {names:?}"), answer, due);
    let kept = s.same(&before) && value == 9 && rise.iter().all(|&m| m == 7) && drop.iter().all(|&m| m == 8);
    t.check(kept, format_args!("call {call} of {n} channels with {names:?} left something"));
}

/// Each fault alone and with each other; a bit past n where there is one.
pub fn all_faults(t: &mut Tally, n: usize, rng: &mut Rng) {
    for (call, has) in HAS.iter().enumerate() {
        for &one in *has {
            for &other in *has {
                if n % 8 != 0 || one != 6 && other != 6 {
                    (0..if n < 100 { 8 } else { 2 }).for_each(|_| faulty(t, n, call, [one, other], rng));
                }
            }
        }
    }
    for n in [0, 513, usize::MAX] {
        t.check(unsafe { map::wolfcloak_map_len(n) } == 0, format_args!("map_len({n})"));
    }
}
