// The kept list: calls with floor.rs's answers, for the program `replay` (README.md has the form).
use crate::floor::{FloorBank, Gate, ABSENT};
use crate::layout::DECIMATION_HOPS;
use crate::numbers::{any_f32, any_f64, edge, finite_f32, old_bottom, Rng, OLD_BOTTOM};
use crate::rules::garbled;

/// The row of dB that is NaN.
const NAN_ROW: u8 = 1;

struct List {
    bytes: Vec<u8>,
    db: Vec<f64>,
    power: Vec<f32>,
    rng: Rng,
    /// the last hop, and the marks of the last gate call
    heard: (Vec<f64>, Vec<f32>),
    marks: (Vec<bool>, Vec<bool>),
}

/// A run: a hold for each hop, and rows of dB and power hop after hop.
#[derive(Clone)]
struct Hops {
    hold: Vec<u8>,
    rows: Vec<(u8, u8)>,
}

impl List {
    /// The tables at the head: any floats, edges of bins, and noise, some of it below -140 dB; row 0 is digital silence.
    fn new(mut rng: Rng) -> List {
        let db = |i, rng: &mut Rng| match i {
            0 => -200.0,
            NAN_ROW => f64::NAN,
            2..=21 => old_bottom(rng.below(OLD_BOTTOM)),
            22..=39 => edge(rng),
            40..=79 => any_f64(rng),
            200.. => -160.0 + 20.0 * rng.unit(),
            _ => -100.0 + 30.0 * rng.unit(),
        };
        let db: Vec<f64> = (0..=255).map(|i| db(i, &mut rng)).collect();
        let power = |i, rng: &mut Rng| match i {
            0 => 0.0,
            1..=79 => finite_f32(rng),
            80..=199 => 10f64.powf(db[i] / 10.0) as f32,
            _ => any_f32(rng),
        };
        let power: Vec<f32> = (0..256).map(|i| power(i, &mut rng)).collect();
        let mut bytes: Vec<u8> = db.iter().flat_map(|x| x.to_le_bytes()).collect();
        bytes.extend(power.iter().flat_map(|x| x.to_le_bytes()));
        List { bytes, db, power, rng, heard: Default::default(), marks: Default::default() }
    }

    /// 1, n, answer
    fn make(&mut self, n: u8) {
        self.bytes.extend([1, n, if n == 0 { 1 } else { 0 }]);
    }

    /// 2, hold, n rows of dB, n rows of power, answer
    fn hop(&mut self, oracle: &mut FloorBank, is_slow: bool, rows: impl Fn(&mut Rng) -> (u8, u8)) {
        let hold = self.rng.one_in(4);
        let (d, p): (Vec<u8>, Vec<u8>) = (0..oracle.n_channels()).map(|_| rows(&mut self.rng)).unzip();
        let db: Vec<f64> = d.iter().map(|&i| self.db[i as usize]).collect();
        let power: Vec<f32> = p.iter().map(|&i| self.power[i as usize]).collect();
        let refused = is_slow && garbled(&db);
        if !refused {
            oracle.update_holding_reference(&db, &power, hold);
        }
        self.bytes.extend([2, hold as u8]);
        self.bytes.extend(d);
        self.bytes.extend(p);
        self.bytes.push(if refused { 6 } else { 0 });
        self.heard = (db, power);
    }

    /// 3, kind, k, answer, value: a reading of each kind; and 5, k, answer, effective, rise, raw
    fn readings(&mut self, oracle: &FloorBank, k: u8) {
        let c = k as usize;
        let refused = c >= oracle.n_channels();
        let answer = if refused { 7 } else { 0 };
        let value = |read: fn(&FloorBank, usize) -> f64| if refused { 0.0 } else { read(oracle, c) };
        let raw = value(FloorBank::channel_floor_db);
        let effective = value(FloorBank::effective_floor_db);
        let rise = value(FloorBank::rise_floor_db);
        let reference = value(FloorBank::spectral_reference);
        for (kind, x) in [raw, effective, rise, reference].into_iter().enumerate() {
            self.bytes.extend([3, kind as u8, k, answer]);
            self.bytes.extend(x.to_le_bytes());
        }
        self.bytes.extend([5, k, answer]);
        [effective, rise, raw].iter().for_each(|x| self.bytes.extend(x.to_le_bytes()));
    }

    /// 4 for a bank, 10 for a gate; a sum of the u16 store, the f64 store
    fn stores(&mut self, number: u8, (u, f): (Vec<u16>, Vec<f64>)) {
        let sum = u.iter().fold(0u64, |s, &w| s.wrapping_mul(3).wrapping_add(w as u64));
        self.bytes.push(number);
        self.bytes.extend(sum.to_le_bytes());
        f.iter().for_each(|x| self.bytes.extend(x.to_le_bytes()));
    }

    /// A bank of n from fresh: silence for some hops, then noise with odd values among it. NaN and infinite powers come late,
    /// since they stay.
    fn run(&mut self, n: u8, silent: usize, hops: usize) {
        self.make(n);
        let mut oracle = FloorBank::new(n as usize);
        for hop in 0..hops {
            let is_slow = oracle.to_stores().0[1] == 0;
            let powers = if hop < hops * 4 / 5 { 200 } else { 256 };
            let rows = |rng: &mut Rng| match rng.below(12) {
                _ if hop < silent => (0, 0),
                0 if rng.one_in(8) => (rng.below(256) as u8, rng.below(powers) as u8),
                0 => (2 + rng.below(38) as u8, 0),
                _ => (80 + rng.below(176) as u8, rng.below(powers) as u8),
            };
            self.hop(&mut oracle, is_slow, rows);
            if is_slow {
                self.stores(4, oracle.to_stores());
            }
            if self.rng.one_in(40) {
                let k = self.rng.below(n as usize + 1) as u8;
                self.readings(&oracle, k);
            }
        }
        self.stores(4, oracle.to_stores());
    }

    /// 6, n, f64 length, on, off, early, how many lengths, lengths, answer; a level is written with 800 added
    fn make_gate(&mut self, n: u8, f_len: usize, levels: [i32; 3], lengths: &[u16], answer: u8) {
        self.bytes.extend([6, n]);
        let stored = levels.map(|x| if x == ABSENT { 65535 } else { (x + 800) as u16 });
        [f_len as u16].iter().chain(&stored).for_each(|x| self.bytes.extend(x.to_le_bytes()));
        self.bytes.push(lengths.len() as u8);
        lengths.iter().for_each(|m| self.bytes.extend(m.to_le_bytes()));
        self.bytes.push(answer);
    }

    /// 7 for an update with the last hop, 8 for a hold; answer, n rise bytes, n drop bytes
    fn gate(&mut self, number: u8, answer: u8) {
        self.bytes.extend([number, answer]);
        let (rise, drop) = &self.marks;
        self.bytes.extend(rise.iter().chain(drop).map(|&m| m as u8));
    }

    /// 9, kind, k, answer, value: the smoothed dB, and the early rise
    fn gate_readings(&mut self, gate: &Gate, bank: &FloorBank, k: u8) {
        let c = k as usize;
        let refused = c >= bank.n_channels();
        let values = if refused { [0.0, 0.0] } else { [gate.smoothed_db(c), gate.ema_rise(c, bank) as u8 as f64] };
        for (kind, x) in values.into_iter().enumerate() {
            self.bytes.extend([9, kind as u8, k, if refused { 7 } else { 0 }]);
            self.bytes.extend(x.to_le_bytes());
        }
    }

    /// A bank and a gate from fresh, as a receiver runs them: noise with odd values among it, and a hold now and then.
    fn gate_run(&mut self, n: u8, levels: [i32; 3], lengths: &[u16], hops: usize) {
        let (mut bank, mut gate) = (FloorBank::new(n as usize), Gate::made(n as usize, levels, lengths));
        let f_len = gate.to_stores().1.len();
        self.make(n);
        self.marks = (vec![false; n as usize], vec![false; n as usize]);
        self.make_gate(n, f_len, [levels[0], 801, levels[2]], lengths, 4);
        self.make_gate(n, f_len, [levels[0], 801, levels[2]], &[], 3);
        self.make_gate(n, f_len + 1, levels, lengths, 2);
        self.make_gate(n, f_len, levels, lengths, 0);
        self.gate(8, 0); // before the first update: no marks
        for hop in 0..hops {
            let is_slow = bank.to_stores().0[1] == 0;
            let loud = if hop / 40 % 3 == 0 { 200 } else { 100 };
            let rows = |rng: &mut Rng| match rng.below(12) {
                0 if rng.one_in(20) => (rng.below(256) as u8, rng.below(256) as u8),
                0 => (2 + rng.below(38) as u8, 0),
                _ => {
                    let row = 80 + rng.below(loud - 80) as u8;
                    (row, row)
                }
            };
            self.hop(&mut bank, is_slow, rows);
            if self.rng.one_in(8) {
                self.marks = gate.hold(&bank);
                self.gate(8, 0);
            } else {
                let (db, power) = &self.heard;
                self.marks = gate.update(db, power, &bank);
                self.gate(7, 0);
            }
            if self.rng.one_in(40) {
                let k = self.rng.below(n as usize + 1) as u8;
                self.readings(&bank, k);
                self.gate_readings(&gate, &bank, k);
            }
            if hop % (1 + f_len) == 0 {
                self.stores(10, gate.to_stores());
            }
        }
        self.stores(4, bank.to_stores());
        self.stores(10, gate.to_stores());
        let other = if n == 1 { 2 } else { n - 1 };
        self.make_gate(other, 7 * other as usize, levels, &[1], 0);
        self.gate(7, 8);
        self.gate(8, 8);
    }

    /// The hops from this one on, none of them garbled, some held: channels are louder than others by turns, and odd values are among them.
    fn next_hops(&mut self, n: usize, from: usize, hops: usize) -> Hops {
        let (loud, quiet): (Vec<u8>, Vec<u8>) = (80..200).partition(|&row| self.db[row as usize] > -80.0);
        let hold = (0..hops).map(|_| if self.rng.one_in(5) { self.rng.pick(&[1, 2, 128, 255]) } else { 0 }).collect();
        let mut run = Hops { hold, rows: vec![] };
        if hops > 1 {
            (run.hold[hops / 2], run.hold[hops / 2 + 2]) = (1, 255);
        }
        for (hop, k) in (from..from + hops).flat_map(|hop| (0..n).map(move |k| (hop, k))) {
            let row = self.rng.pick(if (hop / 4 + k) % 5 == 0 { &loud } else { &quiet });
            run.rows.push(if self.rng.one_in(30) { (2 + self.rng.below(38) as u8, 0) } else { (row, row) });
        }
        run
    }

    /// 11, hops, the holds, the rows of dB, the rows of power, answer, the rise bytes, the drop bytes. A run that is refused is not heard, and
    /// leaves its marks as they were lent, which is 0.
    fn receive(&mut self, bank: &mut FloorBank, gate: &mut Gate, run: &Hops, answer: u8) {
        let n = bank.n_channels();
        let (mut rise, mut drop) = (vec![false; run.rows.len()], vec![false; run.rows.len()]);
        for (i, &hold) in run.hold.iter().enumerate().filter(|_| answer == 0) {
            let its = i * n..(i + 1) * n;
            let (db, power): (Vec<f64>, Vec<f32>) =
                run.rows[its.clone()].iter().map(|&(d, p)| (self.db[d as usize], self.power[p as usize])).unzip();
            bank.update_holding_reference(&db, &power, hold != 0);
            let marks = if hold != 0 { gate.hold(bank) } else { gate.update(&db, &power, bank) };
            rise[its.clone()].copy_from_slice(&marks.0);
            drop[its].copy_from_slice(&marks.1);
        }
        self.bytes.extend([11, run.hold.len() as u8]);
        self.bytes.extend(&run.hold);
        self.bytes.extend(run.rows.iter().map(|row| row.0));
        self.bytes.extend(run.rows.iter().map(|row| row.1));
        self.bytes.push(answer);
        self.bytes.extend(rise.iter().chain(&drop).map(|&m| m as u8));
        self.stores(4, bank.to_stores());
        self.stores(10, gate.to_stores());
    }

    /// A bank and a gate from fresh, fed by runs alone; at the end one whose last slow hop is garbled, held or not, the same with the NaN a hop
    /// later, which is taken, and one with a gate of another n.
    fn runs(&mut self, n: u8, levels: [i32; 3], lengths: &[u16]) {
        let (mut bank, mut gate) = (FloorBank::new(n as usize), Gate::made(n as usize, levels, lengths));
        self.make(n);
        self.make_gate(n, gate.to_stores().1.len(), levels, lengths, 0);
        let mut from = 0;
        for hops in [0, 1, 14, 15, 16, 46] {
            let run = self.next_hops(n as usize, from, hops);
            self.receive(&mut bank, &mut gate, &run, 0);
            from += hops;
        }
        let mut run = self.next_hops(n as usize, from, 31);
        let last_slow = (0..31).rev().find(|hop| (from + hop) % DECIMATION_HOPS == 0).unwrap();
        run.hold[last_slow] = 255;
        for (hop, hold, answer) in [(last_slow, 0, 6), (last_slow, 255, 6), (last_slow + 1, 0, 0)] {
            let mut odd = run.clone();
            odd.hold[hop] = hold;
            odd.rows[hop * n as usize + 1].0 = NAN_ROW;
            self.receive(&mut bank, &mut gate, &odd, answer);
        }
        let other = n - 1;
        let mut other_gate = Gate::made(other as usize, levels, &[1]);
        self.make_gate(other, 7 * other as usize, levels, &[1], 0);
        let run = self.next_hops(n as usize, from, 1);
        self.receive(&mut bank, &mut other_gate, &run, 8);
    }
}

pub fn list() -> Vec<u8> {
    let mut list = List::new(Rng(1));
    list.make(0);
    list.run(1, 200, 4500);
    list.run(2, 0, 4500);
    list.run(3, 300, 1500);
    list.run(33, 100, 450);
    list.run(32, 0, 400);
    list.gate_run(1, [40, 16, ABSENT], &[375], 1800);
    list.gate_run(3, [24, 40, 96], &[1, 5, 375, 5], 1700);
    list.gate_run(6, [48, 32, ABSENT], &[1, 2, 3, 4, 5, 6, 7, 8], 600);
    list.gate_run(33, [32, 24, 72], &[3, 2, 3], 150);
    list.runs(33, [32, 24, 72], &[1, 2]);
    list.runs(2, [40, 16, ABSENT], &[3, 1, 5]);
    list.bytes.push(0);
    list.bytes
}
