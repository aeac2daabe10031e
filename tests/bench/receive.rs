// A run of hops beside floor.rs's two updates of each of them, and the same hops by single calls. Whole stretches are timed, slow hops and the hop
// that sums afresh in them on every side; what is told is the time of one hop. Single calls are timed once more in turn with floor.rs, hop by hop:
// alone for a whole stretch, floor.rs keeps its windows in the cache. What one core keeps up with is told by many sets in turn, of which the caches
// keep none from one turn to the next.
use crate::floor::{FloorBank, Gate};
use crate::numbers::Feed;
use crate::{aimed_row, hops, median, row, time, wolfcloak, LENGTHS};

/// Hops of a stretch, two seconds: the longest windows are summed afresh once in it.
const STRETCH: usize = 750;
/// Hops after which rings and windows are full.
const WARM: usize = 6 * STRETCH;
const HOPS_A_SECOND: f64 = 375.0;

/// The hops of a stretch one after another, as runs are lent them.
struct Air {
    n: usize,
    hold: Vec<u8>,
    db: Vec<f64>,
    power: Vec<f32>,
}

impl Air {
    fn noise(n: usize) -> Air {
        let hops = hops(n, Feed::Noise);
        let (db, power): (Vec<_>, Vec<_>) = (0..STRETCH).map(|i| hops[i % hops.len()].clone()).unzip();
        Air { n, hold: vec![0; STRETCH], db: db.concat(), power: power.concat() }
    }
}

#[derive(Clone)]
struct Set {
    u: Vec<u16>,
    f: Vec<f64>,
    g: Vec<u16>,
    h: Vec<f64>,
    rise: Vec<u8>,
    drop: Vec<u8>,
}

impl Set {
    fn new(bank: &FloorBank, gate: &Gate, n: usize) -> Set {
        let ((u, f), (g, h)) = (bank.to_stores(), gate.to_stores());
        Set { u, f, g, h, rise: vec![0; STRETCH * n], drop: vec![0; STRETCH * n] }
    }

    fn run(&mut self, air: &Air, from: usize, hops: usize) {
        let its = from * air.n..(from + hops) * air.n;
        let lent = (&air.hold[from..from + hops], &air.db[its.clone()], &air.power[its.clone()]);
        let marks = (&mut self.rise[its.clone()], &mut self.drop[its]);
        assert_eq!(wolfcloak::receive((&mut self.u, &mut self.f), (&mut self.g, &mut self.h), lent, marks), 0);
    }

    fn single(&mut self, air: &Air, hop: usize) {
        let its = hop * air.n..(hop + 1) * air.n;
        let (db, power) = (&air.db[its.clone()], &air.power[its.clone()]);
        let marks = (&mut self.rise[its.clone()], &mut self.drop[its]);
        assert_eq!(wolfcloak::bank_update(&mut self.u, &mut self.f, db, power, None), 0);
        assert_eq!(wolfcloak::gate_update((&self.u, &self.f), (&mut self.g, &mut self.h), (db, power), marks), 0);
    }
}

fn old_single(bank: &mut FloorBank, gate: &mut Gate, air: &Air, hop: usize) -> (Vec<bool>, Vec<bool>) {
    let its = hop * air.n..(hop + 1) * air.n;
    let (db, power) = (&air.db[its.clone()], &air.power[its]);
    bank.update(db, power);
    gate.update(db, power, bank)
}

/// The last hop's marks.
fn old_hear(bank: &mut FloorBank, gate: &mut Gate, air: &Air) -> (Vec<bool>, Vec<bool>) {
    (0..STRETCH).fold((vec![], vec![]), |_, hop| old_single(bank, gate, air, hop))
}

/// Each hop to floor.rs and then to the set: the time of a hop by each.
fn in_turn(bank: &mut FloorBank, gate: &mut Gate, set: &mut Set, air: &Air) -> (f64, f64) {
    let (mut old, mut ours) = (0.0, 0.0);
    for hop in 0..STRETCH {
        old += time(|| old_single(bank, gate, air, hop));
        ours += time(|| set.single(air, hop));
    }
    (old / STRETCH as f64, ours / STRETCH as f64)
}

/// How a set is fed: how many hops at a time, and these, from one of them on. And how many times floor.rs's time is aimed at. The aim for single calls
/// is read by a row of the gate, "bank and gate update" (docs/DECISIONS.md).
type Way = (&'static str, usize, fn(&mut Set, &Air, usize), Option<f64>);

const WAYS: [Way; 4] = [
    ("runs of 375 hops", 375, |set, air, from| set.run(air, from, 375), Some(1.0)),
    ("runs of 25 hops", 25, |set, air, from| set.run(air, from, 25), Some(1.5)),
    ("runs of one hop", 1, |set, air, from| set.run(air, from, 1), None),
    ("single calls", 1, Set::single, None),
];

/// A stretch by every set, each fed so many hops in its turn: the time of a hop.
fn stretch(sets: &mut [Set], air: &Air, &(_, hops, hear, _): &Way) -> f64 {
    let turns = (0..STRETCH).step_by(hops);
    time(|| turns.for_each(|from| sets.iter_mut().for_each(|set| hear(set, air, from)))) / (STRETCH * sets.len()) as f64
}

/// Single calls and floor.rs hop by hop in turn.
fn turn_row(n: usize, rounds: usize, air: &Air) {
    let (mut bank, mut gate) = (FloorBank::new(n), Gate::made(n, [48, 16, 96], &LENGTHS));
    let mut set = Set::new(&bank, &gate, n);
    let mut times: Vec<_> = (0..WARM / STRETCH + rounds).map(|_| in_turn(&mut bank, &mut gate, &mut set, air)).collect();
    assert!(bank.to_stores().0 == set.u && gate.words() == set.g);
    let (old, ours): (Vec<f64>, Vec<f64>) = times.drain(WARM / STRETCH..).unzip();
    row("single calls, in turn", median(ours), median(old));
}

/// Segments of a band: sets in turn, whose stores are 55 MB for 32 channels and 107 MB for 512, more than the caches have. All hear the same hops.
fn segment_rows(n: usize, warm: &Set, air: &Air) {
    let mut sets = vec![warm.clone(); if n > 32 { 24 } else { 200 }];
    for way in &WAYS {
        let ours = median((0..5).map(|_| stretch(&mut sets, air, way)).collect());
        let (count, segments) = (sets.len(), 1e6 / HOPS_A_SECOND / ours);
        println!(
            "  {:<22} {ours:9.2} µs   {count} sets in turn: one core keeps up with {segments:7.1} segments of {n}, {:8.0} channels",
            way.0,
            segments * n as f64
        );
    }
    assert!(sets.iter().all(|set| set.u == sets[0].u && set.g == sets[0].g));
}

pub fn rows(n: usize, rounds: usize) {
    let air = Air::noise(n);
    let (mut bank, mut gate) = (FloorBank::new(n), Gate::made(n, [48, 16, 96], &LENGTHS));
    let mut sets = WAYS.map(|_| Set::new(&bank, &gate, n));
    let (mut times, mut old_times): ([Vec<f64>; WAYS.len()], Vec<f64>) = Default::default();
    for round in 0..WARM / STRETCH + rounds {
        let mut marks = (vec![], vec![]);
        let old = time(|| marks = old_hear(&mut bank, &mut gate, &air));
        let is_warm = round >= WARM / STRETCH;
        old_times.extend(is_warm.then_some(old / STRETCH as f64));
        // which of them comes right after floor.rs changes from round to round
        for i in (0..WAYS.len()).map(|i| (i + round) % WAYS.len()) {
            let ours = stretch(&mut sets[i..=i], &air, &WAYS[i]);
            times[i].extend(is_warm.then_some(ours));
            let last = &sets[i].rise[(STRETCH - 1) * n..];
            assert!(marks.0.iter().zip(last).all(|(&mark, &byte)| mark as u8 == byte));
        }
    }
    for set in &sets {
        assert!(bank.to_stores().0 == set.u && gate.words() == set.g);
    }
    let (times, old) = (times.map(median), median(old_times));
    println!("both updates of a hop, n = {n}, window lengths 15, 75, 375");
    for ((what, .., aim), ours) in WAYS.into_iter().zip(times) {
        aim.map_or_else(|| row(what, ours, old), |aim| aimed_row(what, ours, old, aim));
    }
    turn_row(n, rounds, &air);
    segment_rows(n, &sets[0], &air);
}
