// the worst floor of late beside plain Rust that keeps every effective floor; each rule of its store broken alone, and the order
// of its refusals.
use crate::decibels::plain_dbs;
use crate::linear_rows;
use crate::numbers::{any_f64, sample, same, Feed, Rng};
use crate::tally::Tally;
use crate::wolfcloak::{self as lib, act_as, KEEPER, TECHNICIAN};

pub const SPANS: [usize; 5] = [1, 2, 3, 599, 600];
const SIZES: [usize; 3] = [1, 2, 33];
const NONE_YET: u16 = 101;

/// A bank with this store beside it.
#[derive(Clone)]
struct Set {
    u: Vec<u16>,
    f: Vec<f64>,
    w: Vec<u16>,
    g: Vec<f64>,
}

fn fresh(t: &mut Tally, n: usize, span: usize) -> Set {
    let [len, f_len] = unsafe { [lib::wolfcloak_bank_len(n), lib::wolfcloak_bank_f_len(n)] };
    let g_len = lib::worst_f_len(n, span);
    t.check(g_len == n * span, format_args!("worst_f_len({n}, {span}) is {g_len}"));
    let mut s = Set { u: vec![9; len], f: vec![9.0; f_len], w: vec![9; 4], g: vec![9.0; g_len] };
    t.answer(format_args!("bank_new({n})"), lib::bank_new(&mut s.u, &mut s.f, n), 0);
    t.answer(format_args!("worst_new({n}, {span})"), lib::worst_new(&mut s.w, &mut s.g, n, span), 0);
    t.words(format_args!("a fresh store"), &s.w, &[n as u16, span as u16, 0, 0]);
    t.floats(format_args!("a fresh store"), &s.g, &vec![0.0; n * span]);
    s
}

impl Set {
    /// The bank update of this hop, carrying the store or not.
    fn hear(&mut self, carries: bool, db: &[f64], power: &[f32], hold: bool) -> u16 {
        match carries {
            true => lib::bank_update_worst((&mut self.u, &mut self.f), (&mut self.w, &mut self.g), (db, power), hold),
            false => lib::bank_update(&mut self.u, &mut self.f, db, power, Some(hold)),
        }
    }

    /// The answer, and what is written: 7.5 if nothing is.
    fn worst(&self, k: usize) -> (u16, f64) {
        let mut value = 7.5;
        let answer = lib::worst_floor((&self.u, &self.f), (&self.w, &self.g), k, &mut value);
        (answer, value)
    }
}

/// an update from linear power alone is the one with the dB of its powers, refused or not.
fn linear(t: &mut Tally, what: &str, s: &Set, power: &[f32], hold: bool) {
    let (mut one, mut other) = (s.clone(), s.clone());
    let answer = linear_rows::bank_update_worst((&mut one.u, &mut one.f), (&mut one.w, &mut one.g), power, hold);
    t.answer(format_args!("{what}: linear"), answer, other.hear(true, &plain_dbs(power), power, hold));
    let same = one.u == other.u && one.w == other.w && bits(&one.f) == bits(&other.f) && bits(&one.g) == bits(&other.g);
    t.check(same, format_args!("{what}: linear power left another store"));
}

/// Document 01's maximum: a NaN is passed over, and of equal ones the first stays.
fn greater(a: f64, b: f64) -> f64 {
    if a.is_nan() || a < b { b } else { a }
}

fn due(late: &[Vec<f64>], k: usize) -> (u16, f64) {
    match late.split_first() {
        None => (NONE_YET, 7.5),
        Some((first, rest)) => (0, rest.iter().fold(first[k], |high, floors| greater(high, floors[k]))),
    }
}

fn bits(floats: &[f64]) -> Vec<u64> {
    floats.iter().map(|x| x.to_bits()).collect()
}

/// A hop, one in four of which is refused at some hop: a NaN dB, or a slice too short or too long.
fn a_hop(n: usize, at: usize, rng: &mut Rng) -> (Vec<f64>, Vec<f32>) {
    // the noise comes and goes, so that the highest floor leaves a ring too
    let louder = (at / 997 % 7) as f64 * 5.0 - 15.0;
    let (mut db, mut power): (Vec<f64>, Vec<f32>) = (0..n).map(|k| sample(rng, Feed::Noise, at, k)).unzip();
    db.iter_mut().for_each(|x| *x += louder);
    match rng.below(12) {
        0 => db[rng.below(n)] = f64::NAN,
        1 => drop(power.pop()),
        2 => db.push(0.0),
        _ => {}
    }
    (db, power)
}

/// Runs longer than the span, for one span and each size: carried and not in turn, held or not, refused hops among them.
pub fn runs(t: &mut Tally, span: usize, rng: &mut Rng) {
    for n in SIZES {
        let mut s = fresh(t, n, span);
        let mut kept: Vec<Vec<f64>> = vec![];
        let hops = 15 * (2 * span + 40) * 7 / 4;
        for at in 0..hops {
            let (db, power) = a_hop(n, at, rng);
            let (carries, hold, slow) = (!rng.one_in(4), rng.one_in(3), s.u[1] == 0);
            let before = s.clone();
            let mut alone = before.clone();
            act_as(if rng.one_in(20) { KEEPER } else { TECHNICIAN }); // a keeper's hop is refused
            let answer = s.hear(carries, &db, &power, hold);
            let what = format_args!("worst of late, n {n}, W {span}, hop {at}").to_string();
            if rng.one_in(5) {
                linear(t, &what, &before, &power, hold);
            }
            t.answer(format_args!("{what}"), answer, alone.hear(false, &db, &power, hold));
            act_as(TECHNICIAN);
            t.check(s.u == alone.u && bits(&s.f) == bits(&alone.f), format_args!("{what}: the bank noticed what it carries"));
            if answer == 0 && carries && slow {
                let floor = |k: usize| {
                    let mut value = f64::NAN;
                    lib::effective_floor_db(&s.u, &s.f, k, &mut value);
                    value
                };
                kept.push((0..n).map(floor).collect());
            } else {
                t.check(s.w == before.w && bits(&s.g) == bits(&before.g), format_args!("{what}: the store moved"));
            }
            if at % 7 == 0 {
                for k in [0, n / 2, n - 1] {
                    let (got, want) = (s.worst(k), due(&kept[kept.len().saturating_sub(span)..], k));
                    t.check(got.0 == want.0 && same(got.1, want.1), format_args!("{what}, channel {k}: {got:?}, and {want:?} is due"));
                }
                t.answer(format_args!("{what}: a channel too many"), s.worst(n).0, 7);
            }
        }
        t.check(kept.len() > span, format_args!("W {span}, n {n}: only {} slow hops were kept", kept.len()));
    }
}

/// Rings of any floats, as a lent store may hold them: NaNs, zeros of either sign, infinities.
pub fn any_rings(t: &mut Tally, rng: &mut Rng) {
    for _ in 0..4000 {
        let (n, span) = (1 + rng.below(3), 1 + rng.below(5));
        let mut s = fresh(t, n, span);
        s.g.iter_mut().for_each(|x| *x = any_f64(rng));
        let filled = rng.below(span + 1);
        let next = if filled < span { filled } else { rng.below(span) };
        s.w = vec![n as u16, span as u16, next as u16, filled as u16];
        for k in 0..n {
            let ring = &s.g[span * k..][..span];
            let oldest_first = [&ring[next.min(filled)..filled], &ring[..next]].concat();
            let rows: Vec<Vec<f64>> = oldest_first.iter().map(|&x| vec![x]).collect();
            let (got, want) = (s.worst(k), due(&rows, 0));
            let equal = got.1.to_bits() == want.1.to_bits() || got.1.is_nan() && want.1.is_nan();
            t.check(got.0 == want.0 && equal, format_args!("ring {ring:?}, next {next}, filled {filled}: {got:?}, and {want:?} is due"));
        }
    }
}

/// Making, each rule of "sound" broken alone, and which refusal comes first.
pub fn refusals(t: &mut Tally) {
    for (u_len, f_len, n, span, want) in [
        (0, 0, 0, 0, 1), (4, 0, 513, 601, 1), (4, 0, usize::MAX, 3, 1), (0, 0, 512, 0, 12), (4, 0, 512, 601, 12), (4, 0, 1, usize::MAX, 12),
        (3, 6, 2, 3, 2), (5, 6, 2, 3, 2), (4, 5, 2, 3, 2), (4, 7, 2, 3, 2), (4, 6, 2, 3, 0), (4, 1, 1, 1, 0),
    ] {
        let (mut w, mut g) = (vec![77; u_len], vec![7.5; f_len]);
        t.answer(format_args!("worst_new({n}, {span}) in {u_len}, {f_len}"), lib::worst_new(&mut w, &mut g, n, span), want);
        let is_left = w.iter().all(|&x| x == 77) && g.iter().all(|&x| x == 7.5);
        t.check(is_left == (want != 0), format_args!("worst_new({n}, {span}) in {u_len}, {f_len}: the stores"));
        if want == 1 || want == 12 {
            t.check(lib::worst_f_len(n, span) == 0, format_args!("worst_f_len({n}, {span})"));
        }
    }
    let s = fresh(t, 2, 3);
    let six = [-90.0; 6];
    let cases: [(&[u16], &[f64], u16); 20] = [
        (&[2, 3, 0, 0], &six, NONE_YET), (&[2, 3, 2, 2], &six, 0), (&[2, 3, 1, 3], &six, 0), (&[2, 3, 2, 3], &six, 0),
        // n, W, next, filled, filled that isn't next: each alone
        (&[0, 3, 0, 0], &six, 9), (&[513, 3, 0, 0], &six, 9), (&[2, 0, 0, 0], &six, 9), (&[2, 601, 0, 0], &six, 9),
        (&[2, 3, 3, 3], &six, 9), (&[2, 3, 0, 4], &six, 9), (&[2, 3, 1, 2], &six, 9), (&[2, 3, 1, 0], &six, 9),
        // lengths; contents before the f64 length
        (&[2, 3, 0], &six, 2), (&[2, 3, 0, 0, 0], &six, 2), (&[], &[], 2), (&[2, 3, 0, 0], &six[1..], 2), (&[2, 2, 0, 0], &six, 2),
        (&[2, 3, 3, 3], &six[1..], 9),
        // of another n, and 9 before 8
        (&[3, 2, 0, 0], &six, 8), (&[3, 2, 2, 0], &six, 9),
    ];
    for (w, g, want) in cases {
        let mut lent = Set { w: w.to_vec(), g: g.to_vec(), ..s.clone() };
        t.answer(format_args!("worst_floor with {w:?}, {}", g.len()), lent.worst(0).0, want);
        // 7 and 5 come after all of these
        let late = |r: u16| if want == 0 || want == NONE_YET { r } else { want };
        t.answer(format_args!("worst_floor of channel 2 with {w:?}, {}", g.len()), lent.worst(2).0, late(7));
        t.answer(format_args!("a short hop with {w:?}, {}", g.len()), lent.hear(true, &[0.0], &[0.0; 2], false), late(5));
        t.answer(format_args!("a NaN with {w:?}, {}", g.len()), lent.hear(true, &[0.0, f64::NAN], &[0.0; 2], false), late(6));
        t.check(lent.w == w && lent.u == s.u, format_args!("refused with {w:?}: the stores"));
        for powers in [0, 1, 2, 3, 512, 513, 4000] {
            linear(t, &format!("{powers} powers with {w:?}, {}", g.len()), &lent, &vec![0.5; powers], false);
        }
        // the bank's own refusals come before
        lent.u[1] = 15;
        t.answer(format_args!("an unsound bank beside {w:?}"), lent.worst(0).0, 9);
        linear(t, &format!("an unsound bank beside {w:?}"), &lent, &[0.5; 600], true);
        lent.u.pop();
        t.answer(format_args!("a short bank beside {w:?}"), lent.hear(true, &[], &[], true), 2);
    }
}
