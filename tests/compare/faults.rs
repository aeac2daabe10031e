// Refusals: each fault, each pair of faults at once, and arbitrary words, stores and lengths.
use crate::calls::{every_call, gate_making, making, Lent};
use crate::floor::{FloorBank, Gate, ABSENT};
use crate::layout::{place, BINS, BLOCK_CHANNELS, CHANNEL_LEN, COUNTS, DECIMATION_HOPS, FILLED, HIST_MIN_DB, LEAD, NEXT, RING_LEN};
use crate::numbers::{any_f32, any_f64, any_lengths, any_levels, beside, Rng};
use crate::pairs;
use crate::rules::{count_alone, gate_floats, Alone};
use crate::tally::Tally;
use crate::wolfcloak as lib;

/// A channel of the bank as it was made.
fn channel<'a>(l: &'a mut Lent, rng: &mut Rng) -> &'a mut [u16] {
    let at = place(l.n, rng.below(l.n));
    &mut l.u[at..at + CHANNEL_LEN]
}

/// A filled place of its ring.
fn in_use(c: &[u16], rng: &mut Rng) -> Option<usize> {
    (1..=RING_LEN).contains(&(c[FILLED] as usize)).then(|| rng.below(c[FILLED] as usize))
}

/// A used triple (m, cursor, filled) of the gate.
fn triple<'a>(l: &'a mut Lent, rng: &mut Rng) -> &'a mut [u16] {
    let i = rng.below(l.gate[5].clamp(1, 8) as usize);
    &mut l.gate[6 + 3 * i..9 + 3 * i]
}

/// Its first unused triple; its last one if there is none.
fn unused(l: &mut Lent) -> &mut [u16] {
    let i = l.gate[5].min(7) as usize;
    &mut l.gate[6 + 3 * i..9 + 3 * i]
}

/// As long as the gate's u16 store asks for, if that is near.
fn fit(l: &mut Lent) {
    let lengths = l.gate[6..30].chunks(3).take(l.gate[5] as usize).map(|t| t[0]);
    l.gate_f_len = gate_floats(l.gate[0] as usize, lengths).min(1 << 16);
    l.gate_f.resize(l.gate_f_len + 4, 7.5);
}

pub type Fault = (&'static str, fn(&mut Lent, &mut Rng));

pub const FAULTS: [Fault; 96] = [
    ("no u16 store", |l, _| l.u_len = 0),
    ("u16 store of 1", |l, _| l.u_len = 1),
    ("u16 store of 2", |l, _| l.u_len = 2),
    ("u16 store of 3", |l, _| l.u_len = 3),
    ("u16 store one short", |l, _| l.u_len = l.u_len.saturating_sub(1)),
    ("u16 store one long", |l, _| l.u_len += 1),
    ("u16 store from before R-11", |l, _| l.u_len = 3 + l.n.div_ceil(BLOCK_CHANNELS) + 533 * l.n),
    ("no f64 store", |l, _| l.f_len = 0),
    ("f64 store one short", |l, _| l.f_len = l.f_len.saturating_sub(1)),
    ("f64 store one long", |l, _| l.f_len += 1),
    ("header n 0", |l, _| l.u[0] = 0),
    ("header n 513", |l, _| l.u[0] = 513),
    ("header n 65535", |l, _| l.u[0] = 65535),
    ("header n one more", |l, _| l.u[0] = l.u[0].wrapping_add(1)),
    ("header n one less", |l, _| l.u[0] = l.u[0].wrapping_sub(1)),
    ("phase one too many", |l, _| l.u[1] = DECIMATION_HOPS as u16),
    ("phase 65535", |l, _| l.u[1] = 65535),
    ("started 2", |l, _| l.u[2] = 2),
    ("started 256", |l, _| l.u[2] = 256),
    ("seed count 26", |l, rng| l.u[3 + rng.below(l.n.div_ceil(BLOCK_CHANNELS))] = 26),
    ("next past the ring", |l, rng| channel(l, rng)[NEXT] = RING_LEN as u16),
    ("next elsewhere", |l, rng| {
        let c = channel(l, rng);
        c[NEXT] = (c[NEXT] + 1) % RING_LEN as u16
    }),
    ("filled one more", |l, rng| channel(l, rng)[FILLED] += 1),
    ("filled 65535", |l, rng| channel(l, rng)[FILLED] = 65535),
    ("lead too large", |l, rng| {
        let c = channel(l, rng);
        c[LEAD] = c[COUNTS] + 1
    }),
    ("lead 65535", |l, rng| channel(l, rng)[LEAD] = 65535),
    ("ring entry no bin, uncounted", |l, rng| {
        let c = channel(l, rng);
        if let Some(i) = in_use(c, rng) {
            let b = c[i] as usize;
            c[i] = BINS as u16;
            if b < BINS && c[COUNTS + b] > 0 && (b > 0 || c[COUNTS] > c[LEAD]) {
                c[COUNTS + b] -= 1
            }
        }
    }),
    ("last ring place no bin", |l, rng| channel(l, rng)[RING_LEN - 1] = BINS as u16),
    ("last ring place 65535", |l, rng| channel(l, rng)[RING_LEN - 1] = 65535),
    ("a count one more", |l, rng| {
        let b = rng.below(BINS);
        channel(l, rng)[COUNTS + b] += 1
    }),
    ("last count one more", |l, rng| channel(l, rng)[NEXT - 1] += 1),
    ("a count 256 more", |l, rng| {
        let b = rng.below(BINS);
        channel(l, rng)[COUNTS + b] += 256
    }),
    ("a ring entry moved", |l, rng| {
        let c = channel(l, rng);
        if let Some(i) = in_use(c, rng) {
            c[i] = (c[i] + 1) % BINS as u16
        }
    }),
    ("no dB", |l, _| l.db_len = 0),
    ("dB one short", |l, _| l.db_len = l.db_len.saturating_sub(1)),
    ("dB one long", |l, _| l.db_len += 1),
    ("no power", |l, _| l.power_len = 0),
    ("power one short", |l, _| l.power_len = l.power_len.saturating_sub(1)),
    ("power one long", |l, _| l.power_len += 1),
    ("NaN dB", |l, rng| {
        let k = rng.below(l.n);
        l.db[k] = f64::NAN
    }),
    ("channel n", |l, _| l.k = l.n),
    ("no gate u16 store", |l, _| l.gate_len = 0),
    ("gate u16 store of 5", |l, _| l.gate_len = 5),
    ("gate u16 store one short", |l, _| l.gate_len = 29),
    ("gate u16 store one long", |l, _| l.gate_len = 31),
    ("no gate f64 store", |l, _| l.gate_f_len = 0),
    ("gate f64 store one short", |l, _| l.gate_f_len = l.gate_f_len.saturating_sub(1)),
    ("gate f64 store one long", |l, _| l.gate_f_len += (l.gate_f_len < l.gate_f.len()) as usize),
    ("gate n 0", |l, _| l.gate[0] = 0),
    ("gate n 0, f64 store to fit", |l, _| {
        l.gate[0] = 0;
        fit(l)
    }),
    ("gate n 513", |l, _| l.gate[0] = 513),
    ("gate n one more, f64 store to fit", |l, _| {
        l.gate[0] = l.gate[0].wrapping_add(1);
        fit(l)
    }),
    ("gate n one less, f64 store to fit", |l, _| {
        l.gate[0] = l.gate[0].wrapping_sub(1);
        fit(l)
    }),
    ("gate started 2", |l, _| l.gate[1] = 2),
    ("gate started 65535", |l, _| l.gate[1] = 65535),
    ("on 1601", |l, _| l.gate[2] = 1601),
    ("on 65535", |l, _| l.gate[2] = 65535),
    ("off 1601", |l, _| l.gate[3] = 1601),
    ("off 65535", |l, _| l.gate[3] = 65535),
    ("early 1601", |l, _| l.gate[4] = 1601),
    ("early 65534", |l, _| l.gate[4] = 65534),
    ("no length", |l, _| l.gate[5] = 0),
    ("no length, the rest to fit", |l, _| {
        l.gate[5..].fill(0);
        fit(l)
    }),
    ("9 lengths", |l, _| l.gate[5] = 9),
    ("65535 lengths", |l, _| l.gate[5] = 65535),
    ("one length more", |l, _| l.gate[5] = l.gate[5].wrapping_add(1)),
    ("one length less, f64 store to fit", |l, _| {
        l.gate[5] = l.gate[5].wrapping_sub(1);
        fit(l)
    }),
    ("a length of 0, f64 store to fit", |l, rng| {
        triple(l, rng).fill(0);
        fit(l)
    }),
    ("a length of 376, f64 store to fit", |l, rng| {
        triple(l, rng).copy_from_slice(&[376, 3, 3]);
        fit(l)
    }),
    ("a length of 32768", |l, rng| triple(l, rng).copy_from_slice(&[32768, 0, 0])),
    ("a double, f64 store to fit", |l, rng| {
        let other = triple(l, rng).to_vec();
        triple(l, rng).copy_from_slice(&other);
        fit(l)
    }),
    ("cursor 2m", |l, rng| {
        let t = triple(l, rng);
        t[1] = t[0].wrapping_mul(2)
    }),
    ("cursor 65535", |l, rng| triple(l, rng)[1] = 65535),
    ("cursor elsewhere", |l, rng| {
        let t = triple(l, rng);
        t[1] = t[1].wrapping_add(1) % t[0].wrapping_mul(2).max(1)
    }),
    ("filled 2m + 1", |l, rng| {
        let t = triple(l, rng);
        t[2] = t[0].wrapping_mul(2).wrapping_add(1)
    }),
    ("filled one less", |l, rng| {
        let t = triple(l, rng);
        t[2] = t[2].wrapping_sub(1)
    }),
    ("an unused length", |l, _| unused(l)[0] = 1),
    ("an unused cursor", |l, _| unused(l)[1] = 1),
    ("an unused filled", |l, _| unused(l)[2] = 1),
    ("last word of the gate", |l, _| l.gate[29] = l.gate[29].wrapping_add(1)),
    ("no rise", |l, _| l.rise_len = 0),
    ("rise one short", |l, _| l.rise_len = l.rise_len.saturating_sub(1)),
    ("rise one long", |l, _| l.rise_len += 1),
    ("drop one short", |l, _| l.drop_len = l.drop_len.saturating_sub(1)),
    ("drop one long", |l, _| l.drop_len += 1),
    ("made with n 0", |l, _| l.n = 0),
    ("made with n 513", |l, _| l.n = 513),
    ("made with no lengths", |l, _| l.lengths.clear()),
    ("made with 9 lengths", |l, _| l.lengths.resize(9, 1)),
    ("made with a length of 0", |l, rng| l.lengths.insert(rng.below(l.lengths.len() + 1), 0)),
    ("made with a length of 376", |l, _| l.lengths.push(376)),
    ("on of 801", |l, rng| l.levels[0] = rng.pick(&[801, i32::MAX, ABSENT])),
    ("on of -801", |l, rng| l.levels[0] = rng.pick(&[-801, i32::MIN])),
    ("off of 801", |l, rng| l.levels[1] = rng.pick(&[801, -801, i32::MIN, i32::MAX, ABSENT])),
    ("early of 801", |l, rng| l.levels[2] = rng.pick(&[801, 65534, 65536, i32::MAX])),
    ("early of -801", |l, rng| l.levels[2] = rng.pick(&[-801, -1 - 65535, i32::MIN])),
];

/// Each fault alone, and `pairs` in a hundred of the pairs.
pub fn singles_and_pairs(t: &mut Tally, l: &Lent, rng: &mut Rng, pairs: usize, alone: &mut Alone) {
    let n = l.n;
    for (i, (first, one)) in FAULTS.iter().enumerate() {
        let mut bad = l.clone();
        one(&mut bad, rng);
        count_alone(&bad.call(), alone);
        every_call(t, format_args!("n {n}, {first}"), &bad);
        for (second, two) in &FAULTS[i..] {
            if rng.below(100) < pairs {
                let mut worse = bad.clone();
                two(&mut worse, rng);
                every_call(t, format_args!("n {n}, {first} and {second}"), &worse);
            }
        }
    }
}

/// One or two words of a store replaced, and slices of any length.
pub fn any_words(t: &mut Tally, l: &Lent, rng: &mut Rng, times: usize) {
    for _ in 0..times {
        let mut bad = l.clone();
        for _ in 0..1 + rng.below(2) {
            let store = if rng.one_in(2) { &mut bad.gate[..l.gate_len] } else { &mut bad.u[..l.u_len] };
            let word = &mut store[rng.below(store.len())];
            *word = match rng.below(4) {
                0 => rng.next() as u16,
                1 => rng.below(300) as u16,
                2 => word.wrapping_add(1),
                _ => word.wrapping_sub(1),
            };
        }
        every_call(t, format_args!("n {}, words changed", l.n), &bad);
        let mut cut = l.clone();
        match rng.below(8) {
            0 => cut.u_len = rng.below(cut.u.len()),
            1 => cut.f_len = rng.below(cut.f.len()),
            2 => cut.db_len = rng.below(cut.db.len()),
            3 => cut.power_len = rng.below(cut.power.len()),
            4 => cut.gate_len = rng.below(cut.gate.len()),
            5 => cut.gate_f_len = rng.below(cut.gate_f.len()),
            6 => cut.rise_len = rng.below(cut.rise.len()),
            _ => cut.drop_len = rng.below(cut.drop.len()),
        }
        cut.k = rng.pick(&[0, l.n - 1, l.n, l.n + 1, 65536, 1 << 32, usize::MAX / CHANNEL_LEN, usize::MAX - 1, usize::MAX]);
        every_call(t, format_args!("n {}, slices cut, k {}", l.n, cut.k), &cut);
    }
}

/// A bank that is sound and nothing more, with any floats.
pub fn any_bank(n: usize, rng: &mut Rng) -> (Vec<u16>, Vec<f64>) {
    let (mut u, mut f) = FloorBank::new(n).to_stores();
    let blocks = n.div_ceil(BLOCK_CHANNELS);
    u[1] = rng.pick(&[0, 0, 0, 1, 7, DECIMATION_HOPS as u16 - 1]);
    u[2] = rng.below(2) as u16;
    for b in 0..blocks {
        u[3 + b] = rng.pick(&[0, 0, 1, 24, 25]);
    }
    for c in u[3 + blocks..].chunks_exact_mut(CHANNEL_LEN) {
        let bins = rng.pick(&[1, 2, BINS]);
        let filled = rng.pick(&[0, 1, 4, 24, 25, 26, 100, RING_LEN - 1, RING_LEN, RING_LEN]);
        for i in 0..RING_LEN {
            c[i] = rng.below(bins) as u16;
            c[COUNTS + c[i] as usize] += (i < filled) as u16;
        }
        c[NEXT] = if filled < RING_LEN { filled } else { rng.below(RING_LEN) } as u16;
        c[FILLED] = filled as u16;
        c[LEAD] = rng.below(c[COUNTS] as usize + 1) as u16;
    }
    let usual = rng.one_in(2);
    f.iter_mut().for_each(|x| *x = if usual { HIST_MIN_DB + 150.0 * rng.unit() } else { any_f64(rng) });
    (u, f)
}

/// A gate that is sound and nothing more, with any floats; sums and smoothed dB often stand at the very edge of a rise or a drop.
pub fn any_gate(bank: &(Vec<u16>, Vec<f64>), levels: [i32; 3], lengths: &[u16], rng: &mut Rng) -> (Vec<u16>, Vec<f64>) {
    let oracle = FloorBank::of_stores(&bank.0, &bank.1);
    let n = oracle.n_channels();
    let (mut g, mut f) = Gate::made(n, levels, lengths).to_stores();
    g[1] = (!rng.one_in(4)) as u16;
    let [on, off, early] = levels.map(|x| x as f64 / 8.0);
    f.iter_mut().for_each(|x| *x = any_f64(rng));
    for k in 0..n {
        let level = rng.pick(&[off, early]);
        f[k] = beside(rng, oracle.effective_floor_db(k) + level);
    }
    // pairs of all kinds, and below sums at the edges of the thresholds that will be judged with
    pairs::put_untrue(&mut f, &bank.1[3 * n..], n, rng);
    let thresholds = pairs::after(&f, &bank.1[3 * n..], n, on).1;
    let mut at = n;
    for l in g[6..].chunks_exact_mut(3).take_while(|l| l[0] > 0) {
        let m = l[0] as usize;
        let filled = if rng.one_in(3) { rng.below(2 * m + 1) } else { 2 * m };
        let elsewhere = if rng.one_in(2) { rng.below(2 * m) } else { 2 * m - 1 };
        l[1] = if filled < 2 * m { filled } else { elsewhere } as u16;
        l[2] = filled as u16;
        at += 2 * m * n;
        let one_for_all = thresholds[rng.below(n)] * m as f64;
        for k in 0..n {
            let edge = if rng.one_in(2) { one_for_all } else { thresholds[k] * m as f64 };
            f[at + k] = beside(rng, edge);
            f[at + n + k] = beside(rng, edge);
        }
        at += 2 * n;
    }
    (g, f)
}

/// Sound stores, stepped, judged and read.
pub fn any_sound_store(t: &mut Tally, n: usize, rng: &mut Rng) {
    let bank = any_bank(n, rng);
    let levels = any_levels(rng);
    let most = if n < 40 && rng.one_in(4) { 375 } else { 6 };
    let lengths = any_lengths(rng, most);
    let gate = any_gate(&bank, levels, &lengths, rng);
    let db: Vec<f64> = (0..n).map(|_| any_f64(rng)).map(|x| if x.is_nan() && n > 1 { -0.0 } else { x }).collect();
    let power: Vec<f32> = (0..n).map(|_| any_f32(rng)).collect();
    let mut l = Lent::new(&bank, &gate, &db, &power, any_levels(rng), &lengths);
    l.k = rng.below(n);
    l.hold = rng.pick(&[None, Some(false), Some(true)]);
    every_call(t, format_args!("n {n}, sound stores"), &l);
}

const HUGE: [usize; 8] =
    [1 << 16, (1 << 16) + 1, 1 << 32, (1 << 32) + 32, usize::MAX / CHANNEL_LEN, usize::MAX - 31, usize::MAX - 1, usize::MAX];

fn garbage(len: usize, f_len: usize, rng: &mut Rng) -> (Vec<u16>, Vec<f64>) {
    ((0..len).map(|_| rng.next() as u16).collect(), (0..f_len).map(|_| any_f64(rng)).collect())
}

/// The making of banks, and their lengths, for any n.
pub fn any_n(t: &mut Tally, rng: &mut Rng) {
    for n in (0..600).chain(HUGE) {
        let lens = if (1..=512).contains(&n) {
            let (u, f) = FloorBank::new(n).to_stores();
            (u.len(), f.len())
        } else {
            (0, 0)
        };
        let got = unsafe { (lib::wolfcloak_bank_len(n), lib::wolfcloak_bank_f_len(n)) };
        t.check(got == lens, format_args!("bank_len, bank_f_len of {n}: {got:?}, and {lens:?} are due"));
        let mut l = Lent::new(&garbage(lens.0, lens.1, rng), &garbage(30, 0, rng), &[], &[], [0; 3], &[]);
        l.n = n;
        for (u_len, f_len) in [lens, (lens.0 + 1, lens.1), (lens.0, lens.1 + 1), (lens.0.max(1) - 1, lens.1), (lens.0, 0)] {
            (l.u_len, l.f_len) = (u_len, f_len);
            making(t, format_args!("bank_new {n}, lengths {u_len} and {f_len}"), &l);
        }
    }
}

/// The making of gates, and their length, for any n, levels and lengths.
pub fn any_settings(t: &mut Tally, rng: &mut Rng) {
    for turn in 0..3000 {
        let n = match rng.below(8) {
            0 => rng.pick(&[0, 513, 600, 65536]),
            1 => rng.pick(&HUGE),
            2 => rng.pick(&[511, 512]),
            _ => 1 + rng.below(40),
        };
        let most = if n < 100 { rng.pick(&[375, 377]) } else { 9 };
        let mut lengths = any_lengths(rng, most);
        match rng.below(12) {
            0 => lengths.clear(),
            1 => lengths.resize(rng.pick(&[8, 9, 300]), rng.pick(&[1, 2])),
            2 => lengths[0] = rng.pick(&[0, 376, 65535, 32768]),
            _ => (),
        }
        let mut levels = any_levels(rng);
        if rng.one_in(4) {
            levels[rng.below(3)] = rng.pick(&[801, -801, 65535, 65534, 65536, -65535, i32::MIN, i32::MAX]);
        }
        let good = (1..=512).contains(&n) && (1..=8).contains(&lengths.len()) && lengths.iter().all(|m| (1..=375).contains(m));
        let due = if good { gate_floats(n, lengths.iter().copied()) } else { 0 };
        let got = lib::gate_f_len(n, &lengths);
        t.check(got == due, format_args!("gate_f_len of {n}, {lengths:?}: {got}, and {due} is due"));
        let mut l = Lent::new(&garbage(3, 0, rng), &garbage(30, due, rng), &[], &[], levels, &lengths);
        l.n = n;
        if turn % 3 == 0 {
            l.gate_len = rng.pick(&[0, 6, 29, 30, 31]);
            l.gate_f_len = rng.pick(&[0, due, due + 1, due.max(1) - 1]);
        }
        gate_making(t, format_args!("gate_new {n}, {levels:?}, {lengths:?}"), &l);
    }
}
