// Document 01's refusals, rule by rule in its order. A rule may lean on those before it.
use crate::calls::Call;
use crate::floor::ABSENT;
use crate::layout::{BINS, BLOCK_CHANNELS, CHANNEL_LEN, COUNTS, DECIMATION_HOPS, FILLED, LEAD, NEXT, RING_LEN};

pub struct Rule {
    pub name: &'static str,
    pub number: u16,
    pub broken: fn(&Call) -> bool,
}

const fn rule(name: &'static str, number: u16, broken: fn(&Call) -> bool) -> Rule {
    Rule { name, number, broken }
}

fn blocks(n: usize) -> usize {
    n / BLOCK_CHANNELS + (n % BLOCK_CHANNELS != 0) as usize
}

fn header(c: &Call) -> usize {
    c.u[0] as usize
}

fn a_channel(c: &Call, wrong: impl Fn(&[u16]) -> bool) -> bool {
    (0..header(c)).any(|k| wrong(&c.u[3 + blocks(header(c)) + CHANNEL_LEN * k..][..CHANNEL_LEN]))
}

fn miscounted(ch: &[u16]) -> bool {
    let mut recount = [0; BINS];
    for b in ch[..RING_LEN].iter().take(ch[FILLED] as usize).map(|&b| b as usize).filter(|&b| b < BINS) {
        recount[b] += 1;
    }
    recount != ch[COUNTS..NEXT]
}

pub const MAKING: [Rule; 3] = [
    rule("band", 1, |c| !(1..=512).contains(&c.n)),
    rule("u16 length", 2, |c| c.u.len() != 3 + blocks(c.n) + CHANNEL_LEN * c.n),
    rule("f64 length", 2, |c| c.f.len() != 4 * c.n + 2 * blocks(c.n)),
];

pub const STORE: [Rule; 4] = [
    rule("u16 shorter than 3", 2, |c| c.u.len() < 3),
    rule("header n", 9, |c| !(1..=512).contains(&header(c))),
    rule("u16 length", 2, |c| c.u.len() != 3 + blocks(header(c)) + CHANNEL_LEN * header(c)),
    rule("f64 length", 2, |c| c.f.len() != 4 * header(c) + 2 * blocks(header(c))),
];

pub const SOUND: [Rule; 9] = [
    rule("phase", 9, |c| c.u[1] as usize >= DECIMATION_HOPS),
    rule("started", 9, |c| c.u[2] > 1),
    rule("seed count", 9, |c| c.u[3..3 + blocks(header(c))].iter().any(|&s| s > 25)),
    rule("next below the ring's length", 9, |c| a_channel(c, |ch| ch[NEXT] as usize >= RING_LEN)),
    rule("filled at most the ring's length", 9, |c| a_channel(c, |ch| ch[FILLED] as usize > RING_LEN)),
    rule("ring entry a bin", 9, |c| a_channel(c, |ch| ch[..RING_LEN].iter().any(|&b| b as usize >= BINS))),
    rule("counts", 9, |c| a_channel(c, miscounted)),
    rule("next is filled", 9, |c| a_channel(c, |ch| (ch[FILLED] as usize) < RING_LEN && ch[NEXT] != ch[FILLED])),
    rule("lead at most count of bin 0", 9, |c| a_channel(c, |ch| ch[LEAD] > ch[COUNTS])),
];

pub const UPDATE: [Rule; 3] = [
    rule("dB length", 5, |c| c.db.len() != header(c)),
    rule("power length", 5, |c| c.power.len() != header(c)),
    rule("garbled", 6, |c| c.u[1] == 0 && garbled(c.db)),
];

/// no dB is lent, and none that is worked out is a NaN.
pub const UPDATE_LINEAR: [Rule; 1] = [rule("power length", 5, |c| c.power.len() != header(c))];

pub const READ: [Rule; 1] = [rule("channel", 7, |c| c.k >= header(c))];

// ---- the gate

/// The used triples (m, cursor, filled).
fn a_length(c: &Call, wrong: impl Fn(u16, u16, u16) -> bool) -> bool {
    c.gate[6..].chunks(3).take(c.gate[5] as usize).any(|t| wrong(t[0], t[1], t[2]))
}

fn a_double(c: &Call) -> bool {
    let used: Vec<u16> = c.gate[6..].chunks(3).take(c.gate[5] as usize).map(|t| t[0]).collect();
    (1..used.len()).any(|i| used[..i].contains(&used[i]))
}

fn is_level(x: i32) -> bool {
    (-800..=800).contains(&x)
}

fn a_level(c: &Call) -> bool {
    let [on, off, early] = c.levels;
    !is_level(on) || !is_level(off) || (early != ABSENT && !is_level(early))
}

/// Of a remake, after the gate's store.
pub const GATE_REMAKING: [Rule; 1] = [rule("level", 4, a_level)];

/// How many floats a gate of n channels and these lengths takes, doubles dropped, with the two groups of R-3.
pub fn gate_floats(n: usize, lengths: impl Iterator<Item = u16>) -> usize {
    let distinct: std::collections::BTreeSet<u16> = lengths.collect();
    n + distinct.into_iter().map(|m| 2 * m as usize * n + 2 * n).sum::<usize>() + 2 * n
}

pub const GATE_MAKING: [Rule; 6] = [
    rule("band", 1, |c| !(1..=512).contains(&c.n)),
    rule("number of lengths", 3, |c| !(1..=8).contains(&c.lengths.len())),
    rule("a length", 3, |c| c.lengths.iter().any(|m| !(1..=375).contains(m))),
    rule("level", 4, a_level),
    rule("gate's u16 length", 2, |c| c.gate.len() != 30),
    rule("gate's f64 length", 2, |c| c.gate_f.len() != gate_floats(c.n, c.lengths.iter().copied())),
];

pub const GATE_STORE: [Rule; 1] = [rule("gate's u16 length", 2, |c| c.gate.len() != 30)];

pub const GATE_SOUND: [Rule; 12] = [
    rule("gate's n", 9, |c| !(1..=512).contains(&c.gate[0])),
    rule("gate's started", 9, |c| c.gate[1] > 1),
    rule("on", 9, |c| c.gate[2] > 1600),
    rule("off", 9, |c| c.gate[3] > 1600),
    rule("early", 9, |c| c.gate[4] > 1600 && c.gate[4] != 65535),
    rule("1 to 8 lengths", 9, |c| !(1..=8).contains(&c.gate[5])),
    rule("a length of 1 to 375", 9, |c| a_length(c, |m, _, _| !(1..=375).contains(&m))),
    rule("lengths distinct", 9, a_double),
    rule("cursor below 2m", 9, |c| a_length(c, |m, cursor, _| cursor as u32 >= 2 * m as u32)),
    rule("filled at most 2m", 9, |c| a_length(c, |m, _, filled| filled as u32 > 2 * m as u32)),
    rule("cursor is filled", 9, |c| a_length(c, |m, cursor, filled| (filled as u32) < 2 * m as u32 && cursor != filled)),
    rule("unused zero", 9, |c| c.gate[6..].iter().skip(3 * c.gate[5] as usize).any(|&x| x != 0)),
];

pub const GATE_FLOATS: [Rule; 1] = [rule("gate's f64 length", 2, |c| {
    c.gate_f.len() != gate_floats(c.gate[0] as usize, c.gate[6..].chunks(3).take(c.gate[5] as usize).map(|t| t[0]))
})];

pub const PAIR: [Rule; 1] = [rule("mismatch", 8, |c| c.u[0] != c.gate[0])];

pub const GATE_UPDATE: [Rule; 4] = [
    rule("dB length", 5, |c| c.db.len() != c.gate[0] as usize),
    rule("power length", 5, |c| c.power.len() != c.gate[0] as usize),
    rule("rise length", 5, |c| c.rise.len() != c.gate[0] as usize),
    rule("drop length", 5, |c| c.drop.len() != c.gate[0] as usize),
];

pub const GATE_UPDATE_LINEAR: [Rule; 3] = [
    rule("power length", 5, |c| c.power.len() != c.gate[0] as usize),
    rule("rise length", 5, |c| c.rise.len() != c.gate[0] as usize),
    rule("drop length", 5, |c| c.drop.len() != c.gate[0] as usize),
];

pub const GATE_HOLD: [Rule; 2] = [
    rule("rise length", 5, |c| c.rise.len() != c.gate[0] as usize),
    rule("drop length", 5, |c| c.drop.len() != c.gate[0] as usize),
];

/// Of a run of one hop.
pub const RECEIVE: [Rule; 5] = [
    rule("dB length", 5, |c| c.db.len() != c.gate[0] as usize),
    rule("power length", 5, |c| c.power.len() != c.gate[0] as usize),
    rule("rise length", 5, |c| c.rise.len() != c.gate[0] as usize),
    rule("drop length", 5, |c| c.drop.len() != c.gate[0] as usize),
    rule("garbled", 6, |c| c.u[1] == 0 && garbled(c.db)),
];

pub const GATE_READ: [Rule; 1] = [rule("channel", 7, |c| c.k >= c.gate[0] as usize)];

/// How often each rule of "Sound" was broken with no other, the bank's first.
pub type Alone = [u64; SOUND.len() + GATE_SOUND.len()];

/// Counts the one rule of "Sound" that is broken, if it is one and the lengths leave it to be tested.
pub fn count_alone(c: &Call, alone: &mut Alone) {
    if refusal(c, &[&STORE, &GATE_STORE]) != 0 {
        return;
    }
    let broken: Vec<usize> = SOUND.iter().chain(&GATE_SOUND).enumerate().filter(|(_, r)| (r.broken)(c)).map(|(i, _)| i).collect();
    if let [only] = broken[..] {
        alone[only] += 1;
    }
}

/// A NaN dB in a block of two or more channels.
pub fn garbled(db: &[f64]) -> bool {
    db.chunks(32).any(|block| block.len() > 1 && block.iter().any(|x| x.is_nan()))
}

/// The number of the first rule that is broken, 0 if none is.
pub fn refusal(c: &Call, rules: &[&[Rule]]) -> u16 {
    rules.iter().flat_map(|r| r.iter()).find(|r| (r.broken)(c)).map_or(0, |r| r.number)
}
