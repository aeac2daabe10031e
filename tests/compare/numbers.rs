// Seeded numbers, and the floats that are worth feeding.
use crate::layout::{BINS, HIST_MIN_DB};

/// splitmix64
pub struct Rng(pub u64);

impl Rng {
    pub fn next(&mut self) -> u64 {
        self.0 = self.0.wrapping_add(0x9e37_79b9_7f4a_7c15);
        let z = (self.0 ^ (self.0 >> 30)).wrapping_mul(0xbf58_476d_1ce4_e5b9);
        let z = (z ^ (z >> 27)).wrapping_mul(0x94d0_49bb_1331_11eb);
        z ^ (z >> 31)
    }

    pub fn below(&mut self, n: usize) -> usize {
        (self.next() % n as u64) as usize
    }

    /// Above 0, at most 1.
    pub fn unit(&mut self) -> f64 {
        ((self.next() >> 11) + 1) as f64 / 9007199254740992.0
    }

    pub fn one_in(&mut self, n: usize) -> bool {
        self.below(n) == 0
    }

    pub fn pick<T: Copy>(&mut self, from: &[T]) -> T {
        from[self.below(from.len())]
    }
}

/// Equal as document 01 counts: zeros of either sign are equal, and so are NaNs.
pub fn same(a: f64, b: f64) -> bool {
    a == b || (a.is_nan() && b.is_nan())
}

/// An edge between two bins, or a neighbour of one.
pub fn edge(rng: &mut Rng) -> f64 {
    let x = HIST_MIN_DB + rng.below(BINS + 2) as f64 / 2.0 - 0.5;
    match rng.below(4) {
        0 => x.next_up(),
        1 => x.next_down(),
        2 => x - 2f64.powi(-45),
        _ => x,
    }
}

/// How many floats `old_bottom` goes through.
pub const OLD_BOTTOM: usize = 123;

/// data around the old bottom. Every edge of a bin from -160 to -140 dB, and the float on either side of it.
pub fn old_bottom(i: usize) -> f64 {
    let edge = -160.0 + (i / 3 % 41) as f64 / 2.0;
    [edge.next_down(), edge, edge.next_up()][i % 3]
}

pub fn any_f64(rng: &mut Rng) -> f64 {
    const ODD: [f64; 16] = [
        f64::NAN, f64::INFINITY, f64::NEG_INFINITY, 0.0, -0.0, f64::MIN_POSITIVE, 5e-324, -5e-324, f64::MAX, f64::MIN, -140.0,
        -160.0, -200.0, 1e-14, 1e-16, 3.8,
    ];
    match rng.below(6) {
        0 => rng.pick(&ODD),
        1 => edge(rng),
        2 => f64::from_bits(rng.next()),
        3 => f64::from_bits(rng.next() >> 12), // subnormal
        _ => -180.0 + 190.0 * rng.unit(),
    }
}

pub fn any_f32(rng: &mut Rng) -> f32 {
    const ODD: [f32; 11] =
        [f32::NAN, f32::INFINITY, f32::NEG_INFINITY, 0.0, -0.0, f32::MIN_POSITIVE, 1e-45, -1e-45, f32::MAX, f32::MIN, 1e-20];
    match rng.below(5) {
        0 => rng.pick(&ODD),
        1 => f32::from_bits(rng.next() as u32),
        2 => f32::from_bits(rng.next() as u32 >> 9), // subnormal
        _ => (10f64.powf(-16.0 * rng.unit())) as f32,
    }
}

/// Any but NaN and the infinities, which would stay in the smoothed powers for good.
pub fn finite_f32(rng: &mut Rng) -> f32 {
    let x = any_f32(rng);
    if x.is_finite() { x } else { 1e-9 }
}

/// x, a neighbour of it, or any float.
pub fn beside(rng: &mut Rng, x: f64) -> f64 {
    match rng.below(5) {
        0 => x.next_up(),
        1 => x.next_down(),
        2 => any_f64(rng),
        _ => x,
    }
}

/// Levels on, off and early that making takes: for early, 65535 is absent.
pub fn any_levels(rng: &mut Rng) -> [i32; 3] {
    let mut level = || rng.pick(&[-800, -161, -8, 0, 1, 16, 24, 31, 48, 80, 801, 800]);
    let [on, off, early] = [level(), level(), level()];
    [on.min(800), off.min(800), if early == 801 || rng.one_in(3) { 65535 } else { early }]
}

/// One to eight window lengths, doubles among them.
pub fn any_lengths(rng: &mut Rng, most: usize) -> Vec<u16> {
    let among = 1 + rng.below(most);
    (0..1 + rng.below(8)).map(|_| if rng.one_in(3) { among } else { 1 + rng.below(among) } as u16).collect()
}

/// What a set hears.
#[derive(Clone, Copy, PartialEq)]
pub enum Feed {
    Silence, // digital silence
    Partly,  // digital silence on two channels of three, noise on the others
    Noise,   // noise, with keyed tones
    Edges,   // the edges of bins, finite powers
    Bottom,  // the edges between -160 and -140 dB and their neighbours, finite powers
    Any,     // any floats, NaNs among them
    Numbers, // any dB but NaN, finite powers
}

/// Channel k of a hop: dB and power.
pub fn sample(rng: &mut Rng, feed: Feed, hop: usize, k: usize) -> (f64, f32) {
    match feed {
        Feed::Silence => (-200.0, 0.0),
        Feed::Partly if k % 3 != 1 => (-200.0, 0.0),
        Feed::Edges => (edge(rng), finite_f32(rng)),
        Feed::Bottom => (old_bottom(rng.below(OLD_BOTTOM)), finite_f32(rng)),
        Feed::Any => (any_f64(rng), any_f32(rng)),
        Feed::Numbers => {
            let db = any_f64(rng);
            (if db.is_nan() { f64::INFINITY } else { db }, finite_f32(rng))
        }
        Feed::Noise | Feed::Partly => {
            let tone = if k % 11 == 4 && hop / (20 + k) % 2 == 0 { 1e-6 } else { 0.0 };
            let power = (-rng.unit().ln() * 1e-10 * (1 + k % 5) as f64 + tone) as f32;
            (10.0 * (power as f64 + 1e-20).log10(), power)
        }
    }
}
