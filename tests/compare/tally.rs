// What was compared, and the first differences.
use crate::explain::Seen;
use crate::numbers::same;
use std::fmt::Arguments;

#[derive(Default)]
pub struct Tally {
    pub channel_hops: u64,
    pub rises: u64,
    pub drops: u64,
    /// pairs of histories whose floors, and whose rises, differed for a while
    pub parted: [u64; 2],
    /// marks that untrue pairs gave, and the ladder would not
    pub untrue: u64,
    /// what explanations named, and of what sides
    pub seen: Seen,
    pub compared: u64,
    pub differences: u64,
    pub first: Vec<String>,
}

impl Tally {
    pub fn check(&mut self, ok: bool, what: Arguments) {
        self.compared += 1;
        if !ok {
            self.differences += 1;
            if self.first.len() < 8 {
                self.first.push(what.to_string());
            }
        }
    }

    pub fn answer(&mut self, what: Arguments, got: u16, want: u16) {
        self.check(got == want, format_args!("{what}: answers {got}, and {want} is due"));
    }

    pub fn value(&mut self, what: Arguments, got: f64, want: f64) {
        self.check(same(got, want), format_args!("{what}: {got:?}, and {want:?} is due"));
    }

    pub fn words(&mut self, what: Arguments, got: &[u16], want: &[u16]) {
        if got == want {
            self.compared += got.len() as u64;
            return;
        }
        self.check(got.len() == want.len(), format_args!("{what}: {} words, and {} are due", got.len(), want.len()));
        for (i, (g, w)) in got.iter().zip(want).enumerate() {
            self.check(g == w, format_args!("{what}: u16 store [{i}] is {g}, and {w} is due"));
        }
    }

    pub fn floats(&mut self, what: Arguments, got: &[f64], want: &[f64]) {
        self.check(got.len() == want.len(), format_args!("{what}: {} floats, and {} are due", got.len(), want.len()));
        for (i, (g, w)) in got.iter().zip(want).enumerate() {
            self.check(same(*g, *w), format_args!("{what}: f64 store [{i}] is {g:?}, and {w:?} is due"));
        }
    }

    pub fn add(&mut self, other: Tally) {
        self.channel_hops += other.channel_hops;
        self.rises += other.rises;
        self.drops += other.drops;
        (0..2).for_each(|i| self.parted[i] += other.parted[i]);
        self.untrue += other.untrue;
        self.seen.iter_mut().zip(other.seen).for_each(|(all, more)| *all += more);
        self.compared += other.compared;
        self.differences += other.differences;
        self.first.extend(other.first);
    }
}
