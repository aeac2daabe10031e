// The layout of document 01 with R-11, as the comparison has it: written from the papers and not from the library.
pub const HIST_MIN_DB: f64 = -160.0;
pub const BINS: usize = 320;
pub const RING_LEN: usize = 250;
/// A channel's part of the u16 store: ring, counts, next, filled, lead.
pub const COUNTS: usize = RING_LEN;
pub const NEXT: usize = RING_LEN + BINS;
pub const FILLED: usize = NEXT + 1;
pub const LEAD: usize = NEXT + 2;
pub const CHANNEL_LEN: usize = NEXT + 3;
pub const BLOCK_CHANNELS: usize = 32;
pub const DECIMATION_HOPS: usize = 15;
/// Accepted bank updates after which demand 3 has equal floors.
pub const SETTLING: usize = DECIMATION_HOPS * RING_LEN;

/// Where channel k of a bank of n begins.
pub fn place(n: usize, k: usize) -> usize {
    3 + n.div_ceil(BLOCK_CHANNELS) + CHANNEL_LEN * k
}
