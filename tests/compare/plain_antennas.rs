// Two antennas, one log, in plain Rust, written from document 02 alone over plain_log.rs; also for tests/bench.
use crate::plain_log;

/// The pairs of all hops of a log that reads to its end, or the refusal.
fn whole(log: &[u8]) -> Result<(usize, Vec<u64>, Vec<u32>), u16> {
    let n = plain_log::channels(log)?;
    let (mut db, mut power, mut position) = (vec![0; n], vec![0; n], 2);
    let (mut all_db, mut all_power) = (vec![], vec![]);
    while plain_log::read(log, &mut position, &mut db, &mut power)? {
        all_db.extend_from_slice(&db);
        all_power.extend_from_slice(&power);
    }
    Ok((n, all_db, all_power))
}

/// The length of both combined, or the refusal.
#[inline(never)]
pub fn combine(first: &[u8], second: &[u8], log: &mut [u8]) -> Result<usize, u16> {
    let (n, mut db, mut power) = whole(first)?;
    let (other_n, other_db, other_power) = whole(second)?;
    if n != other_n || db.len() != other_db.len() {
        return Err(13);
    }
    for i in 0..db.len() {
        let (one, other) = (f32::from_bits(power[i]), f32::from_bits(other_power[i]));
        if other > one || one.is_nan() && !other.is_nan() {
            (db[i], power[i]) = (other_db[i], other_power[i]);
        }
    }
    plain_log::write(n, &db, &power, log)
}
