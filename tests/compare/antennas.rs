// Two logs combined by the library beside plain_antennas.rs: every answer, length and byte.
use crate::log_rows;
use crate::numbers::Rng;
use crate::plain_antennas;
use crate::plain_log;
use crate::tally::Tally;

const SIZES: [usize; 8] = [1, 2, 7, 8, 9, 33, 63, 512];

/// What stood in the length before a call that must not write it.
const BEFORE: usize = 0x5eed;

/// Powers that tie, zeros of either sign, NaNs with different payloads, infinities, and any number.
fn any_power(rng: &mut Rng) -> u32 {
    const ODD: [u32; 11] =
        [0, 1 << 31, 0x7fc0_0001, 0xffc0_0002, 0x7f80_0003, 0x7f80_0000, 0xff80_0000, 0x3f80_0000, 0x3f80_0001, 0xbf80_0000, 1];
    if rng.one_in(4) { rng.next() as u32 } else { rng.pick(&ODD) }
}

/// Hops of n channels; dB are few patterns, so that pairs differ in them alone.
fn any_hops(rng: &mut Rng, n: usize, hops: usize) -> (Vec<u64>, Vec<u32>) {
    let (mut db, mut power) = (vec![0; n * hops], vec![0; n * hops]);
    for i in 0..n * hops {
        (db[i], power[i]) = if i >= n && rng.one_in(2) {
            (db[i - n], power[i - n])
        } else {
            (rng.below(3) as u64 * 0x3ff0_0000_0000_0000, any_power(rng))
        };
    }
    (db, power)
}

fn log_of(n: usize, db: &[u64], power: &[u32]) -> Vec<u8> {
    let mut log = vec![0; 2 + db.len() / n * (n.div_ceil(8) + 12 * n)];
    let len = plain_log::write(n, db, power, &mut log).expect("there is room");
    log.truncate(len);
    log
}

/// Both into an output of so many bytes; the result, where there is one.
fn combine(t: &mut Tally, first: &[u8], second: &[u8], room: usize) -> Result<Vec<u8>, u16> {
    let (mut ours, mut plain, mut len) = (vec![0xa5; room], vec![0xa5; room], BEFORE);
    let answer = log_rows::combine(first, second, &mut ours, &mut len);
    let due = plain_antennas::combine(first, second, &mut plain);
    let what = format!("logs of {} and {} bytes combined, room for {room}", first.len(), second.len());
    t.answer(format_args!("{what}"), answer, due.err().unwrap_or(0));
    t.check(len == due.unwrap_or(BEFORE), format_args!("{what}: the length is {len}, and {due:?} is due"));
    t.check(ours == plain, format_args!("{what}: the bytes differ"));
    due.map(|len| plain[..len].to_vec())
}

/// With room to spare, exact, one short and none.
fn combine_in(t: &mut Tally, first: &[u8], second: &[u8]) {
    let spare = first.len() + second.len() + 9;
    if let Ok(log) = combine(t, first, second, spare) {
        for room in [log.len(), log.len() - 1, 2, 1, 0, log.len() / 2] {
            let _ = combine(t, first, second, room);
        }
        let whole = combine(t, &log, &log, spare);
        t.check(whole.as_ref() == Ok(&log), format_args!("a result of {} bytes with itself is another log", log.len()));
    } else {
        let _ = combine(t, first, second, 0);
    }
}

/// A log cut, or with one bit turned.
fn spoilt(rng: &mut Rng, log: &[u8]) -> Vec<u8> {
    let mut bytes = log.to_vec();
    let i = rng.below(log.len());
    if rng.one_in(3) {
        bytes.truncate(i);
    } else {
        bytes[i] ^= 1 << rng.below(8);
    }
    bytes
}

pub fn any_antennas(t: &mut Tally, rng: &mut Rng) {
    for n in SIZES {
        for round in 0..24 {
            let hops = round % 5;
            let (db, power) = any_hops(rng, n, hops);
            let (other_db, mut other_power) = any_hops(rng, n, hops);
            if round % 3 == 0 {
                other_power.clone_from(&power);
            }
            let (first, second) = (log_of(n, &db, &power), log_of(n, &other_db, &other_power));
            combine_in(t, &first, &second);
            let same = combine(t, &first, &first, first.len());
            t.check(same.as_ref() == Ok(&first), format_args!("a log of n = {n} with itself is another log"));
            // one hop more, one less, another n
            let (longer_db, longer_power) = any_hops(rng, n, hops + 1);
            let longer = log_of(n, &longer_db, &longer_power);
            let (db, power) = any_hops(rng, n % 9 + 1, hops);
            let other_n = log_of(n % 9 + 1, &db, &power);
            for (one, other) in [(&first, &longer), (&longer, &first), (&first, &other_n), (&other_n, &first)] {
                combine_in(t, one, other);
            }
            for _ in 0..if n == 512 { 4 } else { 40 } {
                let (one, other) = (spoilt(rng, &first), spoilt(rng, &second));
                for (one, other) in [(&one, &second), (&first, &other), (&one, &other), (&one, &longer), (&other_n, &other)] {
                    combine_in(t, one, other);
                }
            }
        }
    }
    for one in [vec![], vec![1], vec![0, 0], vec![1, 2], vec![1, 0], vec![9, 0], vec![9, 0, 0]] {
        for other in [vec![], vec![1], vec![0, 0], vec![1, 0], vec![9, 0, 0], vec![1, 0, 0]] {
            combine_in(t, &one, &other);
        }
    }
}
