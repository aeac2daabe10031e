// The hop log of the library beside the plain one of plain_log.rs: every answer, every byte and every bit pattern.
use crate::log_rows::{self, END};
use crate::numbers::Rng;
use crate::plain_log;
use crate::tally::Tally;

const SIZES: [usize; 7] = [1, 2, 7, 8, 9, 33, 512];

/// What stood in a number before a call that must not write it.
const BEFORE: usize = 0x5eed;

/// Bits of floats: repeated, zero, NaNs with payloads, infinities, signed zeros, and any.
fn any_bits(rng: &mut Rng) -> u64 {
    const ODD: [u64; 7] = [0, 1 << 63, 0x7ff8_0000_0000_0000, 0x7ff0_0000_0000_0001, 0xfff8_dead_beef_0001, 0x7ff0_0000_0000_0000, 1];
    if rng.one_in(2) { rng.pick(&ODD) } else { rng.next() }
}

fn any_power(rng: &mut Rng) -> u32 {
    const ODD: [u32; 6] = [0, 1 << 31, 0x7fc0_0000, 0x7f80_0001, 0xffc0_beef, 0x7f80_0000];
    if rng.one_in(2) { rng.pick(&ODD) } else { rng.next() as u32 }
}

/// Hops of n channels: of each pair both halves, one half or nothing is other than before; something is for three pairs in so many.
fn any_hops(rng: &mut Rng, n: usize, hops: usize, many: usize) -> (Vec<u64>, Vec<u32>) {
    let (mut db, mut power) = (vec![0; n * hops], vec![0; n * hops]);
    for i in 0..n * hops {
        if i >= n {
            (db[i], power[i]) = (db[i - n], power[i - n]);
        }
        match rng.below(many) {
            0 => db[i] = any_bits(rng),
            1 => power[i] = any_power(rng),
            2 => (db[i], power[i]) = (any_bits(rng), any_power(rng)),
            _ => {}
        }
    }
    (db, power)
}

/// Both writers into an output of so many bytes; the log, where there is one.
fn write(t: &mut Tally, n: usize, db: &[u64], power: &[u32], room: usize) -> Option<Vec<u8>> {
    let (mut ours, mut plain, mut len) = (vec![0xa5; room], vec![0xa5; room], BEFORE);
    let answer = log_rows::write(n, db, power, &mut ours, &mut len);
    let due = plain_log::write(n, db, power, &mut plain);
    t.answer(format_args!("log write, n = {n}, {} patterns, room for {room}", db.len()), answer, due.err().unwrap_or(0));
    t.check(len == due.unwrap_or(BEFORE), format_args!("log write, n = {n}: the length is {len}, and {due:?} is due"));
    t.check(ours == plain, format_args!("log write, n = {n}, {} patterns: the bytes differ", db.len()));
    due.ok().map(|len| plain[..len].to_vec())
}

/// Both readers at one position, with slices of these lengths that hold this; whether a hop was read.
fn read(t: &mut Tally, log: &[u8], position: &mut usize, db: &mut Vec<u64>, power: &mut Vec<u32>) -> Result<bool, u16> {
    let (at, mut plain_at, mut plain_db, mut plain_power) = (*position, *position, db.clone(), power.clone());
    let answer = log_rows::read(log, position, db, power);
    let due = plain_log::read(log, &mut plain_at, &mut plain_db, &mut plain_power);
    let number = due.map_or_else(|no| no, |is_hop| if is_hop { 0 } else { END });
    t.answer(format_args!("log read at {at} of {} bytes", log.len()), answer, number);
    t.check(*position == plain_at, format_args!("log read at {at}: the position is {position}, and {plain_at} is due"));
    t.check(*db == plain_db && *power == plain_power, format_args!("log read at {at}: the slices differ"));
    due
}

/// Both readers from the start to the end or a refusal: the hops read, and the refusal.
fn read_all(t: &mut Tally, log: &[u8]) -> (Vec<u64>, Vec<u32>, Option<u16>) {
    let mut n = BEFORE;
    let due = plain_log::channels(log);
    t.answer(format_args!("log channels of {} bytes", log.len()), log_rows::channels(log, &mut n), due.err().unwrap_or(0));
    t.check(n == due.unwrap_or(BEFORE), format_args!("log channels: {n}, and {due:?} is due"));
    let n = due.unwrap_or(1);
    let (mut all_db, mut all_power, mut position) = (vec![], vec![], 2);
    let (mut db, mut power) = (vec![0; n], vec![0; n]);
    loop {
        match read(t, log, &mut position, &mut db, &mut power) {
            Ok(true) => {
                all_db.extend(&db);
                all_power.extend(&power);
            }
            Ok(false) => return (all_db, all_power, None),
            Err(no) => return (all_db, all_power, Some(no)),
        }
    }
}

/// Bytes that read to their end are what is written of the hops read, and no others.
fn read_and_write(t: &mut Tally, log: &[u8]) {
    let (db, power, refusal) = read_all(t, log);
    if refusal.is_none() {
        let n = plain_log::channels(log).unwrap();
        let again = write(t, n, &db, &power, log.len());
        t.check(again.as_deref() == Some(log), format_args!("a log of n = {n} that reads to its end is written otherwise"));
    }
}

/// Every prefix; each byte changed, by one bit, to 0 and to 255; each position with zero slices and with others.
fn spoilt(t: &mut Tally, rng: &mut Rng, log: &[u8], n: usize) {
    (0..log.len()).for_each(|end| read_and_write(t, &log[..end]));
    for i in 0..log.len() {
        for byte in (0..8).map(|bit| log[i] ^ 1 << bit).chain([0, 255]) {
            let mut bytes = log.to_vec();
            bytes[i] = byte;
            read_and_write(t, &bytes);
        }
    }
    for start in (0..log.len() + 3).chain([usize::MAX - 70, usize::MAX]) {
        for is_zero in [true, false] {
            let (mut db, mut power) = (vec![0; n], vec![0; n]);
            if !is_zero {
                db.iter_mut().for_each(|bits| *bits = any_bits(rng));
                power.iter_mut().for_each(|bits| *bits = any_power(rng));
            }
            let mut position = start;
            while read(t, log, &mut position, &mut db, &mut power) == Ok(true) {}
        }
    }
}

/// Slices of another length than n, at a good position and at a bad one.
fn lengths(t: &mut Tally, log: &[u8], n: usize) {
    for (dbs, powers) in [(n - 1, n), (n, n - 1), (n + 1, n), (n, n + 1), (0, 0)] {
        for mut position in [2, 1, log.len() + 1] {
            let _ = read(t, log, &mut position, &mut vec![7; dbs], &mut vec![7; powers]);
        }
    }
}

pub fn any_logs(t: &mut Tally, rng: &mut Rng) {
    for n in SIZES {
        for round in 0..12 {
            let hops = round % 6;
            let (db, power) = any_hops(rng, n, hops, if round < 6 { 5 } else { n.max(5) });
            let most = 2 + hops * (n.div_ceil(8) + 12 * n);
            let log = write(t, n, &db, &power, most + 9).expect("there is room");
            for room in [log.len(), log.len() - 1, 0, 1, 2, log.len() / 2] {
                write(t, n, &db, &power, room);
            }
            let read = read_all(t, &log);
            t.check(read == (db.clone(), power.clone(), None), format_args!("a log of n = {n} does not read back"));
            if hops > 0 {
                write(t, n, &db[1..], &power, most);
                write(t, n, &db[1..], &power[1..], most);
                write(t, n, &db, &power[n..], most);
            }
            write(t, 0, &db, &power, most);
            write(t, 513, &db, &power, most);
            lengths(t, &log, n);
            if log.len() < 400 {
                spoilt(t, rng, &log, n);
            }
        }
    }
    for bytes in [vec![], vec![1], vec![0, 0], vec![1, 2], vec![0, 2], vec![0, 2, 0], vec![255, 255]] {
        read_and_write(t, &bytes);
    }
    for _ in 0..3000 {
        let mut bytes: Vec<u8> = (0..rng.below(40)).map(|_| rng.pick(&[0, 0, 0, 1, 2, 3, 255])).collect();
        if bytes.len() > 1 {
            (bytes[0], bytes[1]) = (rng.pick(&[1, 2, 3, 7, 8, 9]), 0);
        }
        read_and_write(t, &bytes);
    }
}
