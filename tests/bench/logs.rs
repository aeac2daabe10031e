// The hop log of the library beside the plain one of tests/compare/plain_log.rs: the best of several runs over the same hops.
use crate::numbers::Rng;
use crate::{log_rows, plain_log, time};

/// Hops of noise, of which each pair stays as it was with this chance in a hundred.
pub fn hops(n: usize, count: usize, kept: usize, seed: u64) -> (Vec<u64>, Vec<u32>) {
    let mut rng = Rng(seed);
    let (mut db, mut power) = (vec![0; n * count], vec![0; n * count]);
    for i in 0..n * count {
        (db[i], power[i]) = if i >= n && rng.below(100) < kept {
            (db[i - n], power[i - n])
        } else {
            (rng.next() | 1, rng.next() as u32)
        };
    }
    (db, power)
}

pub fn rate_row(what: &str, bytes: usize, ours: f64, plain: f64) {
    let rate = |micros: f64| bytes as f64 / micros;
    println!("  {what:<22} {:9.0} MB/s   plain {:9.0} MB/s   ratio {:7.2}", rate(ours), rate(plain), ours / plain);
}

pub fn rows(n: usize, kept: usize) {
    let count = 500_000 / n;
    let (db, power) = hops(n, count, kept, 1);
    let mut log = vec![0; 2 + count * (n.div_ceil(8) + 12 * n)];
    let mut len = 0;
    let mut best = [f64::MAX; 4];
    for _ in 0..40 {
        let write = time(|| log_rows::write(n, &db, &power, &mut log, &mut len));
        let plain_write = time(|| plain_log::write(n, &db, &power, &mut log));
        let bytes = &log[..len];
        let start = || (2, vec![0; n], vec![0; n]);
        let (mut at, mut hop, mut powers) = start();
        let read = time(|| while log_rows::read(bytes, &mut at, &mut hop, &mut powers) == 0 {});
        assert!(at == len && hop == db[db.len() - n..]);
        let (mut at, mut hop, mut powers) = start();
        let plain_read = time(|| while plain_log::read(bytes, &mut at, &mut hop, &mut powers) == Ok(true) {});
        assert!(at == len && hop == db[db.len() - n..]);
        for (best, time) in best.iter_mut().zip([write, plain_write, read, plain_read]) {
            *best = best.min(time);
        }
    }
    let [write, plain_write, read, plain_read] = best;
    println!("hop log, n = {n}, {kept} of 100 pairs kept, {} bytes a hop", len / count);
    rate_row("write", len, write, plain_write);
    rate_row("read", len, read, plain_read);
}
