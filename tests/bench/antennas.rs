// Two logs combined beside tests/compare/plain_antennas.rs: the best of several runs over the same two.
use crate::logs::{hops, rate_row};
use crate::{log_rows, plain_antennas, plain_log, time};

pub fn row(n: usize, kept: usize) {
    let count = 100_000 / n;
    let most = 2 + count * (n.div_ceil(8) + 12 * n);
    let [first, second] = [1, 2].map(|seed| {
        let (db, power) = hops(n, count, kept, seed);
        let mut log = vec![0; most];
        let len = plain_log::write(n, &db, &power, &mut log).expect("there is room");
        log.truncate(len);
        log
    });
    let (mut log, mut plain, mut len) = (vec![0; most], vec![0; most], 0);
    let mut best = [f64::MAX; 2];
    for _ in 0..60 {
        let ours = time(|| assert!(log_rows::combine(&first, &second, &mut log, &mut len) == 0));
        let theirs = time(|| assert!(plain_antennas::combine(&first, &second, &mut plain).is_ok()));
        best = [best[0].min(ours), best[1].min(theirs)];
    }
    assert!(log == plain);
    rate_row("combine with another", first.len() + second.len(), best[0], best[1]);
}
