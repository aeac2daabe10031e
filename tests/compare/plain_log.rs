// The hop log in plain Rust, written from document 02 alone; also for tests/bench.

fn changed(n: usize, db: &[u64], power: &[u32], i: usize) -> bool {
    match i.checked_sub(n) {
        Some(before) => db[i] != db[before] || power[i] != power[before],
        None => db[i] != 0 || power[i] != 0,
    }
}

/// The log's length, or the refusal.
#[inline(never)]
pub fn write(n: usize, db: &[u64], power: &[u32], log: &mut [u8]) -> Result<usize, u16> {
    if !(1..=512).contains(&n) {
        return Err(1);
    }
    if db.len() != power.len() || db.len() % n != 0 {
        return Err(5);
    }
    let (hops, map_len) = (db.len() / n, n.div_ceil(8));
    let pairs = (0..db.len()).filter(|&i| changed(n, db, power, i)).count();
    if log.len() < 2 + hops * map_len + 12 * pairs {
        return Err(2);
    }
    log[..2].copy_from_slice(&(n as u16).to_le_bytes());
    let mut end = 2;
    for hop in 0..hops {
        let map = end;
        log[map..map + map_len].fill(0);
        end += map_len;
        for k in 0..n {
            let i = hop * n + k;
            if changed(n, db, power, i) {
                log[map + k / 8] |= 1 << (k % 8);
                log[end..end + 8].copy_from_slice(&db[i].to_le_bytes());
                log[end + 8..end + 12].copy_from_slice(&power[i].to_le_bytes());
                end += 12;
            }
        }
    }
    Ok(end)
}

/// The n of a log's header, or the refusal.
pub fn channels(log: &[u8]) -> Result<usize, u16> {
    if log.len() < 2 {
        return Err(10);
    }
    match u16::from_le_bytes([log[0], log[1]]) as usize {
        n @ 1..=512 => Ok(n),
        _ => Err(1),
    }
}

fn pair(log: &[u8], at: usize) -> (u64, u32) {
    (u64::from_le_bytes(log[at..at + 8].try_into().unwrap()), u32::from_le_bytes(log[at + 8..at + 12].try_into().unwrap()))
}

/// One hop on; Ok(false) is "end".
#[inline(never)]
pub fn read(log: &[u8], position: &mut usize, db: &mut [u64], power: &mut [u32]) -> Result<bool, u16> {
    let n = channels(log)?;
    if db.len() != n || power.len() != n {
        return Err(5);
    }
    let start = *position;
    if start < 2 || start > log.len() {
        return Err(10);
    }
    if start == log.len() {
        return Ok(false);
    }
    let map_len = n.div_ceil(8);
    let map = log.get(start..start + map_len).ok_or(10u16)?;
    let is_set = |k: usize| map[k / 8] >> (k % 8) & 1 == 1;
    if (n..8 * map_len).any(is_set) {
        return Err(11);
    }
    let first = start + map_len;
    let pairs: usize = map.iter().map(|byte| byte.count_ones() as usize).sum();
    if log.len() - first < 12 * pairs {
        return Err(10);
    }
    let mut at = first;
    for k in (0..n).filter(|&k| is_set(k)) {
        if pair(log, at) == (db[k], power[k]) {
            return Err(11);
        }
        at += 12;
    }
    at = first;
    for k in (0..n).filter(|&k| is_set(k)) {
        (db[k], power[k]) = pair(log, at);
        at += 12;
    }
    *position = at;
    Ok(true)
}
