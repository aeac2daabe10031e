// The C interface of libwolfcloak.a, the rows of the hop log, for slices; also for tests/bench.
use crate::wolfcloak::role;

pub const END: u16 = 100;

#[link(name = "wolfcloak", kind = "static")]
extern "C" {
    fn wolfcloak_log_write(
        role: u16, n: usize, db_bits: *const u64, db_bits_len: usize, power_bits: *const u32, power_bits_len: usize,
        log: *mut u8, log_len: usize, len: *mut usize,
    ) -> u16;
    fn wolfcloak_log_channels(role: u16, log: *const u8, log_len: usize, n: *mut usize) -> u16;
    fn wolfcloak_log_read(
        role: u16, log: *const u8, log_len: usize, position: *mut usize,
        db_bits: *mut u64, db_bits_len: usize, power_bits: *mut u32, power_bits_len: usize,
    ) -> u16;
    fn wolfcloak_log_combine(
        role: u16, first: *const u8, first_len: usize, second: *const u8, second_len: usize, log: *mut u8, log_len: usize, len: *mut usize,
    ) -> u16;
}

pub fn write(n: usize, db: &[u64], power: &[u32], log: &mut [u8], len: &mut usize) -> u16 {
    unsafe { wolfcloak_log_write(role(), n, db.as_ptr(), db.len(), power.as_ptr(), power.len(), log.as_mut_ptr(), log.len(), len) }
}

pub fn channels(log: &[u8], n: &mut usize) -> u16 {
    unsafe { wolfcloak_log_channels(role(), log.as_ptr(), log.len(), n) }
}

pub fn read(log: &[u8], position: &mut usize, db: &mut [u64], power: &mut [u32]) -> u16 {
    unsafe {
        wolfcloak_log_read(
            role(), log.as_ptr(), log.len(), position, db.as_mut_ptr(), db.len(), power.as_mut_ptr(), power.len(),
        )
    }
}

pub fn combine(first: &[u8], second: &[u8], log: &mut [u8], len: &mut usize) -> u16 {
    unsafe {
        wolfcloak_log_combine(role(), first.as_ptr(), first.len(), second.as_ptr(), second.len(), log.as_mut_ptr(), log.len(), len)
    }
}
