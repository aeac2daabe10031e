// The C interface of libwolfcloak.a, the rows of R-13, for slices; also for tests/bench.
#![allow(dead_code)]
use crate::wolfcloak::role;

#[link(name = "wolfcloak", kind = "static")]
extern "C" {
    fn wolfcloak_power_db(power: f32) -> f64;
    fn wolfcloak_bank_update_linear(
        role: u16, bank: *mut u16, bank_len: usize, bank_f: *mut f64, bank_f_len: usize,
        power: *const f32, power_len: usize, hold_reference: bool,
    ) -> u16;
    fn wolfcloak_gate_update_linear(
        role: u16, b: *const u16, bl: usize, f: *const f64, fl: usize, g: *mut u16, gl: usize, h: *mut f64, hl: usize,
        power: *const f32, power_len: usize, rise: *mut u8, rise_len: usize, drop: *mut u8, drop_len: usize,
    ) -> u16;
    fn wolfcloak_gate_update_linear_map(
        role: u16, b: *const u16, bl: usize, f: *const f64, fl: usize, g: *mut u16, gl: usize, h: *mut f64, hl: usize,
        map: *mut u8, map_len: usize, power: *const f32, power_len: usize,
        rise: *mut u8, rise_len: usize, drop: *mut u8, drop_len: usize,
    ) -> u16;
    fn wolfcloak_bank_update_linear_worst(
        role: u16, bank: *mut u16, bank_len: usize, bank_f: *mut f64, bank_f_len: usize,
        worst: *mut u16, worst_len: usize, worst_f: *mut f64, worst_f_len: usize,
        power: *const f32, power_len: usize, hold_reference: bool,
    ) -> u16;
}

pub fn power_db(power: f32) -> f64 {
    unsafe { wolfcloak_power_db(power) }
}

pub fn bank_update(u: &mut [u16], f: &mut [f64], power: &[f32], hold: bool) -> u16 {
    unsafe {
        wolfcloak_bank_update_linear(role(), u.as_mut_ptr(), u.len(), f.as_mut_ptr(), f.len(), power.as_ptr(), power.len(), hold)
    }
}

pub fn gate_update(
    bank: (&[u16], &[f64]), gate: (&mut [u16], &mut [f64]), power: &[f32], marks: (&mut [u8], &mut [u8]),
) -> u16 {
    unsafe {
        wolfcloak_gate_update_linear(
            role(), bank.0.as_ptr(), bank.0.len(), bank.1.as_ptr(), bank.1.len(),
            gate.0.as_mut_ptr(), gate.0.len(), gate.1.as_mut_ptr(), gate.1.len(), power.as_ptr(), power.len(),
            marks.0.as_mut_ptr(), marks.0.len(), marks.1.as_mut_ptr(), marks.1.len(),
        )
    }
}

pub fn gate_update_map(
    bank: (&[u16], &[f64]), gate: (&mut [u16], &mut [f64]), map: &mut [u8], power: &[f32], marks: (&mut [u8], &mut [u8]),
) -> u16 {
    unsafe {
        wolfcloak_gate_update_linear_map(
            role(), bank.0.as_ptr(), bank.0.len(), bank.1.as_ptr(), bank.1.len(),
            gate.0.as_mut_ptr(), gate.0.len(), gate.1.as_mut_ptr(), gate.1.len(), map.as_mut_ptr(), map.len(),
            power.as_ptr(), power.len(), marks.0.as_mut_ptr(), marks.0.len(), marks.1.as_mut_ptr(), marks.1.len(),
        )
    }
}

pub fn bank_update_worst(bank: (&mut [u16], &mut [f64]), worst: (&mut [u16], &mut [f64]), power: &[f32], hold: bool) -> u16 {
    unsafe {
        wolfcloak_bank_update_linear_worst(
            role(), bank.0.as_mut_ptr(), bank.0.len(), bank.1.as_mut_ptr(), bank.1.len(),
            worst.0.as_mut_ptr(), worst.0.len(), worst.1.as_mut_ptr(), worst.1.len(), power.as_ptr(), power.len(), hold,
        )
    }
}
