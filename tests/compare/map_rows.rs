// The C interface of libwolfcloak.a, the rows of the registers, for slices; also for tests/bench.
#![allow(dead_code)]
use crate::wolfcloak::role;

#[link(name = "wolfcloak", kind = "static")]
extern "C" {
    pub fn wolfcloak_map_len(n: usize) -> usize;
    fn wolfcloak_map_new(role: u16, g: *const u16, gl: usize, h: *const f64, hl: usize, map: *mut u8, map_len: usize) -> u16;
    fn wolfcloak_gate_update_map(
        role: u16, b: *const u16, bl: usize, f: *const f64, fl: usize, g: *mut u16, gl: usize, h: *mut f64, hl: usize,
        map: *mut u8, map_len: usize, power_db: *const f64, power_db_len: usize, power: *const f32, power_len: usize,
        rise: *mut u8, rise_len: usize, drop: *mut u8, drop_len: usize,
    ) -> u16;
    fn wolfcloak_gate_hold_map(
        role: u16, b: *const u16, bl: usize, f: *const f64, fl: usize, g: *const u16, gl: usize, h: *mut f64, hl: usize,
        map: *mut u8, map_len: usize, rise: *mut u8, rise_len: usize, drop: *mut u8, drop_len: usize,
    ) -> u16;
    fn wolfcloak_map_read(
        role: u16, g: *const u16, gl: usize, h: *const f64, hl: usize, map: *const u8, map_len: usize, address: usize, value: *mut u8,
    ) -> u16;
    fn wolfcloak_map_write(
        role: u16, g: *const u16, gl: usize, h: *const f64, hl: usize, map: *mut u8, map_len: usize, address: usize, value: u8,
    ) -> u16;
    fn wolfcloak_map_wire(role: u16, g: *const u16, gl: usize, h: *const f64, hl: usize, map: *const u8, map_len: usize, up: *mut u8) -> u16;
}

type Gate<'a> = (&'a [u16], &'a [f64]);

pub fn new(gate: Gate, map: &mut [u8]) -> u16 {
    unsafe { wolfcloak_map_new(role(), gate.0.as_ptr(), gate.0.len(), gate.1.as_ptr(), gate.1.len(), map.as_mut_ptr(), map.len()) }
}

pub fn read(gate: Gate, map: &[u8], address: usize, value: &mut u8) -> u16 {
    let (g, h) = gate;
    unsafe { wolfcloak_map_read(role(), g.as_ptr(), g.len(), h.as_ptr(), h.len(), map.as_ptr(), map.len(), address, value) }
}

pub fn write(gate: Gate, map: &mut [u8], address: usize, value: u8) -> u16 {
    let (g, h) = gate;
    unsafe { wolfcloak_map_write(role(), g.as_ptr(), g.len(), h.as_ptr(), h.len(), map.as_mut_ptr(), map.len(), address, value) }
}

pub fn wire(gate: Gate, map: &[u8], up: &mut u8) -> u16 {
    let (g, h) = gate;
    unsafe { wolfcloak_map_wire(role(), g.as_ptr(), g.len(), h.as_ptr(), h.len(), map.as_ptr(), map.len(), up) }
}

/// `bank` and `gate` are the two stores of each, `hop` dB and power, `marks` rise and drop.
pub fn update(
    bank: Gate, gate: (&mut [u16], &mut [f64]), map: &mut [u8], hop: (&[f64], &[f32]), marks: (&mut [u8], &mut [u8]),
) -> u16 {
    unsafe {
        wolfcloak_gate_update_map(
            role(), bank.0.as_ptr(), bank.0.len(), bank.1.as_ptr(), bank.1.len(),
            gate.0.as_mut_ptr(), gate.0.len(), gate.1.as_mut_ptr(), gate.1.len(), map.as_mut_ptr(), map.len(),
            hop.0.as_ptr(), hop.0.len(), hop.1.as_ptr(), hop.1.len(),
            marks.0.as_mut_ptr(), marks.0.len(), marks.1.as_mut_ptr(), marks.1.len(),
        )
    }
}

pub fn hold(bank: Gate, gate: (&[u16], &mut [f64]), map: &mut [u8], marks: (&mut [u8], &mut [u8])) -> u16 {
    unsafe {
        wolfcloak_gate_hold_map(
            role(), bank.0.as_ptr(), bank.0.len(), bank.1.as_ptr(), bank.1.len(),
            gate.0.as_ptr(), gate.0.len(), gate.1.as_mut_ptr(), gate.1.len(), map.as_mut_ptr(), map.len(),
            marks.0.as_mut_ptr(), marks.0.len(), marks.1.as_mut_ptr(), marks.1.len(),
        )
    }
}
