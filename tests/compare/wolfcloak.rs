// The C interface of libwolfcloak.a, for slices. Calls are made as technician, or in the role last named by `act_as`.
#![allow(dead_code)]

use std::cell::Cell;

pub const KEEPER: u16 = 0;
pub const LEADER: u16 = 1;
pub const TECHNICIAN: u16 = 2;

thread_local! {
    static ROLE: Cell<u16> = const { Cell::new(TECHNICIAN) };
}

pub fn role() -> u16 {
    ROLE.get()
}

pub fn act_as(role: u16) {
    ROLE.set(role)
}

type Reading = unsafe extern "C" fn(u16, *const u16, usize, *const f64, usize, usize, *mut f64) -> u16;

#[link(name = "wolfcloak", kind = "static")]
extern "C" {
    pub fn wolfcloak_bank_len(n: usize) -> usize;
    pub fn wolfcloak_bank_f_len(n: usize) -> usize;
    fn wolfcloak_bank_new(role: u16, bank: *mut u16, bank_len: usize, bank_f: *mut f64, bank_f_len: usize, n: usize) -> u16;
    fn wolfcloak_bank_update(
        role: u16, bank: *mut u16, bank_len: usize, bank_f: *mut f64, bank_f_len: usize,
        power_db: *const f64, power_db_len: usize, power: *const f32, power_len: usize,
    ) -> u16;
    fn wolfcloak_bank_update_holding_reference(
        role: u16, bank: *mut u16, bank_len: usize, bank_f: *mut f64, bank_f_len: usize,
        power_db: *const f64, power_db_len: usize, power: *const f32, power_len: usize, hold_reference: bool,
    ) -> u16;
    fn wolfcloak_channel_floor_db(role: u16, b: *const u16, bl: usize, f: *const f64, fl: usize, k: usize, value: *mut f64) -> u16;
    fn wolfcloak_effective_floor_db(role: u16, b: *const u16, bl: usize, f: *const f64, fl: usize, k: usize, value: *mut f64) -> u16;
    fn wolfcloak_rise_floor_db(role: u16, b: *const u16, bl: usize, f: *const f64, fl: usize, k: usize, value: *mut f64) -> u16;
    fn wolfcloak_spectral_reference(role: u16, b: *const u16, bl: usize, f: *const f64, fl: usize, k: usize, value: *mut f64) -> u16;
    fn wolfcloak_floors(
        role: u16, b: *const u16, bl: usize, f: *const f64, fl: usize, k: usize,
        effective: *mut f64, rise: *mut f64, raw: *mut f64,
    ) -> u16;
    fn wolfcloak_ring(
        role: u16, b: *const u16, bl: usize, f: *const f64, fl: usize, k: usize, start: *mut usize, len: *mut usize,
    ) -> u16;
    fn wolfcloak_explain(
        role: u16, b: *const u16, bl: usize, f: *const f64, fl: usize, k: usize,
        effective_origin: *mut u8, effective: *mut f64, rise_origin: *mut u8, rise: *mut f64,
    ) -> u16;
    fn wolfcloak_gate_f_len(n: usize, lengths: *const u16, lengths_len: usize) -> usize;
    fn wolfcloak_gate_new(
        role: u16, g: *mut u16, gl: usize, h: *mut f64, hl: usize, n: usize,
        on: i32, off: i32, early: i32, lengths: *const u16, lengths_len: usize,
    ) -> u16;
    fn wolfcloak_gate_remake(role: u16, g: *mut u16, gl: usize, h: *mut f64, hl: usize, on: i32, off: i32, early: i32) -> u16;
    fn wolfcloak_gate_update(
        role: u16, b: *const u16, bl: usize, f: *const f64, fl: usize, g: *mut u16, gl: usize, h: *mut f64, hl: usize,
        power_db: *const f64, power_db_len: usize, power: *const f32, power_len: usize,
        rise: *mut u8, rise_len: usize, drop: *mut u8, drop_len: usize,
    ) -> u16;
    fn wolfcloak_gate_hold(
        role: u16, b: *const u16, bl: usize, f: *const f64, fl: usize, g: *const u16, gl: usize, h: *mut f64, hl: usize,
        rise: *mut u8, rise_len: usize, drop: *mut u8, drop_len: usize,
    ) -> u16;
    fn wolfcloak_receive(
        role: u16, b: *mut u16, bl: usize, f: *mut f64, fl: usize, g: *mut u16, gl: usize, h: *mut f64, hl: usize,
        hold: *const u8, hold_len: usize, power_db: *const f64, power_db_len: usize, power: *const f32, power_len: usize,
        rise: *mut u8, rise_len: usize, drop: *mut u8, drop_len: usize,
    ) -> u16;
    fn wolfcloak_smoothed_db(role: u16, g: *const u16, gl: usize, h: *const f64, hl: usize, k: usize, value: *mut f64) -> u16;
    fn wolfcloak_ema_rise(
        role: u16, b: *const u16, bl: usize, f: *const f64, fl: usize, g: *const u16, gl: usize, h: *const f64, hl: usize,
        k: usize, value: *mut f64,
    ) -> u16;
    fn wolfcloak_worst_f_len(n: usize, w: usize) -> usize;
    fn wolfcloak_worst_new(role: u16, w: *mut u16, wl: usize, g: *mut f64, gl: usize, n: usize, span: usize) -> u16;
    fn wolfcloak_bank_update_worst(
        role: u16, b: *mut u16, bl: usize, f: *mut f64, fl: usize, w: *mut u16, wl: usize, g: *mut f64, gl: usize,
        power_db: *const f64, power_db_len: usize, power: *const f32, power_len: usize, hold_reference: bool,
    ) -> u16;
    fn wolfcloak_worst_floor(
        role: u16, b: *const u16, bl: usize, f: *const f64, fl: usize, w: *const u16, wl: usize, g: *const f64, gl: usize,
        k: usize, value: *mut f64,
    ) -> u16;
    fn wolfcloak_dispatch(role: u16, count: usize, waiting: u8, last: *mut usize) -> u16;
}

pub fn bank_new(u: &mut [u16], f: &mut [f64], n: usize) -> u16 {
    unsafe { wolfcloak_bank_new(role(), u.as_mut_ptr(), u.len(), f.as_mut_ptr(), f.len(), n) }
}

/// `hold` is None for the function without that argument.
pub fn bank_update(u: &mut [u16], f: &mut [f64], db: &[f64], power: &[f32], hold: Option<bool>) -> u16 {
    let (ul, fl) = (u.len(), f.len());
    let (u, f) = (u.as_mut_ptr(), f.as_mut_ptr());
    let (d, dl, p, pl) = (db.as_ptr(), db.len(), power.as_ptr(), power.len());
    match hold {
        None => unsafe { wolfcloak_bank_update(role(), u, ul, f, fl, d, dl, p, pl) },
        Some(h) => unsafe { wolfcloak_bank_update_holding_reference(role(), u, ul, f, fl, d, dl, p, pl, h) },
    }
}

fn reading(call: Reading, u: &[u16], f: &[f64], k: usize, value: &mut f64) -> u16 {
    unsafe { call(role(), u.as_ptr(), u.len(), f.as_ptr(), f.len(), k, value) }
}

pub fn channel_floor_db(u: &[u16], f: &[f64], k: usize, value: &mut f64) -> u16 {
    reading(wolfcloak_channel_floor_db, u, f, k, value)
}

pub fn effective_floor_db(u: &[u16], f: &[f64], k: usize, value: &mut f64) -> u16 {
    reading(wolfcloak_effective_floor_db, u, f, k, value)
}

pub fn rise_floor_db(u: &[u16], f: &[f64], k: usize, value: &mut f64) -> u16 {
    reading(wolfcloak_rise_floor_db, u, f, k, value)
}

pub fn spectral_reference(u: &[u16], f: &[f64], k: usize, value: &mut f64) -> u16 {
    reading(wolfcloak_spectral_reference, u, f, k, value)
}

/// Effective, rise, raw.
pub fn floors(u: &[u16], f: &[f64], k: usize, v: &mut [f64; 3]) -> u16 {
    let [effective, rise, raw] = v;
    unsafe { wolfcloak_floors(role(), u.as_ptr(), u.len(), f.as_ptr(), f.len(), k, effective, rise, raw) }
}

/// Start and length.
pub fn ring(u: &[u16], f: &[f64], k: usize, part: &mut [usize; 2]) -> u16 {
    let [start, len] = part;
    unsafe { wolfcloak_ring(role(), u.as_ptr(), u.len(), f.as_ptr(), f.len(), k, start, len) }
}

/// The effective floor's origin and its dB, and the rise floor's.
pub fn explain(u: &[u16], f: &[f64], k: usize, origins: &mut [(u8, f64); 2]) -> u16 {
    let [(effective_origin, effective), (rise_origin, rise)] = origins;
    let (ul, fl) = (u.len(), f.len());
    unsafe { wolfcloak_explain(role(), u.as_ptr(), ul, f.as_ptr(), fl, k, effective_origin, effective, rise_origin, rise) }
}

pub fn gate_f_len(n: usize, lengths: &[u16]) -> usize {
    unsafe { wolfcloak_gate_f_len(n, lengths.as_ptr(), lengths.len()) }
}

/// Levels on, off and early.
pub fn gate_new(g: &mut [u16], h: &mut [f64], n: usize, levels: [i32; 3], lengths: &[u16]) -> u16 {
    let [on, off, early] = levels;
    let (m, ml) = (lengths.as_ptr(), lengths.len());
    unsafe { wolfcloak_gate_new(role(), g.as_mut_ptr(), g.len(), h.as_mut_ptr(), h.len(), n, on, off, early, m, ml) }
}

pub fn gate_remake(g: &mut [u16], h: &mut [f64], levels: [i32; 3]) -> u16 {
    let [on, off, early] = levels;
    unsafe { wolfcloak_gate_remake(role(), g.as_mut_ptr(), g.len(), h.as_mut_ptr(), h.len(), on, off, early) }
}

/// `bank` and `gate` are the two stores of each, `hop` dB and power, `marks` rise and drop.
pub fn gate_update(
    bank: (&[u16], &[f64]), gate: (&mut [u16], &mut [f64]), hop: (&[f64], &[f32]), marks: (&mut [u8], &mut [u8]),
) -> u16 {
    unsafe {
        wolfcloak_gate_update(
            role(), bank.0.as_ptr(), bank.0.len(), bank.1.as_ptr(), bank.1.len(),
            gate.0.as_mut_ptr(), gate.0.len(), gate.1.as_mut_ptr(), gate.1.len(),
            hop.0.as_ptr(), hop.0.len(), hop.1.as_ptr(), hop.1.len(),
            marks.0.as_mut_ptr(), marks.0.len(), marks.1.as_mut_ptr(), marks.1.len(),
        )
    }
}

pub fn gate_hold(bank: (&[u16], &[f64]), gate: (&[u16], &mut [f64]), marks: (&mut [u8], &mut [u8])) -> u16 {
    unsafe {
        wolfcloak_gate_hold(
            role(), bank.0.as_ptr(), bank.0.len(), bank.1.as_ptr(), bank.1.len(),
            gate.0.as_ptr(), gate.0.len(), gate.1.as_mut_ptr(), gate.1.len(),
            marks.0.as_mut_ptr(), marks.0.len(), marks.1.as_mut_ptr(), marks.1.len(),
        )
    }
}

/// A run: `hops` is the hold bytes, and dB and power hop after hop, as the marks are.
pub fn receive(
    bank: (&mut [u16], &mut [f64]), gate: (&mut [u16], &mut [f64]), hops: (&[u8], &[f64], &[f32]), marks: (&mut [u8], &mut [u8]),
) -> u16 {
    unsafe {
        wolfcloak_receive(
            role(), bank.0.as_mut_ptr(), bank.0.len(), bank.1.as_mut_ptr(), bank.1.len(),
            gate.0.as_mut_ptr(), gate.0.len(), gate.1.as_mut_ptr(), gate.1.len(),
            hops.0.as_ptr(), hops.0.len(), hops.1.as_ptr(), hops.1.len(), hops.2.as_ptr(), hops.2.len(),
            marks.0.as_mut_ptr(), marks.0.len(), marks.1.as_mut_ptr(), marks.1.len(),
        )
    }
}

pub fn smoothed_db(gate: (&[u16], &[f64]), k: usize, value: &mut f64) -> u16 {
    unsafe { wolfcloak_smoothed_db(role(), gate.0.as_ptr(), gate.0.len(), gate.1.as_ptr(), gate.1.len(), k, value) }
}

pub fn ema_rise(bank: (&[u16], &[f64]), gate: (&[u16], &[f64]), k: usize, value: &mut f64) -> u16 {
    unsafe {
        wolfcloak_ema_rise(
            role(), bank.0.as_ptr(), bank.0.len(), bank.1.as_ptr(), bank.1.len(),
            gate.0.as_ptr(), gate.0.len(), gate.1.as_ptr(), gate.1.len(), k, value,
        )
    }
}

pub fn worst_f_len(n: usize, span: usize) -> usize {
    unsafe { wolfcloak_worst_f_len(n, span) }
}

pub fn worst_new(w: &mut [u16], g: &mut [f64], n: usize, span: usize) -> u16 {
    unsafe { wolfcloak_worst_new(role(), w.as_mut_ptr(), w.len(), g.as_mut_ptr(), g.len(), n, span) }
}

/// `worst` is the two stores of R-6, lent beside the bank's.
pub fn bank_update_worst(
    bank: (&mut [u16], &mut [f64]), worst: (&mut [u16], &mut [f64]), hop: (&[f64], &[f32]), hold: bool,
) -> u16 {
    unsafe {
        wolfcloak_bank_update_worst(
            role(), bank.0.as_mut_ptr(), bank.0.len(), bank.1.as_mut_ptr(), bank.1.len(),
            worst.0.as_mut_ptr(), worst.0.len(), worst.1.as_mut_ptr(), worst.1.len(),
            hop.0.as_ptr(), hop.0.len(), hop.1.as_ptr(), hop.1.len(), hold,
        )
    }
}

pub fn worst_floor(bank: (&[u16], &[f64]), worst: (&[u16], &[f64]), k: usize, value: &mut f64) -> u16 {
    unsafe {
        wolfcloak_worst_floor(
            role(), bank.0.as_ptr(), bank.0.len(), bank.1.as_ptr(), bank.1.len(),
            worst.0.as_ptr(), worst.0.len(), worst.1.as_ptr(), worst.1.len(), k, value,
        )
    }
}

pub fn dispatch(count: usize, waiting: u8, last: &mut usize) -> u16 {
    unsafe { wolfcloak_dispatch(role(), count, waiting, last) }
}
