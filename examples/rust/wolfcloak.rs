//! A safe wrapper of libwolfcloak.a: slices in, values or refusals out, and no panic.

/// Who makes a call. Each may do what those before may: a keeper reads, a leader also remakes a gate, a technician does everything.
#[derive(Clone, Copy, Debug, PartialEq, Eq)]
#[allow(dead_code)]
pub enum Role {
    Keeper = 0,
    Leader = 1,
    Technician = 2,
}

/// Why a call changed nothing: document 01's refusals by name.
#[derive(Clone, Copy, Debug, PartialEq, Eq)]
pub enum Refusal {
    Band,
    StoreSize,
    Lengths,
    Level,
    HopSize,
    Garbled,
    Channel,
    Mismatch,
    Unsound,
    Right,
    /// A number that this wrapper does not know.
    Other(u16),
}

fn answer<T>(number: u16, value: T) -> Result<T, Refusal> {
    Err(match number {
        0 => return Ok(value),
        1 => Refusal::Band,
        2 => Refusal::StoreSize,
        3 => Refusal::Lengths,
        4 => Refusal::Level,
        5 => Refusal::HopSize,
        6 => Refusal::Garbled,
        7 => Refusal::Channel,
        8 => Refusal::Mismatch,
        9 => Refusal::Unsound,
        16 => Refusal::Right,
        other => Refusal::Other(other),
    })
}

/// Effective, rise and raw floor of one channel, in dB.
#[derive(Clone, Copy, Debug, Default, PartialEq)]
pub struct Floors {
    pub effective: f64,
    pub rise: f64,
    pub raw: f64,
}

/// A noise floor for each of n channels.
pub struct Bank {
    words: Vec<u16>,
    floats: Vec<f64>,
}

impl Bank {
    pub fn new(role: Role, n: usize) -> Result<Bank, Refusal> {
        let (u, f) = unsafe { (wolfcloak_bank_len(n), wolfcloak_bank_f_len(n)) };
        let (mut words, mut floats) = (vec![0; u], vec![0.0; f]);
        let number = unsafe { wolfcloak_bank_new(role as u16, words.as_mut_ptr(), u, floats.as_mut_ptr(), f, n) };
        answer(number, Bank { words, floats })
    }

    /// One hop; with `hold_reference` the smoothed powers stay as they are.
    pub fn update(&mut self, role: Role, power_db: &[f64], power: &[f32], hold_reference: bool) -> Result<(), Refusal> {
        let number = unsafe {
            wolfcloak_bank_update_holding_reference(
                role as u16,
                self.words.as_mut_ptr(),
                self.words.len(),
                self.floats.as_mut_ptr(),
                self.floats.len(),
                power_db.as_ptr(),
                power_db.len(),
                power.as_ptr(),
                power.len(),
                hold_reference,
            )
        };
        answer(number, ())
    }

    pub fn floors(&self, role: Role, k: usize) -> Result<Floors, Refusal> {
        let mut out = Floors::default();
        let number = unsafe {
            wolfcloak_floors(
                role as u16,
                self.words.as_ptr(),
                self.words.len(),
                self.floats.as_ptr(),
                self.floats.len(),
                k,
                &mut out.effective,
                &mut out.rise,
                &mut out.raw,
            )
        };
        answer(number, out)
    }
}

/// Rise and drop marks for each channel of a bank.
pub struct Gate {
    words: [u16; 30],
    floats: Vec<f64>,
}

impl Gate {
    /// Levels in eighths of a dB; no early rise where `early` is `None`.
    pub fn new(role: Role, n: usize, on: i32, off: i32, early: Option<i32>, lengths: &[u16]) -> Result<Gate, Refusal> {
        let f = unsafe { wolfcloak_gate_f_len(n, lengths.as_ptr(), lengths.len()) };
        let mut gate = Gate { words: [0; 30], floats: vec![0.0; f] };
        let number = unsafe {
            wolfcloak_gate_new(
                role as u16,
                gate.words.as_mut_ptr(),
                gate.words.len(),
                gate.floats.as_mut_ptr(),
                f,
                n,
                on,
                off,
                early.unwrap_or(65535),
                lengths.as_ptr(),
                lengths.len(),
            )
        };
        answer(number, gate)
    }

    /// One hop, after the bank's update with it; the marks go to `rise` and `drop`.
    pub fn update(
        &mut self,
        role: Role,
        bank: &Bank,
        power_db: &[f64],
        power: &[f32],
        rise: &mut [u8],
        drop: &mut [u8],
    ) -> Result<(), Refusal> {
        let number = unsafe {
            wolfcloak_gate_update(
                role as u16,
                bank.words.as_ptr(),
                bank.words.len(),
                bank.floats.as_ptr(),
                bank.floats.len(),
                self.words.as_mut_ptr(),
                self.words.len(),
                self.floats.as_mut_ptr(),
                self.floats.len(),
                power_db.as_ptr(),
                power_db.len(),
                power.as_ptr(),
                power.len(),
                rise.as_mut_ptr(),
                rise.len(),
                drop.as_mut_ptr(),
                drop.len(),
            )
        };
        answer(number, ())
    }

    /// The marks as the gate stands, for a hop of static; the thresholds that it remembers follow the bank's floors.
    pub fn hold(&mut self, role: Role, bank: &Bank, rise: &mut [u8], drop: &mut [u8]) -> Result<(), Refusal> {
        let number = unsafe {
            wolfcloak_gate_hold(
                role as u16,
                bank.words.as_ptr(),
                bank.words.len(),
                bank.floats.as_ptr(),
                bank.floats.len(),
                self.words.as_ptr(),
                self.words.len(),
                self.floats.as_mut_ptr(),
                self.floats.len(),
                rise.as_mut_ptr(),
                rise.len(),
                drop.as_mut_ptr(),
                drop.len(),
            )
        };
        answer(number, ())
    }

    /// A run of as many hops as `hold` is long, the other slices hop after hop: the bank's update and then this gate's with each, or, where
    /// its `hold` is not 0, the bank's that holds the reference and then a hold. All of them, or none: a refusal leaves the whole run undone.
    pub fn receive(
        &mut self,
        role: Role,
        bank: &mut Bank,
        hold: &[u8],
        power_db: &[f64],
        power: &[f32],
        rise: &mut [u8],
        drop: &mut [u8],
    ) -> Result<(), Refusal> {
        let number = unsafe {
            wolfcloak_receive(
                role as u16,
                bank.words.as_mut_ptr(),
                bank.words.len(),
                bank.floats.as_mut_ptr(),
                bank.floats.len(),
                self.words.as_mut_ptr(),
                self.words.len(),
                self.floats.as_mut_ptr(),
                self.floats.len(),
                hold.as_ptr(),
                hold.len(),
                power_db.as_ptr(),
                power_db.len(),
                power.as_ptr(),
                power.len(),
                rise.as_mut_ptr(),
                rise.len(),
                drop.as_mut_ptr(),
                drop.len(),
            )
        };
        answer(number, ())
    }

    pub fn smoothed_db(&self, role: Role, k: usize) -> Result<f64, Refusal> {
        let mut value = 0.0;
        let number = unsafe {
            wolfcloak_smoothed_db(
                role as u16,
                self.words.as_ptr(),
                self.words.len(),
                self.floats.as_ptr(),
                self.floats.len(),
                k,
                &mut value,
            )
        };
        answer(number, value)
    }
}

// As include/wolfcloak.h declares them. Nothing lent overlaps: each slice is borrowed for the call.
extern "C" {
    fn wolfcloak_bank_len(n: usize) -> usize;
    fn wolfcloak_bank_f_len(n: usize) -> usize;
    fn wolfcloak_bank_new(role: u16, bank: *mut u16, bank_len: usize, bank_f: *mut f64, bank_f_len: usize, n: usize) -> u16;
    fn wolfcloak_bank_update_holding_reference(
        role: u16,
        bank: *mut u16,
        bank_len: usize,
        bank_f: *mut f64,
        bank_f_len: usize,
        power_db: *const f64,
        power_db_len: usize,
        power: *const f32,
        power_len: usize,
        hold_reference: bool,
    ) -> u16;
    fn wolfcloak_floors(
        role: u16,
        bank: *const u16,
        bank_len: usize,
        bank_f: *const f64,
        bank_f_len: usize,
        k: usize,
        effective: *mut f64,
        rise: *mut f64,
        raw: *mut f64,
    ) -> u16;
    fn wolfcloak_gate_f_len(n: usize, lengths: *const u16, lengths_len: usize) -> usize;
    fn wolfcloak_gate_new(
        role: u16,
        gate: *mut u16,
        gate_len: usize,
        gate_f: *mut f64,
        gate_f_len: usize,
        n: usize,
        on: i32,
        off: i32,
        early: i32,
        lengths: *const u16,
        lengths_len: usize,
    ) -> u16;
    fn wolfcloak_gate_update(
        role: u16,
        bank: *const u16,
        bank_len: usize,
        bank_f: *const f64,
        bank_f_len: usize,
        gate: *mut u16,
        gate_len: usize,
        gate_f: *mut f64,
        gate_f_len: usize,
        power_db: *const f64,
        power_db_len: usize,
        power: *const f32,
        power_len: usize,
        rise: *mut u8,
        rise_len: usize,
        drop: *mut u8,
        drop_len: usize,
    ) -> u16;
    fn wolfcloak_gate_hold(
        role: u16,
        bank: *const u16,
        bank_len: usize,
        bank_f: *const f64,
        bank_f_len: usize,
        gate: *const u16,
        gate_len: usize,
        gate_f: *mut f64,
        gate_f_len: usize,
        rise: *mut u8,
        rise_len: usize,
        drop: *mut u8,
        drop_len: usize,
    ) -> u16;
    fn wolfcloak_receive(
        role: u16,
        bank: *mut u16,
        bank_len: usize,
        bank_f: *mut f64,
        bank_f_len: usize,
        gate: *mut u16,
        gate_len: usize,
        gate_f: *mut f64,
        gate_f_len: usize,
        hold: *const u8,
        hold_len: usize,
        power_db: *const f64,
        power_db_len: usize,
        power: *const f32,
        power_len: usize,
        rise: *mut u8,
        rise_len: usize,
        drop: *mut u8,
        drop_len: usize,
    ) -> u16;
    fn wolfcloak_smoothed_db(
        role: u16,
        gate: *const u16,
        gate_len: usize,
        gate_f: *const f64,
        gate_f_len: usize,
        k: usize,
        value: *mut f64,
    ) -> u16;
}
