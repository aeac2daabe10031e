//! A complete small receiver loop over the safe wrapper: noise on eight channels, a tone that comes and goes on one of them, and a
//! static crash during which the gate holds. Beside it a second set collects the same hops and is fed them by runs: its marks are the same.
//! The receiver acts as technician; at the end a keeper tries to feed a hop.
mod wolfcloak;

use wolfcloak::{Bank, Gate, Refusal, Role};

const ME: Role = Role::Technician;
const CHANNELS: usize = 8;
const TONE: usize = 3;
/// How many hops the second set collects.
const BATCH: usize = 25;
const HOPS: usize = 1500;

/// A small generator, so that the program prints the same everywhere.
struct Noise(u32);

impl Noise {
    fn next(&mut self) -> f64 {
        self.0 = self.0.wrapping_mul(1664525).wrapping_add(1013904223);
        (self.0 >> 16) as f64 / 65536.0
    }
}

/// One hop: about -150 dB everywhere, the tone at -130 dB from hop 600 to hop 1,100, and in a crash -110 dB everywhere.
fn hear(hop: usize, crash: bool, noise: &mut Noise) -> ([f64; CHANNELS], [f32; CHANNELS]) {
    let (mut db, mut power) = ([0.0; CHANNELS], [0.0; CHANNELS]);
    for k in 0..CHANNELS {
        let tone = k == TONE && (600..1100).contains(&hop);
        let (level, linear) = if crash { (-110.0, 1e-11) } else if tone { (-130.0, 1e-13) } else { (-150.0, 1e-15) };
        db[k] = level + 4.0 * (noise.next() - 0.5);
        power[k] = linear;
    }
    (db, power)
}

/// On 6 dB and off 3 dB over the floor, no early rise.
fn set() -> Result<(Bank, Gate), Refusal> {
    Ok((Bank::new(ME, CHANNELS)?, Gate::new(ME, CHANNELS, 48, 24, None, &[15, 75])?))
}

/// Hops that were collected, one after another, with the marks that single calls gave.
#[derive(Default)]
struct Collected {
    hold: Vec<u8>,
    db: Vec<f64>,
    power: Vec<f32>,
    rise: Vec<u8>,
    drop: Vec<u8>,
}

impl Collected {
    fn add(&mut self, hold: bool, (db, power): (&[f64], &[f32]), (rise, drop): (&[u8], &[u8])) {
        self.hold.push(hold as u8);
        self.db.extend(db);
        self.power.extend(power);
        self.rise.extend(rise);
        self.drop.extend(drop);
    }

    /// Feeds them as a run; whether it gives the same marks.
    fn feed(&self, (bank, gate): &mut (Bank, Gate)) -> Result<bool, Refusal> {
        let (mut rise, mut drop) = (vec![0; self.rise.len()], vec![0; self.drop.len()]);
        gate.receive(ME, bank, &self.hold, &self.db, &self.power, &mut rise, &mut drop)?;
        Ok(rise == self.rise && drop == self.drop)
    }
}

fn run() -> Result<(), Refusal> {
    let (mut bank, mut gate) = set()?;
    let (mut by_runs, mut collected, mut same) = (set()?, Collected::default(), 0);
    let (mut noise, mut alive) = (Noise(1), [false; CHANNELS]);
    for hop in 0..HOPS {
        let crash = (300..310).contains(&hop);
        let (db, power) = hear(hop, crash, &mut noise);
        let (mut rise, mut drop) = ([0; CHANNELS], [0; CHANNELS]);
        bank.update(ME, &db, &power, crash)?;
        if crash {
            gate.hold(ME, &bank, &mut rise, &mut drop)?;
        } else {
            gate.update(ME, &bank, &db, &power, &mut rise, &mut drop)?;
        }
        collected.add(crash, (&db, &power), (&rise, &drop));
        if collected.hold.len() == BATCH {
            same += collected.feed(&mut by_runs)? as usize;
            collected = Collected::default();
        }
        for k in 0..CHANNELS {
            let now = if alive[k] { drop[k] == 0 || rise[k] == 1 } else { rise[k] == 1 };
            if now != alive[k] {
                alive[k] = now;
                let (word, floors, db) = (if now { "rise" } else { "drop" }, bank.floors(ME, k)?, gate.smoothed_db(ME, k)?);
                println!(
                    "{:7.3} s  channel {k}  {word}  {db:.2} dB over floor {:.2} dB (rise floor {:.2}, raw {:.2})",
                    hop as f64 / 375.0,
                    floors.effective,
                    floors.rise,
                    floors.raw
                );
            }
        }
    }
    println!("{same} of {} runs of {BATCH} hops gave the marks of the single calls", HOPS / BATCH);
    println!("a channel that is not there: {:?}", bank.floors(ME, CHANNELS));
    println!("a keeper's hop: {:?}", bank.update(Role::Keeper, &[0.0; CHANNELS], &[0.0; CHANNELS], false));
    Ok(())
}

fn main() {
    if let Err(refusal) = run() {
        println!("refused: {refusal:?}");
    }
}
