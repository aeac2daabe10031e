// hops from linear power alone beside the same hops with their dB: powers spread over all 660 dB of the ladder, those of noise, and
// powers that are all alike.
use crate::floor::{FloorBank, Gate};
use crate::numbers::{sample, Feed, Rng};
use crate::{linear_rows, median, time, wolfcloak, LENGTHS};

type Air = (&'static str, fn(&mut Rng, usize, usize) -> f32);

const AIRS: [Air; 3] = [
    ("spread over the ladder", |rng, _, _| 10f64.powf(-26.0 + 64.0 * rng.unit()) as f32),
    ("noise", |rng, hop, k| sample(rng, Feed::Noise, hop, k).1),
    ("all alike", |_, _, _| 1e-9),
];

pub fn rows(n: usize, rounds: usize) {
    println!("linear power alone, n = {n}");
    let alone: Vec<f64> = (0..2000).map(|i| time(|| linear_rows::power_db(i as f32))).collect();
    println!("  {:<22} {:9.2} µs", "power_db", median(alone));
    for (name, power) in AIRS {
        let mut rng = Rng(1);
        let (mut u, mut f) = FloorBank::new(n).to_stores();
        let (mut g, mut h) = Gate::made(n, [48, 16, 96], &LENGTHS).to_stores();
        let (mut rise, mut drop) = (vec![0; n], vec![0; n]);
        let [mut bank, mut bank_linear, mut gate, mut gate_linear]: [Vec<f64>; 4] = Default::default();
        for hop in 0..rounds {
            let powers: Vec<f32> = (0..n).map(|k| power(&mut rng, hop, k)).collect();
            let db: Vec<f64> = powers.iter().map(|&p| linear_rows::power_db(p)).collect();
            let (mut u2, mut f2, mut g2, mut h2) = (u.clone(), f.clone(), g.clone(), h.clone());
            let marks = (&mut rise[..], &mut drop[..]);
            let with_db = time(|| wolfcloak::bank_update(&mut u, &mut f, &db, &powers, None));
            let with_db_gate = time(|| wolfcloak::gate_update((&u, &f), (&mut g, &mut h), (&db, &powers), marks));
            let marks = (&mut rise[..], &mut drop[..]);
            let linear = time(|| linear_rows::bank_update(&mut u2, &mut f2, &powers, false));
            let linear_gate = time(|| linear_rows::gate_update((&u2, &f2), (&mut g2, &mut h2), &powers, marks));
            assert!(u == u2 && g == g2);
            if hop % 15 != 0 {
                bank.push(with_db);
                bank_linear.push(linear);
                gate.push(with_db_gate);
                gate_linear.push(linear_gate);
            }
        }
        let [bank, bank_linear, gate, gate_linear] = [bank, bank_linear, gate, gate_linear].map(median);
        println!("  {name}");
        for (what, linear, with_db) in [("bank, ordinary hop", bank_linear, bank), ("gate update", gate_linear, gate)] {
            println!("    {what:<20} {linear:9.2} µs   with dB {with_db:9.2} µs   on top {:7.2} µs", linear - with_db);
        }
    }
}
