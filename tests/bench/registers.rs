// gate calls that carry the map beside those without, and the registers.
use crate::floor::{FloorBank, Gate};
use crate::layout::SETTLING;
use crate::numbers::Feed;
use crate::{hops, map_rows, median, time, wolfcloak, LENGTHS};

/// Two gates hear the same hops after one bank whose rings are full, the second with a map; which of them goes first changes from hop to hop.
pub fn rows(n: usize, rounds: usize) {
    let hops = hops(n, Feed::Noise);
    let ((mut u, mut f), (mut g, mut h)) = (FloorBank::new(n).to_stores(), Gate::made(n, [48, 16, 96], &LENGTHS).to_stores());
    let (mut g2, mut h2) = (g.clone(), h.clone());
    let mut map = vec![0; n.div_ceil(8) * 3];
    let (mut rise, mut drop) = (vec![0; n], vec![0; n]);
    let [mut without, mut with, mut holds, mut holds_with, mut reads, mut writes, mut wires, mut tests]: [Vec<f64>; 8] = Default::default();
    assert_eq!(map_rows::new((&g, &h), &mut map), 0);
    for hop in 0..SETTLING + rounds * 750 {
        let (db, power) = &hops[hop % hops.len()];
        assert_eq!(wolfcloak::bank_update(&mut u, &mut f, db, power, None), 0);
        if hop < SETTLING {
            continue;
        }
        for second in [hop % 2 == 0, hop % 2 == 1] {
            let marks = (&mut rise[..], &mut drop[..]);
            if second {
                with.push(time(|| map_rows::update((&u, &f), (&mut g2, &mut h2), &mut map, (db, power), marks)));
            } else {
                without.push(time(|| wolfcloak::gate_update((&u, &f), (&mut g, &mut h), (db, power), marks)));
            }
        }
        if hop % 5 == 1 {
            holds.push(time(|| wolfcloak::gate_hold((&u, &f), (&g, &mut h), (&mut rise, &mut drop))));
            holds_with.push(time(|| map_rows::hold((&u, &f), (&g2, &mut h2), &mut map, (&mut rise, &mut drop))));
            let (mut byte, mut value) = (0, 0.0);
            reads.push(time(|| map_rows::read((&g2, &h2), &map, 0, &mut byte)));
            writes.push(time(|| map_rows::write((&g2, &h2), &mut map, 0, 255)));
            wires.push(time(|| map_rows::wire((&g2, &h2), &map, &mut byte)));
            tests.push(time(|| wolfcloak::smoothed_db((&g2, &h2), 0, &mut value)));
        }
    }
    assert!(g == g2);
    let [without, with, holds, holds_with, reads, writes, wires, tests] = [without, with, holds, holds_with, reads, writes, wires, tests].map(median);
    println!("registers, n = {n}");
    println!("  {:<22} {with:9.2} µs   without {without:9.2} µs", "gate update");
    println!("  {:<22} {holds_with:9.2} µs   without {holds:9.2} µs", "hold");
    println!("  {:<22} {reads:9.2} {writes:9.2} {wires:9.2} µs   (a reading of the smoothed dB, which tests the gate too, {tests:.2} µs)", "read, write, wire");
}
