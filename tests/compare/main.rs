// The library beside floor.rs: the same calls, every answer, store word and reading compared.
//   compare [SEED [JOBS]]   compare, all jobs or the first JOBS; the last line has the counts; status 1 if there is a difference
//   compare sample FILE     write the kept list of calls with floor.rs's answers (README.md)
mod antennas;
mod bottom;
mod calls;
#[path = "build/channelizer.rs"]
mod channelizer;
mod decibels;
mod explain;
mod faults;
#[allow(dead_code)]
#[path = "build/floor.rs"]
mod floor;
mod history;
mod layout;
mod linear_rows;
mod listed;
mod log_rows;
mod logs;
mod louder;
mod map_rows;
mod numbers;
mod pairs;
mod plain_antennas;
mod plain_log;
mod receive;
mod registers;
mod roles;
mod rules;
mod rungs;
mod runs;
mod sample;
mod segments;
mod tally;
mod wolfcloak;
mod worst;

use numbers::Rng;
use rules::Alone;
use runs::{LENGTHS, PLANS};
use std::sync::atomic::{AtomicUsize, Ordering};
use tally::Tally;

const SIZES: [usize; 13] = [1, 2, 3, 4, 5, 6, 31, 32, 33, 64, 65, 511, 512];

/// Job i: the making of banks and gates, the ladder, the hop logs, two antennas, the roles, the dispatcher and the registers, two histories, two
/// lists of which one is louder, the worst floor of late over some span, runs of hops of some size, arbitrary stores of some size, a long list of some
/// size and plan, or the dB of a part of all powers.
fn job(i: usize, seed: u64, alone: &mut Alone) -> Option<Tally> {
    let mut t = Tally::default();
    let mut rng = Rng(seed ^ (i as u64) << 32);
    let lists = history::PAIRS + louder::PAIRS;
    let spans = lists + worst::SPANS.len();
    let received = spans + receive::SIZES.len();
    if i == 0 {
        faults::any_n(&mut t, &mut rng);
        faults::any_settings(&mut t, &mut rng);
        history::no_call_too_many(&mut t);
        bottom::every_edge(&mut t);
        rungs::each_rung(&mut t);
        rungs::any_s(&mut t, &mut rng);
        decibels::each_rung(&mut t);
        logs::any_logs(&mut t, &mut rng);
        antennas::any_antennas(&mut t, &mut rng);
        roles::each_role(&mut t, &mut rng);
        listed::whole(&mut t);
        segments::all_ticks(&mut t);
        segments::fair_runs(&mut t, &mut rng);
        louder::no_more(&mut t);
        for n in registers::SIZES {
            registers::every_address(&mut t, n, &mut rng);
            (0..3000 / (n + 50)).for_each(|_| registers::any_list(&mut t, n, &mut rng));
            registers::all_faults(&mut t, n, &mut rng);
        }
        worst::refusals(&mut t);
        worst::any_rings(&mut t, &mut rng);
    } else if i <= history::PAIRS {
        history::any_histories(&mut t, i - 1, &mut rng);
    } else if i <= lists {
        louder::any_pair(&mut t, i - history::PAIRS - 1, &mut rng);
    } else if i <= spans {
        worst::runs(&mut t, worst::SPANS[i - lists - 1], &mut rng);
    } else if i <= received {
        let n = receive::SIZES[i - spans - 1];
        receive::lists(&mut t, n, &mut rng);
        receive::garbled_hops(&mut t, n, &mut rng);
        receive::refusals(&mut t, n, &mut rng);
    } else if i <= received + SIZES.len() {
        let n = SIZES[i - received - 1];
        (0..6000 / (n + 10)).for_each(|_| faults::any_sound_store(&mut t, n, &mut rng));
        (0..6000 / (n + 10)).for_each(|_| pairs::any_pairs(&mut t, n, &mut rng));
        (0..6000 / (n + 10)).for_each(|_| explain::any_sides(&mut t, n, &mut rng));
    } else {
        let run = i - received - SIZES.len() - 1;
        let Some(&n) = SIZES.get(run / PLANS.len()) else {
            let part = run - PLANS.len() * SIZES.len();
            decibels::spread(&mut t, (part < decibels::PARTS).then_some(part)?, seed);
            return Some(t);
        };
        runs::run(&mut t, n, &PLANS[run % PLANS.len()], LENGTHS[run % LENGTHS.len()], &mut rng, alone);
    }
    Some(t)
}

fn main() {
    let args: Vec<String> = std::env::args().skip(1).collect();
    if args.first().is_some_and(|word| word == "sample") {
        std::fs::write(&args[1], sample::list()).unwrap();
        return;
    }
    let seed = args.first().map_or(20261115, |s| s.parse().expect("a seed is a number"));
    let jobs = args.get(1).map_or(usize::MAX, |s| s.parse().expect("how many jobs is a number"));
    let next = AtomicUsize::new(0);
    let worker = || {
        let (mut t, mut alone) = (Tally::default(), [0; 21]);
        loop {
            let i = next.fetch_add(1, Ordering::Relaxed);
            let Some(more) = (i < jobs).then(|| job(i, seed, &mut alone)).flatten() else { break };
            t.add(more);
            if t.differences > 1000 {
                break;
            }
        }
        (t, alone)
    };
    let (mut t, mut alone) = (Tally::default(), [0; 21]);
    std::thread::scope(|s| {
        let both = [s.spawn(worker), s.spawn(worker)];
        for (part, its) in both.map(|w| w.join().unwrap()) {
            t.add(part);
            (0..21).for_each(|i| alone[i] += its[i]);
        }
    });
    for (rule, times) in rules::SOUND.iter().chain(&rules::GATE_SOUND).zip(alone) {
        t.check(times > 0 || jobs < usize::MAX, format_args!("the rule '{}' was never broken alone", rule.name));
    }
    for (what, times) in explain::SEEN.iter().zip(t.seen) {
        t.check(times > 0 || jobs < usize::MAX, format_args!("no explanation had '{what}'"));
    }
    let [floors, rises] = t.parted;
    t.check(floors > 0 && rises > 0 || jobs < usize::MAX, format_args!("histories made no difference before the end of the further list"));
    t.check(t.untrue > 0 || jobs < usize::MAX, format_args!("untrue pairs never made a difference"));
    t.first.iter().for_each(|d| println!("difference: {d}"));
    println!("{} pairs of histories: floors parted for a while in {floors}, rises in {rises}", history::PAIRS);
    println!("{} marks were given by untrue pairs", t.untrue);
    println!(
        "seed {seed}: {} channel-hops, {} rises, {} drops, {} comparisons, {} differences",
        t.channel_hops, t.rises, t.drops, t.compared, t.differences
    );
    std::process::exit((t.differences > 0) as i32);
}
