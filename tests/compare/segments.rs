// the dispatcher beside document 02's words in plain Rust: every count, byte and last served; then long runs of ticks, the
// fairness counted.
use crate::numbers::Rng;
use crate::tally::Tally;
use crate::wolfcloak::{act_as, dispatch, KEEPER, LEADER, TECHNICIAN};

const NONE_WAITING: u16 = 102;

/// The answer, and what the last served becomes; "going round" by a remainder, where the library has none. R-14: 16 first.
fn due(role: u16, count: usize, waiting: u8, last: usize) -> (u16, usize) {
    if role != TECHNICIAN {
        return (16, last);
    }
    let is_waiting = |i: usize| waiting >> i & 1 == 1;
    if !(1..=8).contains(&count) || (0..8).any(|i| i >= count && is_waiting(i)) || last >= count {
        return (14, last);
    }
    match (1..=count).map(|step| (last + step) % count).find(|&i| is_waiting(i)) {
        Some(i) => (0, i),
        None => (NONE_WAITING, last),
    }
}

fn tick(t: &mut Tally, role: u16, count: usize, waiting: u8, last: usize) -> (u16, usize) {
    let mut served = last;
    act_as(role);
    let got = (dispatch(count, waiting, &mut served), served);
    act_as(TECHNICIAN);
    let want = due(role, count, waiting, last);
    t.check(got == want, format_args!("dispatch({role}, {count}, {waiting:#04x}, {last}): {got:?}, and {want:?} is due"));
    got
}

/// All counts that are taken and some that are not, all bytes, all last served.
pub fn all_ticks(t: &mut Tally) {
    let counts = (0..=20).chain([63, 64, 65, 255, 256, 257, usize::MAX - 1, usize::MAX]);
    let mut answers = [0; 3];
    for count in counts {
        for waiting in 0..=255 {
            for last in (0..=300).chain([usize::MAX - 1, usize::MAX]) {
                match tick(t, TECHNICIAN, count, waiting, last).0 {
                    0 => answers[0] += 1,
                    NONE_WAITING => answers[1] += 1,
                    _ => answers[2] += 1,
                }
            }
        }
    }
    // for each count from 1 to 8 and each last served: one byte with none waiting, 2^count - 1 with one
    t.check(answers[..2] == [3550, 36], format_args!("dispatch: served {}, none waiting {}", answers[0], answers[1]));
}

/// Runs of ticks from every last served, refused and stopped ones among them, bits that are rare, even and common by turns. No segment
/// is waiting at `count` accepted ticks in a row and served in none of them; some wait one fewer: the bound is sharp.
pub fn fair_runs(t: &mut Tally, rng: &mut Rng) {
    for count in 1..=8 {
        let segments = ((1u16 << count) - 1) as u8;
        let (mut longest, mut others) = (0, [0; 2]);
        for first in 0..count {
            let (mut last, mut unserved) = (first, [0; 8]);
            for at in 0..200_000 {
                let r = rng.next().to_le_bytes();
                let waiting = match at / 1000 % 3 {
                    0 => r[0],
                    1 => r[0] & r[1],
                    _ => r[0] | r[1] | r[2],
                } & if r[3] < 16 { 255 } else { segments };
                let role = if r[4] < 16 { [KEEPER, LEADER, 3, u16::MAX][r[5] as usize % 4] } else { TECHNICIAN };
                let (answer, served) = tick(t, role, count, waiting, last);
                last = served;
                others[0] += usize::from(answer == 14);
                others[1] += usize::from(answer == 16);
                if answer == 14 || answer == 16 {
                    continue;
                }
                for (i, ticks) in unserved[..count].iter_mut().enumerate() {
                    let passed_over = waiting >> i & 1 == 1 && !(answer == 0 && served == i);
                    *ticks = if passed_over { *ticks + 1 } else { 0 };
                    longest = longest.max(*ticks);
                }
            }
        }
        t.check(longest == count - 1, format_args!("of {count} segments one waited {longest} ticks unserved"));
        t.check(others[1] > 0 && (count == 8 || others[0] > 0), format_args!("of {count} segments {others:?} ticks refused, stopped"));
    }
}
