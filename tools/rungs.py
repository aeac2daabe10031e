#!/usr/bin/env python3
"""tools/rungs.py > crates/rungs/src/table.rt: the ladder's rungs as one constant table. The prover compares each with the definition."""

DEPTH_DB, TOP_DB = 260, 400

HEAD = """// R-13: the whole ladder, -{depth} to {top} dB in eighths of a dB, as one constant table. Written by tools/rungs.py.
ghost use Rattle.std.specs.Prelude.{{◌≡◌}};
ghost use Rattle.model.specs.Decibels.{{rung_values}};

use model::layout::RUNG_COUNT;

const RUNGS: [f64; RUNG_COUNT] = [
"""

TAIL = """];

// Every call writes the table out anew: have one caller, and lend it on. It is copied from behind a reference: an array that is made entry by
// entry takes the proof a minute more.
pub fn rungs() -> [f64; RUNG_COUNT]
    ensures { result ≡ rung_values }
{
    let all = &RUNGS;
    *all
}
"""


def root(j):
    """The largest whole t with t^80 <= 10^(720 + j)."""
    low, high = 10**9, 10**10
    while high - low > 1:
        mid = (low + high) // 2
        if mid**80 <= 10 ** (720 + j):
            low = mid
        else:
            high = mid
    return low


def literal(x):
    mantissa, _, exponent = repr(x).partition("e")
    if not exponent:
        return mantissa
    return f"{mantissa}e{int(exponent)}"


def main():
    roots = [root(j) for j in range(80)]
    print(HEAD.format(depth=DEPTH_DB, top=TOP_DB), end="")
    for i in range(-8 * DEPTH_DB, 8 * TOP_DB + 1):
        q, j = divmod(i, 80)
        print(f"    {literal(roots[j] * float(f'1e{q - 9}'))},")
    print(TAIL, end="")


if __name__ == "__main__":
    main()
