#!/usr/bin/env python3
# oracle.py SRC OUT: the oracle of the comparison. OUT/floor.rs is floor.rs as published, but for the substitutions below, with
# the ladder's two tables and readable.rs at its end; OUT/channelizer.rs is what floor.rs needs of channelizer.rs. Each text must stand there exactly once.
import pathlib, re, sys

src, out = pathlib.Path(sys.argv[1]), pathlib.Path(sys.argv[2])
here = pathlib.Path(__file__).parent

SUBSTITUTIONS = [
    # the histogram begins at -160 dB, with 320 bins
    ("const HIST_MIN_DB: f64 = -140.0;", "const HIST_MIN_DB: f64 = -160.0;"),
    ("const HIST_BINS: usize = 280;", "const HIST_BINS: usize = 320;"),
    # the literal of document 01, "Stores", as R-11 has it: powf has no rounding that IEEE 754 decides
    ("vec![db_to_linear(HIST_MIN_DB); n_channels]", "vec![1e-16; n_channels]"),
    # the spectral reference is linear in document 01: the minimum as it stands before the logarithm
    ("pub fn spectral_reference_db(", "pub fn spectral_reference("),
    ("        10.0 * m.log10()\n", "        m\n"),
    # the ladder of document 01, rounded upward as R-5 of document 02 has it, stands in for powf
    ("10.0_f64.powf((rise_floor + self.on_snr_db as f64) / 10.0)", "ladder(rise_floor + self.on_snr_db as f64)"),
]


# T of document 01: the largest whole t with t^80 <= 10^(720 + j), by whole numbers.
def root(j):
    t, above = 10**9, 10**10
    while above - t > 1:
        middle = (t + above) // 2
        t, above = (middle, above) if middle**80 <= 10 ** (720 + j) else (t, middle)
    return t


def once(text, old):
    if text.count(old) != 1:
        sys.exit(f"oracle.py: {text.count(old)} places, not one, have: {old.strip()}")


floor = (src / "floor.rs").read_text()
for old, new in SUBSTITUTIONS:
    once(floor, old)
    floor = floor.replace(old, new)

channelizer = (src / "channelizer.rs").read_text()
kept = []
for pattern in [r"const POWER_DB_EPSILON: f64 = [^;]*;\n", r"pub fn power_linear\(power: f32\) -> f64 \{\n[^}]*\}\n"]:
    found = re.findall(pattern, channelizer)
    if len(found) != 1:
        sys.exit(f"oracle.py: {len(found)} places, not one, match: {pattern}")
    kept += found

# T, and the literals of 10^(q - 9) for q from -26 to 40
tables = f"const T: [u64; 80] = {[root(j) for j in range(80)]};\n"
tables += f"const TENS: [f64; 67] = [{', '.join(f'1e{q - 9}' for q in range(-26, 41))}];\n"

out.mkdir(parents=True, exist_ok=True)
(out / "floor.rs").write_text("\n".join([floor, tables, (here / "readable.rs").read_text()]))
(out / "channelizer.rs").write_text("".join(kept))
