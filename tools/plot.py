#!/usr/bin/env python3
"""A picture of a scene, from what `watch --csv` prints:

    ./watch --csv FILE | tools/plot.py > scene.svg

One strip for each channel over time: its power in dB, its effective and rise floor, each in the colour of the rule that yields it, a
band while the channel is alive, and a mark where it rises and where it drops.
"""
import csv
import sys

LEFT, TOP, WIDTH, STRIP, GAP = 74, 122, 980, 84, 14
# where the histogram begins
BOTTOM_DB = -160.0
# one colour for one meaning
POWER, ALIVE, UP, DOWN, TEXT = "#b4bbc3", "#dcefdc", "#1c7c34", "#b3261e", "#222"
# a floor: its column, that of its origin, width, dashes, and the colour of each rule
FLOORS = {
    "effective floor": ("effective_floor_db", "effective_origin", 1.7, "",
                        {"own quartile": "#1f5fa8", "block plus 3": "#8e3fae", "seed": "#00838f"}),
    "rise floor": ("rise_floor_db", "rise_origin", 1.4, "5 3",
                   {"effective floor": "#d9822b", "block": "#c2185b", "seed": "#00838f"}),
}


def read(lines):
    """The rows of each channel, in order."""
    channels = {}
    for row in csv.DictReader(lines):
        channels.setdefault(int(row["channel"]), []).append(row)
    return channels


def number(row, field):
    try:
        return float(row[field])
    except ValueError:
        return float("nan")


def polyline(points, colour, width, dash=""):
    text = " ".join(f"{x:.1f},{y:.1f}" for x, y in points)
    style = f' stroke-dasharray="{dash}"' if dash else ""
    return f'<polyline points="{text}" fill="none" stroke="{colour}" stroke-width="{width}"{style}/>'


def parts(rows, origin):
    """The rows between one change of the origin and the next; each part ends where the next begins."""
    start = 0
    for i in range(1, len(rows) + 1):
        if i == len(rows) or rows[i][origin] != rows[start][origin]:
            yield rows[start:i + 1]
            start = i


def words(x, y, text, size=12, anchor="start", colour=TEXT):
    return f'<text x="{x}" y="{y:.1f}" font-size="{size}" text-anchor="{anchor}" fill="{colour}">{text}</text>'


def mark(x, y, up):
    """A triangle that points up where a channel rises and down where it drops."""
    tip, foot = (y - 5, y + 4) if up else (y + 5, y - 4)
    return f'<path d="M{x:.1f} {tip:.1f} L{x - 5:.1f} {foot:.1f} L{x + 5:.1f} {foot:.1f} Z" fill="{UP if up else DOWN}"/>'


def strip(k, rows, top, low, high, seconds):
    def x_of(row):
        return LEFT + WIDTH * number(row, "seconds") / seconds

    def y_of(db):
        return top + STRIP * (high - min(max(db, low), high)) / (high - low)

    out = [f'<rect x="{LEFT}" y="{top}" width="{WIDTH}" height="{STRIP}" fill="#fafafa" stroke="#ddd"/>']
    start = None
    for row in rows + [None]:
        is_alive = row is not None and row["alive"] == "1"
        if is_alive and start is None:
            start = x_of(row)
        if not is_alive and start is not None:
            end = x_of(row) if row else LEFT + WIDTH
            out.append(f'<rect x="{start:.1f}" y="{top}" width="{end - start:.1f}" height="{STRIP}" fill="{ALIVE}"/>')
            start = None

    def line(rows, field, colour, width, dash=""):
        points = [(x_of(row), y_of(number(row, field))) for row in rows if number(row, field) == number(row, field)]
        return polyline(points, colour, width, dash)

    out.append(line(rows, "db", POWER, 0.7))
    for field, origin, width, dash, rules in FLOORS.values():
        for part in parts(rows, origin):
            out.append(line(part, field, rules.get(part[0][origin], TEXT), width, dash))
    for row in rows:
        if "rise" in row["event"]:
            out.append(mark(x_of(row), top + 9, True))
        if "drop" in row["event"]:
            out.append(mark(x_of(row), top + STRIP - 9, False))
    out.append(words(LEFT - 36, top + STRIP / 2 - 4, f"channel {k}", 11, "middle"))
    for db in (high, low):
        out.append(words(LEFT - 4, y_of(db) + (10 if db == high else -2), f"{db:.0f}", 9, "end", "#666"))
    return out


def legend():
    out, x = [], LEFT
    out.append(polyline([(x, 52), (x + 26, 52)], POWER, 2.5) + words(x + 32, 56, "power"))
    x += 100
    out.append(f'<rect x="{x}" y="45" width="26" height="14" fill="{ALIVE}" stroke="#bcd"/>' + words(x + 32, 56, "alive"))
    out.append(mark(x + 96, 52, True) + words(x + 106, 56, "rise"))
    out.append(mark(x + 156, 52, False) + words(x + 166, 56, "drop"))
    for y, (floor, (_, _, _, dash, rules)) in zip((76, 98), FLOORS.items()):
        out.append(words(LEFT, y, f"{floor} from:"))
        x = LEFT + 130
        for rule, colour in rules.items():
            out.append(polyline([(x, y - 4), (x + 26, y - 4)], colour, 2.5, dash) + words(x + 32, y, rule))
            x += 150
    return out


def main():
    channels = read(sys.stdin)
    if not channels:
        sys.exit("plot.py: no rows; pipe `watch --csv FILE` into it")
    rows = [row for each in channels.values() for row in each]
    seconds = max(number(row, "seconds") for row in rows) or 1.0
    levels = sorted(x for x in (number(row, "db") for row in rows) if x > BOTTOM_DB)
    low = 10.0 * ((levels[len(levels) // 50] if levels else BOTTOM_DB) // 10.0)
    high = 10.0 * ((levels[-1] if levels else 0.0) // 10.0 + 1.0)
    bottom = TOP + len(channels) * (STRIP + GAP)
    out = [
        f'<svg xmlns="http://www.w3.org/2000/svg" width="{LEFT + WIDTH + 24}" height="{bottom + 34}" font-family="sans-serif">',
        '<rect width="100%" height="100%" fill="white"/>',
        words(LEFT, 28, "Why a channel came alive: power and floors in dB over time, and where each floor comes from", 16),
    ] + legend()
    for i, k in enumerate(sorted(channels)):
        out += strip(k, channels[k], TOP + i * (STRIP + GAP), low, high, seconds)
    step = next((s for s in (1, 2, 5, 10, 20, 60, 120, 300) if seconds / s <= 14), 600)
    for t in range(0, int(seconds) + 1, step):
        x = LEFT + WIDTH * t / seconds
        out.append(f'<line x1="{x:.1f}" y1="{bottom - GAP}" x2="{x:.1f}" y2="{bottom - GAP + 5}" stroke="#666"/>')
        out.append(words(f"{x:.1f}", bottom + 8, str(t), 11, "middle"))
    out.append(words(LEFT + WIDTH / 2, bottom + 26, "seconds", 12, "middle"))
    out.append(words(LEFT - 4, TOP - 6, "dB", 10, "end", "#666"))
    print("\n".join(out + ["</svg>"]))


if __name__ == "__main__":
    main()
