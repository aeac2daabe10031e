#!/usr/bin/env python3
"""Brings the repository's own definitions, fields and lemmas to today's spelling: words in snake case, types and modules in camel case.

usage: python3 tools/respell.py      once, at the top, after port.py and before anything by hand

    bankStep -> bank_step       a definition, a constructor or a field, wherever it is declared
    gate-n   -> gate_n          a constructor, a field or a theorem of specs/, and a field of a record of proofs/
    length-lookF -> length-look_f   a lemma keeps the dashes that join its names
    Lists·one -> lists_one      another name in a .rt file of a definition of another module

Names that would fall together with another name, or with a parameter of a function whose clauses cite them, are in the table OTHERWISE.
It goes by whole words: in .antt files, in the ghost lines and clauses of .rt files, in comments where they are in backticks (or in camel case),
and in the documents in backticks. Functions of src/, exported names, strings, inputs, outputs and must-fail edits keep what they have.
"""

import os
import re

# Where the plain rule gives a name that is taken.
OTHERWISE = {
    # parameters have these names: the u16s and the floats of a store
    "bankF": "bank_floats",
    "bankU": "bank_u16s",
    "gateF": "gate_floats",
    "gateU": "gate_u16s",
    "worstF": "worst_floats",
    "worstU": "worst_u16s",
    # what a call answers and leaves; the call's name alone is a constructor of Exported and Deed
    "bankNew": "bank_new_call",
    "bankUpdate": "bank_update_call",
    "gateNew": "gate_new_call",
    "gateRemake": "gate_remake_call",
    "gateUpdate": "gate_update_call",
    "gateHold": "gate_hold_call",
    "gateUpdateMap": "gate_update_map_call",
    "gateHoldMap": "gate_hold_map_call",
    "mapNew": "map_new_call",
    "mapRead": "map_read_call",
    "mapWrite": "map_write_call",
    "mapWire": "map_wire_call",
    "worstNew": "worst_new_call",
    # a lemma of the library is called drop_at
    "dropAt": "is_drop_at",
    # fields beside definitions of the same words
    "ring-length": "ring_is_long",
    "not-below": "is_not_below",
    "bank-updates": "enough_bank_updates",
    "gate-updates": "enough_gate_updates",
    "none-past": "none_is_past",
    # lemmas beside definitions of the same words
    "all_seen": "all_seen_lem",
    "raw_at": "raw_at_lem",
}
LEMMAS = {"all_seen", "raw_at"}

DECLARES = re.compile(r"^(\s*)(?:(?:pub|abbrev|unfoldable) )*([^\W\d][\w'₀-₉-]*) +: ")
OPENS = re.compile(r"^(?:(?:pub|abbrev) )*(record|data) ")
TOKEN = re.compile(r"(?<![\w'·₀-₉-])[^\W\d][\w'₀-₉]*(?:-[\w'₀-₉]+)*(?![\w'₀-₉-])")


def texts():
    for top, folders, files in os.walk("crates"):
        folders[:] = sorted(f for f in folders if f != "out")
        for f in sorted(files):
            if f.endswith((".rt", ".antt")):
                yield os.path.join(top, f)


def snake(word):
    word = re.sub(r"([a-z0-9])([A-Z])", r"\1_\2", word)
    return re.sub(r"([A-Z])([A-Z][a-z])", r"\1_\2", word).lower()


def is_camel(word):
    return re.match(r"[a-z]", word) and re.search(r"[A-Z]", word)


def parts(name):
    return "-".join(snake(p) if is_camel(p) else p for p in name.split("-"))


def names():
    """What is declared, and the new spelling of what changes."""
    new = dict(OTHERWISE)
    for path in texts():
        if not path.endswith(".antt"):
            continue
        specs = "/specs/" in path
        inside = None
        with open(path, encoding="utf-8") as f:
            for line in f:
                if OPENS.match(line):
                    inside = True
                elif line.strip() and not line.startswith((" ", "-")):
                    inside = None
                m = DECLARES.match(line)
                if not m or m[2] in new or m[2][0].isupper():
                    continue
                if re.match(r".*/proofs/.*/(Proof|Answers|Invariants)\.antt", path) and not any(map(is_camel, m[2].split("-"))):
                    continue
                own = specs or (inside and m[1])
                to = parts(m[2]).replace("-", "_") if own else parts(m[2])
                if to != m[2]:
                    new[m[2]] = to
    return new


def turned(text, new, only=lambda t: True):
    def one(m):
        word = m[0]
        if word in LEMMAS and m.start() and text[m.start() - 1] in "./":
            return word
        return new[word] if word in new and only(word) else word

    return TOKEN.sub(one, text)


def in_comment(text, new):
    """A comment: names in backticks, and those in camel case anywhere."""
    text = re.sub(r"`[^`]*`", lambda m: turned(m[0], new), text)
    return turned(text, new, lambda w: any(map(is_camel, w.split("-"))))


def split_comment(line, mark):
    """The code of a line, and its comment."""
    quoted = False
    for i, c in enumerate(line):
        if c == '"' and (not i or line[i - 1] != "'"):
            quoted = not quoted
        if not quoted and line.startswith(mark, i) and (i == 0 or line[i - 1].isspace()):
            return line[:i], line[i:]
    return line, ""


def antt(text, new):
    out = []
    for line in text.splitlines(keepends=True):
        code, comment = split_comment(line, "--")
        out.append(turned(code, new) + in_comment(comment, new))
    return "".join(out)


def rt(text, new):
    """Ghost lines and clauses; a clause ends where its braces do. A clause that kept its λ, since another λ in it has the same name, loses it."""
    text = re.sub(r"ensures\* \{ λ r\. ⌜ \(r, (.*) ⌝ \}", r"ensures { (result, \1 }", text)
    text = re.sub(r"\b([A-Z]\w*)·(\w+)", lambda m: snake(m[1]) + "_" + m[2], text)
    out, depth = [], 0
    for line in text.splitlines(keepends=True):
        code, comment = split_comment(line, "//")
        if depth or re.match(r"\s*(ghost\b|requires\b|ensures\b|pub ghost\b)", code):
            opened = code.count("{") - code.count("}")
            depth = max(0, depth + opened) if not re.match(r"\s*ghost use", code) else 0
            code = turned(code, new)
        out.append(code + in_comment(comment, new))
    return "".join(out)


def main():
    new = names()
    taken = {}
    for a, b in sorted(new.items()):
        if b in taken:
            print(f"fall together: {taken[b]} and {a} at {b}")
        taken[b] = a
    changed = 0
    for path in texts():
        with open(path, encoding="utf-8") as f:
            text = f.read()
        to = (antt if path.endswith(".antt") else rt)(text, new)
        if to != text:
            changed += 1
            with open(path, "w", encoding="utf-8") as f:
                f.write(to)
    for path in ["README.md"] + [os.path.join("docs", f) for f in sorted(os.listdir("docs")) if f.endswith(".md") and not f.startswith("PORT")]:
        with open(path, encoding="utf-8") as f:
            text = f.read()
        to = re.sub(r"`[^`\n]*`", lambda m: turned(m[0], new, lambda w: w not in LEMMAS), text)
        with open(path, "w", encoding="utf-8") as f:
            f.write(to)
    print(f"{len(new)} names, {changed} files")


if __name__ == "__main__":
    main()
