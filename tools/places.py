#!/usr/bin/env python3
"""Where the code has an older form that today's Rattle need not have: docs/DESIGN-PASS.md counts by this.

    tools/places.py              how many places of each kind
    tools/places.py KIND..       the places of these kinds, one a line

A kind is a point of that page and a letter, as 1a. It goes by text, so it lists what a reader then judges."""
import collections
import glob
import os
import re
import sys

ROOT = os.path.dirname(os.path.dirname(os.path.abspath(__file__)))
# The rows of the C interface have C's forms, and a table of 5,281 literals has none.
ROWS = ("wolfcloak/", "wolfcloak_c/")
TABLES = ("rungs/src/table.rt", "ladder/src/tables.rt")


def sources(rows=False):
    for path in sorted(glob.glob(ROOT + "/crates/*/src/**/*.rt", recursive=True)):
        name = os.path.relpath(path, ROOT + "/crates")
        if name in TABLES or (name.startswith(ROWS) and not rows):
            continue
        yield name, open(path).read().splitlines()


def code(line):
    return line.split("//")[0]


def matching(pattern, rows=False):
    out = []
    for name, lines in sources(rows):
        for i, line in enumerate(lines, 1):
            if re.search(pattern, code(line)):
                out.append((f"{name}:{i}", line.strip()))
    return out


def functions(rows=False):
    """name, line, signature's lines, clauses' lines, body's lines"""
    for name, lines in sources(rows):
        i = 0
        while i < len(lines):
            if not re.match(r"\s*(pub )?(const )?fn ", lines[i]):
                i += 1
                continue
            start = i
            head, clauses, body = [], [], []
            while i < len(lines) and not re.match(r"\s*\{$", lines[i]) and not lines[i].rstrip().endswith("{"):
                (clauses if re.match(r"\s*(requires|ensures)", lines[i]) else head).append(code(lines[i]).strip())
                i += 1
            if i < len(lines) and lines[i].strip() != "{":
                head.append(code(lines[i]).strip())
            indent = len(lines[start]) - len(lines[start].lstrip())
            i += 1
            while i < len(lines) and lines[i] != " " * indent + "}":
                if code(lines[i]).strip():
                    body.append(code(lines[i]).strip())
                i += 1
            fn = re.search(r"fn (\w+)", lines[start]).group(1)
            yield f"{name}:{start + 1} {fn}", head, clauses, body
            i += 1


WORD = re.compile(r"[A-Za-z_]\w*|\d[\w.]*|\S")
KEPT = set("if else for in while loop match return break let mut as fn true false self Self bool".split())


def shape(tokens):
    seen, out = {}, []
    for t in tokens:
        if re.match(r"[A-Za-z_]", t) and t not in KEPT:
            t = seen.setdefault(t, f"v{len(seen)}")
        elif re.match(r"\d", t):
            t = "0"
        out.append(t)
    return tuple(out)


def twins():
    groups = collections.defaultdict(list)
    for where, head, _, body in functions():
        tokens = WORD.findall(" ".join(body))
        if len(tokens) >= 12:
            groups[shape(tokens)].append(where)
    return [(g[0], "; ".join(g[1:])) for g in groups.values() if len(g) > 1]


def enums():
    out = []
    for name, lines in sources():
        for i, line in enumerate(lines):
            if re.match(r"\s*(pub )?enum ", line):
                block = []
                for after in lines[i + 1:]:
                    if after.strip() == "}":
                        break
                    block.append(code(after).strip().rstrip(","))
                out.append((f"{name}:{i + 1}", line.strip() + " " + " | ".join(b for b in block if b)))
    return out


def facts():
    counts = collections.defaultdict(list)
    for where, _, clauses, _ in functions():
        for c in clauses:
            if not c.startswith("requires"):
                continue
            inner = c[c.index("{") + 1: c.rindex("}")]
            for part in re.split(r" × ", inner):
                part = part.strip().strip("()").strip()
                counts[part].append(where)
    return [(f"{len(v)} functions", k) for k, v in sorted(counts.items(), key=lambda kv: -len(kv[1])) if len(v) >= 3]


PAIRS = [("bank", "bank_f"), ("gate", "gate_f"), ("worst", "worst_f"), ("power_db", "power"), ("rise", "drop"), ("db", "power")]


def travelling():
    out = []
    for where, head, _, _ in functions():
        text = " ".join(head)
        pairs = ["+".join(p) for p in PAIRS if all(re.search(rf"\b{x}:", text) for x in p)]
        if pairs:
            out.append((where, ", ".join(pairs)))
    return out


def proof_files(name):
    return [(os.path.relpath(p, ROOT + "/crates"), "") for p in sorted(glob.glob(ROOT + f"/crates/*/proofs/**/{name}", recursive=True))]


def uncited():
    text = "\n".join(open(p).read() for p in glob.glob(ROOT + "/crates/**/*.antt", recursive=True) if "/out/" not in p)
    text += "\n".join(open(p).read() for p in glob.glob(ROOT + "/crates/*/src/**/*.rt", recursive=True))
    words = collections.Counter(re.findall(r"[^\s(){}\[\],.;:]+", text))
    out = []
    for p in sorted(glob.glob(ROOT + "/crates/*/proofs/*.antt")):
        for i, line in enumerate(open(p), 1):
            m = re.match(r"(?:abbrev |unfoldable )?pub (\S+) :", line.strip())
            # its statement, and a line for each case of its proof
            if m and words[m.group(1)] <= 1 + open(p).read().count(f"\n{m.group(1)} ") + open(p).read().count(f"\n  {m.group(1)} "):
                out.append((f"{os.path.relpath(p, ROOT + '/crates')}:{i}", m.group(1)))
    return out


KINDS = {
    "1a": ("own enums", enums),
    "1b": ("functions that answer a number of 16 bits", lambda: matching(r"-> u16\b")),
    "1c": ("an answered number compared with 0", lambda: matching(r"if (no|refusal|start|no_\w+|\w+_refusal\(.*\)) != 0|refusal\w*\(.*\) != 0")),
    "1d": ("a refusal by its number", lambda: matching(r"return \d+;|Refused\(\d+\)")),
    "2a": ("groups of functions of one shape (12 words or more)", twins),
    "3a": ("while and loop", lambda: matching(r"^\s*(while|loop)\b")),
    "3b": ("for over a range of indices", lambda: matching(r"^\s*for .* in .*\.\.")),
    "4a": ("conversions by the functions of laws", lambda: matching(r"laws::(wide|one|least|width)\(")),
    "4b": ("a NaN by comparing a number with itself", lambda: matching(r"\b([\w\[\].]+) (!=|==) \1(?![\w\[(.])")),
    "4c": ("casts by as", lambda: matching(r"\bas (u8|u16|u32|u64|usize|f64|i32|i64)\b")),
    "4d": ("a test spelled out: if .. return true or false", lambda: matching(r"return (true|false);")),
    "5a": ("facts that three or more functions require", facts),
    "5b": ("functions whose parameters travel in pairs", travelling),
    "6a": ("arrays of a fixed length", lambda: matching(r"(let|:).*\[[^\]]*; *\w+\]")),
    "7a": ("match on an own enum", lambda: matching(r"^\s*[\w:]+::\w+(\(\w+\))? =>")),
    "8a": ("answers in the older form", lambda: proof_files("Proof.antt")),
    "8b": ("answers in today's form", lambda: proof_files("Answers.antt")),
    "8c": ("laws that nothing cites", uncited),
}


def main(kinds):
    for kind, (what, find) in KINDS.items():
        if not kinds:
            print(f"{kind:4}{len(find()):6}  {what}")
        elif kind in kinds:
            for where, text in find():
                print(f"{where}  {text}")


main(sys.argv[1:])
