#!/usr/bin/env python3
"""Lists the places in crates/*/src of each older form that docs/DESIGN-PASS.md counts.

tools/forms.py            the number of places of each point, and of each kind within it
tools/forms.py N          the places of point N, a line each
tools/forms.py N KIND     those of one kind
tools/forms.py --in DIR   the same of another checkout

It goes by text, so it finds candidates: a place that stays has its reason in docs/DESIGN-PASS.md.
"""
import collections
import pathlib
import re
import subprocess
import sys

args = sys.argv[1:]
root = pathlib.Path(__file__).resolve().parent.parent
if "--in" in args:
    i = args.index("--in")
    root = pathlib.Path(args[i + 1])
    del args[i:i + 2]

places = collections.defaultdict(list)  # (point, kind) -> lines


def add(point, kind, where, what):
    places[point, kind].append(f"{where}: {what.strip()[:110]}")


# Variants that say that there is nothing, or that something is wrong: what None and Err say.
NOTHING = {"Missing", "NoValue", "NoEvent", "Nothing", "Wrong", "Cut", "Bad", "Deep", "Unlimited", "Other", "Closed",
           "Done", "Refused", "TooFew"}
FLAGS = re.compile(r"^\s*pub (found|fits|set|encoder_fits|has_\w+): bool,")
LOOP = re.compile(r"^\s*(while|loop)\b")
NUMBERED = re.compile(r"^\s*(0x[0-9A-Fa-f]+|[0-9]+)( \| [0-9]+)* => ")
PRINTING = re.compile(r"^\s*(pub )?fn (put_\w+|\w+_name|\w+_text)\b")
CONVERTING = re.compile(r"^\s*(pub )?fn (\w+_number|(state|mode|kind|session_state|outcome|event)_of|wide\w*|low|short_number|is_set|"
                        r"\w+_numbers)\(")
EQUAL = re.compile(r"^\s*(pub )?fn (is|same_name|name_is|is_word|least|beyond|power|in_use|rows_in_use|one_less|one_more|number_after|halved)\(")
CAST = re.compile(r"\bas (u8|u16|u32|u64|usize)\b")
ARRAYS = re.compile(r"^\s*facts: &(mut )?\[u64; 10\],")
TOLD = re.compile(r"^\s*numbers: &mut \[u64; 16\],")
DETOUR = re.compile(r"^\s*let (\w+) = (\w+)\.(\w+);$")
LENGTHS = re.compile(r"^\s*pub (len|\w+_count): usize,")
STEP = re.compile(r"^\s*match (i|kind|k|place|which) \{")


def functions(text):
    """Name, first line, body of each function."""
    for m in re.finditer(r"(?m)^\s*(?:pub )?fn (\w+)", text):
        start = text.count("\n", 0, m.start()) + 1
        end = text.find("\n}\n", m.start())
        yield m.group(1), start, text[m.start():end if end > 0 else len(text)]


shapes = collections.defaultdict(list)
clauses = collections.defaultdict(list)
for path in sorted(root.glob("crates/*/src/*.rt")):
    text = path.read_text()
    name = str(path.relative_to(root / "crates"))
    lines = text.split("\n")
    for m in re.finditer(r"(?ms)^(?:pub )?enum (\w+) \{\n(.*?)^\}", text):
        at = text.count("\n", 0, m.start()) + 1
        variants = re.findall(r"(?m)^    ([A-Z]\w*)", m.group(2))
        if len(variants) > 1 and NOTHING & set(variants):
            add(1, "enum", f"{name}:{at}", f"enum {m.group(1)}: {', '.join(v for v in variants if v in NOTHING)}")
    for n, line in enumerate(lines, 1):
        where = f"{name}:{n}"
        if FLAGS.match(line):
            add(1, "flag", where, line)
        if LOOP.match(line):
            add(3, "loop", where, line)
        if PRINTING.match(line):
            add(4, "printing", where, line)
        if CONVERTING.match(line):
            add(4, "conversion", where, line)
        if EQUAL.match(line):
            add(4, "equality, order, arithmetic", where, line)
        if DETOUR.match(line):
            add(4, "copy to a local", where, line)
        if LENGTHS.match(line):
            add(6, "length beside", where, line)
        if STEP.match(line):
            add(7, "step by number", where, line)
        if CAST.search(line) and "//" not in line.split(" as ")[0]:
            add(4, "cast", where, line)
    for match in re.finditer(r"match [^{]*\{\n(.*?)\n\s*\}", text, re.S):
        numbered = [l for l in match.group(1).split("\n") if NUMBERED.match(l)]
        if len(numbered) > 1:
            add(1, "numbers for kinds", f"{name}:{text.count(chr(10), 0, match.start()) + 1}", numbered[0])
    for fn, start, body in functions(text):
        if any(ARRAYS.match(l) for l in body.split("\n")):
            add(5, "the four arrays together", f"{name}:{start}", fn)
        if any(TOLD.match(l) for l in body.split("\n")):
            add(5, "the three arrays of an answer together", f"{name}:{start}", fn)
        if re.search(r"\bfits: bool,", body.split(")\n")[0]) and "name: Name" in body:
            add(5, "a name and whether it fits together", f"{name}:{start}", fn)
        for clause in re.findall(r"requires \w*\s*\{ (.*?) \}\n", body):
            clauses[clause].append(f"{name}:{start}")
        # Twins: the same tokens, but for names in lower and upper case and numbers.
        code = re.sub(r"//.*", "", body.split("ensures", 1)[-1].split("\n{", 1)[-1])
        shape = re.sub(r"\b[a-z]\w*\b|\b[A-Z]\w*\b|\b[0-9]\w*\b|b\"[^\"]*\"", "x", code)
        shape = " ".join(shape.split())
        if shape.count(" ") > 14:
            shapes[shape].append(f"{name}:{start}: {fn}")
for same in shapes.values():
    if len(same) > 1:
        for s in same:
            add(2, "same shape", s.rsplit(": ", 1)[0], f"{s.rsplit(': ', 1)[1]} (one of {len(same)})")
for clause, where in clauses.items():
    if len(where) > 2:
        for w in where:
            add(5, "a fact in three contracts or more", w, clause)

if not args:
    for point in range(1, 8):
        kinds = sorted((k, v) for (p, k), v in places.items() if p == point)
        print(f"{point}: {sum(len(v) for _, v in kinds)}")
        for kind, found in kinds:
            print(f"   {len(found):4} {kind}")
else:
    for (p, kind), found in sorted(places.items()):
        if str(p) == args[0] and (len(args) < 2 or args[1] == kind):
            for f in found:
                print(f"{kind}: {f}")
