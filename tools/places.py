#!/usr/bin/env python3
"""Lists the places in crates/*/src/ that docs/DESIGN-PASS.md counts, point by point, by their text alone. It knows many old forms by their
names, so reading has to go with it; what stands as it is by choice is told on that page. Usage: tools/places.py [-v] [TOP]; -v shows
each place."""
import pathlib, re, sys

shown = "-v" in sys.argv
rest = [a for a in sys.argv[1:] if a != "-v"]
top = pathlib.Path(rest[0] if rest else ".")
files = sorted((top / "crates").glob("*/src/*.rt"))
found = {}


def place(point, kind, where, text):
    found.setdefault((point, kind), []).append((where, text.strip()))


def blocks(lines, head):
    """Each item whose first line matches `head`, with its number: up to the line that closes it at the same depth."""
    for at, line in enumerate(lines):
        if re.match(head, line):
            end = at
            while end < len(lines) and not re.match(r"\s*\S.*;$|\s*}$", lines[end]):
                end += 1
            yield at, lines[at : end + 1]


KEPT = {"if", "else", "return", "let", "mut", "match", "while", "for", "in", "as", "loop", "break", "true", "false", "self"}
MISS = r"\s*(Refused|Failed|UnknownModel|Nothing|Rejected|Missing)\b"
for file in files:
    name = str(file.relative_to(top / "crates")).replace("/src", "")
    lines = file.read_text().split("\n")
    at_line = lambda n: f"{name}:{n + 1}"
    for at, block in blocks(lines, r"\s*(pub )?enum "):
        inside = block[1:-1]
        if any(re.match(MISS, l) for l in inside) and " Refusal " not in block[0]:
            place(1, "an enum with a case for a miss", at_line(at), block[0])
    for at, block in blocks(lines, r"\s*(pub )?struct \w+.*\{"):
        flags = [l for l in block if re.match(r"\s*(pub )?(sound|answer|found|number|is_\w+): ", l)]
        if flags and len(block) > 3:
            place(1, "a flag or a number beside what it tells of", at_line(at), block[0])
        counts = [l for l in block if re.match(r"\s*(pub )?(n|nodes|count|length|len): (usize|u32)", l)]
        arrays = [l for l in block if re.search(r": \[\w+; ", l)]
        if counts and arrays:
            place(6, "an array with its length beside it", at_line(at), block[0])
        elif len(arrays) > 1:
            place(6, "parallel arrays", at_line(at), block[0])
    for at, line in enumerate(lines):
        code = line.split("//")[0]
        if re.search(r"\bfn (number_of(?!_trees)\w*|refuse|refused)\(|\bconst NO_PLAN\b|\bRefused \{ number", code):
            place(1, "a refusal as a number", at_line(at), line)
        if re.match(r"\s*(while|loop)\b", code):
            place(3, "while, loop", at_line(at), line)
        hand = re.match(r"\s*for (\w+) in [^{]*\.\.[^{]*\{", code)
        if hand:
            depth = len(line) - len(line.lstrip())
            body = []
            for l in lines[at + 1 :]:
                if l.strip() and len(l) - len(l.lstrip()) <= depth:
                    break
                body.append(l)
            if re.search(r"\[" + hand[1] + r"\]", "\n".join(body)):
                place(3, "for over a range that indexes", at_line(at), line)
        if re.search(r"\bfn (same\w*|is_same|are_sizes)\(", code):
            place(4, "equality by hand", at_line(at), line)
        if re.search(r"\bfn (wide\(|digit\(|number_of(?!_trees)\w*\(|answer\(|(cost|size|length|place)_of\(found)", code):
            place(4, "conversion by hand", at_line(at), line)
        if re.search(r"\bfn (put\w*|report_number)\([^)]*(out|label)\b", code):
            place(4, "printing by hand", at_line(at), line)
        if re.search(r"\bfn (least|greatest|less|up|quick_up|sum|held|hold|times|past)\(", code):
            place(3, "a method of the library by hand", at_line(at), line)
        if "std::num::wrapping_" in code or re.search(r"\bu(32|64)::(trailing_zeros|leading_zeros|count_ones)\(", code):
            place(3, "a method called by its path", at_line(at), line)
        if re.search(r"derive\(Clone, Copy\)", code):
            place(4, "a type without ==", at_line(at), lines[at + 1])
        if re.search(r"\b(\w+): \1\b", code) and not re.search(r"\bfn\b|\blet\b", code):
            place(4, "a field that says its name twice", at_line(at), line)
        if re.search(r"\b(dyn|fn\()|match (kind|step|turn|rule)\b", code) and not re.search(r"\bfn \w*\(", code):
            place(7, "a switch or a table of functions", at_line(at), line)
    text = "\n".join(lines)
    for m in re.finditer(r"fn (\w+)(?:<[^>]*>)?\(([^)]*)\)", text):
        many = [p for p in m[2].split(",") if ":" in p]
        if len(many) >= 5:
            place(5, "five parameters or more", at_line(text[: m.start()].count("\n")), f"{m[1]}: {len(many)}")
shapes = {}
for file in files:
    name = str(file.relative_to(top / "crates")).replace("/src", "")
    text = re.sub(r"//.*", "", file.read_text())
    for m in re.finditer(r"^( *)(?:pub )?(?:extern \"C\" )?fn (\w+)[^{;]*?(?:requires .*?|ensures .*?)*\n?\1\{\n(.*?)^\1\}$", text, re.S | re.M):
        names = {}
        # The same body but for names of locals and functions, and for numbers.
        shape = re.sub(r"[A-Za-z_]\w*", lambda w: w[0] if w[0] in KEPT else names.setdefault(w[0], f"x{len(names)}"), m[3])
        shape = re.sub(r"\b\d+\b", "0", re.sub(r"\s+", " ", shape)).strip()
        if len(shape) > 40:
            shapes.setdefault(shape, []).append(f"{name} {m[2]}")
for shape, where in shapes.items():
    if len(where) > 1:
        place(2, "functions of one shape", where[0], ", ".join(where[1:]))
types = {}
for file in files:
    name = str(file.relative_to(top / "crates")).replace("/src", "")
    lines = file.read_text().split("\n")
    for at, block in blocks(lines, r"\s*(pub )?(enum|struct) "):
        inside = [l.split("//")[0].strip() for l in block[1:-1]]
        shape = " ".join(sorted(re.sub(r"^pub ", "", l) for l in inside if l))
        if shape:
            types.setdefault(shape, []).append(f"{name} {block[0].strip(' {')}")
for shape, where in types.items():
    if len(where) > 1:
        place(2, "types of one shape", where[0], ", ".join(where[1:]))
facts = {}
for file in files:
    for m in re.finditer(r"requires (?:\w+ )?\{ (.*?) \}\n", file.read_text()):
        for fact in re.split(r" × ", m[1].strip("()")):
            facts.setdefault((file.parent.parent.name, fact.strip("() ")), []).append(file.name)
for (crate, fact), where in sorted(facts.items()):
    if len(where) >= 3:
        place(5, "a fact asked for by three functions or more", crate, f"{fact}: {len(where)}")
for point in range(1, 8):
    kinds = [(k, v) for (p, k), v in found.items() if p == point]
    print(f"point {point}: {sum(len(v) for _, v in kinds)}")
    for kind, where in kinds:
        print(f"  {len(where):4} {kind}")
        if shown:
            for at, line in where:
                print(f"       {at}: {line}")
answers = sum(len(f.read_text().splitlines()) for f in (top / "crates").glob("*/proofs/**/*.antt") if f.parent.name != "proofs")
laws = sum(len(f.read_text().splitlines()) for f in (top / "crates").glob("*/proofs/*.antt"))
code = sum(len(f.read_text().splitlines()) for f in files)
print(f"point 8: {answers} lines of functions' proofs and {laws} of laws, to {code} of code")
