#!/usr/bin/env python3
"""Brings the repository's own definitions and lemmas to today's spelling, after the toolchain's port.py.

usage: python3 tools/respell.py          at the top of the repository, once
       python3 tools/respell.py --list   prints the renamings and what would fall together, and writes nothing

Types and modules stay in upper camel case; functions, fields and lemmas go into snake case. A dash stays where it joins two names, a
definition to a definition or a word of the library, and becomes an underscore where it joins a plain word. A lemma that would then have
a definition's name ends in `_lem`. A clause that kept its λ loses it; where it cites the word `result` of table, which the returned value
would hide, that word is imported as `due`.
"""
import os
import re
import sys

ROOT = "crates"
WORDS = {"length", "append", "sets", "set", "drop", "take", "sum", "map", "filter", "all", "min", "max", "replicate", "reverse", "div", "mod", "mul", "le", "lt"}
TOKEN = re.compile(r"[^\s(){}\[\].,;|\"@`]+")
HEAD = re.compile(r"^ *(?:unfoldable |abbrev |pub |private )*(record |data |module )?([^\s:(){}]+) (?:\{[^}]*\}|\([^)]*\)|\s)*:")
LAMBDA = re.compile(r"(ensures)\*?( \w+)? \{ λ (\w+)\. ⌜ (.*?) ⌝ \}", re.S)


def files(*ends):
    for folder, dirs, names in os.walk(ROOT):
        dirs[:] = sorted(d for d in dirs if d != "out")
        for n in sorted(names):
            if n.endswith(ends):
                yield os.path.join(folder, n)


def read(p):
    with open(p, encoding="utf-8") as f:
        return f.read()


def is_lemma_file(p):
    parts = p.split(os.sep)
    return parts[2] == "specs" or (parts[2] == "proofs" and len(parts) == 4)


def snake(n):
    return re.sub(r"(?<=[a-z0-9])([A-Z])", lambda m: "_" + m.group(1).lower(), n) if re.match(r"[a-z]", n) else n


def definitions():
    found = set()
    for p in files(".antt"):
        if not is_lemma_file(p):
            continue
        for line in read(p).splitlines():
            m = HEAD.match(line)
            if m and not line.lstrip().startswith("--"):
                found.add(m.group(2))
    return found


def renamings():
    names = definitions()
    words = {snake(n) for n in names if "-" not in n} | WORDS
    to = {}
    for p in files(".antt"):
        if is_lemma_file(p):
            for t in TOKEN.findall(read(p)):
                if re.fullmatch(r"[a-z][a-z0-9]*([A-Z][a-z0-9]*)+", t):
                    to[t] = snake(t)
    for n in sorted(names):
        if "-" not in n or not re.match(r"[a-z]", n):
            continue
        parts = [snake(x) for x in n.split("-")]
        out, here = parts[0], parts[0]
        for i, x in enumerate(parts[1:], 1):
            ahead = {"_".join(parts[i:j]) for j in range(i + 1, len(parts) + 1)}
            if here in words and ahead & words:
                out, here = out + "-" + x, x
            else:
                out, here = out + "_" + x, here + "_" + x
        to[n] = out
    flat = {}
    for n in names | set(to):
        flat.setdefault(to.get(n, n).replace("-", "_"), set()).add(n)
    for n in names:
        if "-" in n and n in to and flat[to[n].replace("-", "_")] != {n}:
            to[n] = to[n].replace("-", "_") + "_lem"
    return {a: b for a, b in to.items() if a != b}


def clashes(to):
    """Renamings of two names to one, or to a name that stands somewhere already."""
    said, back, seen = [], {}, {}
    for a, b in to.items():
        back.setdefault(b, []).append(a)
    for p in files(".antt", ".rt"):
        for t in set(TOKEN.findall(read(p))):
            seen.setdefault(t, set()).add(p)
    for b, many in sorted(back.items()):
        if len(many) > 1:
            said.append(f"{' and '.join(sorted(many))} would both be {b}")
        if b in seen:
            said.append(f"{', '.join(many)} would be {b}, which stands in {', '.join(sorted(seen[b])[:4])}")
    return said


def turn(text, to):
    return TOKEN.sub(lambda m: to.get(m.group(0), m.group(0)), text)


def bare(text):
    """Clauses without their λ: the returned value is `result`."""
    def one(m):
        x, body = m.group(3), re.sub(r"(?<![\w'.-])result(?![\w'-])", "due", m.group(4))
        body = re.sub(rf"(?<![\w'.-]){x}(?![\w'-])", "result", body)
        return f"{m.group(1)}{m.group(2) or ''} {{ {body} }}"
    new = LAMBDA.sub(one, text)
    return re.sub(r"(ghost use Rattle\.table\.specs\.Results\.\{.*?)\bresult\}", r"\1result as due}", new) if re.search(r"\bdue\b", new) else new


def quoted(line, to):
    """Of prose, only what stands between backticks."""
    return re.sub(r"`[^`]+`", lambda m: turn(m.group(0), to), line)


def main(argv):
    to = renamings()
    if argv == ["--list"]:
        for a, b in sorted(to.items()):
            print(a, "->", b)
        print("\n".join(clashes(to)))
        return 0
    for p in [*files(".antt", ".rt", ".edit"), "README.md", "docs/PROMISES.md", "docs/DECISIONS.md", "docs/SPEED.md"]:
        old = read(p)
        new = "\n".join(quoted(l, to) if p.endswith(".md") or re.match(r" *(--|//|#)", l) else turn(l, to) for l in old.split("\n"))
        if p.endswith(".rt"):
            new = bare(new)
        if new != old:
            with open(p, "w", encoding="utf-8") as f:
                f.write(new)
    return 0


if __name__ == "__main__":
    raise SystemExit(main(sys.argv[1:]) or 0)
