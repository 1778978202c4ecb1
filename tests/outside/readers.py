"""Stock readers against a plain parse: `readers.py matrix FILE` reads a figures file with scipy, and `readers.py trees FILE` reads the
trees of the program's output for that file, on standard input, with Biopython."""
import io
import sys


def figures(name):
    """n and the entries of a figures file, {(i, j): v} with i >= j, without a library."""
    with open(name, encoding="ascii") as file:
        lines = [line.split() for line in file if not line.startswith("%")]
    n = int(lines[0][0])
    return n, {(int(i), int(j)): int(v) for i, j, v in lines[1:]}


def expect(what, expected, found):
    if found != expected:
        sys.exit(f"{sys.argv[2]}: {what}: {expected} is expected, {found} is read")


def matrix(name):
    from scipy.io import mminfo, mmread

    n, entries = figures(name)
    expect("heading", (n, n, len(entries), "coordinate", "integer", "symmetric"), mminfo(name))
    read = mmread(name).toarray()
    expect("shape", (n, n), read.shape)
    for i in range(1, n + 1):
        for j in range(1, i + 1):
            # A pair that is absent is 0 in a sparse matrix, and no divisor is.
            v = entries.get((i, j), 0)
            expect(f"entry {i} {j}", v, read[i - 1, j - 1])
            expect(f"entry {j} {i}", v, read[j - 1, i - 1])
    print(f"{name}: scipy reads {n} row counts and {len(entries) - n} divisors")


def written(clade):
    """The text of a tree as it was read, from the leaves' names and the order of the branches."""
    if clade.is_terminal():
        return clade.name
    return "(" + ",".join(map(written, clade.clades)) + ")"


def trees(name):
    from Bio import Phylo

    n, _ = figures(name)
    lines = [line.split(" ") for line in sys.stdin.read().splitlines()]
    expect("models", ["0", "1", "2"], [line[0] for line in lines])
    for line in lines:
        text = line[-1]
        tree = Phylo.read(io.StringIO(text), "newick")
        leaves = [leaf.name for leaf in tree.get_terminals()]
        expect("leaves", [str(k) for k in range(1, n + 1)], sorted(leaves, key=int))
        for join in tree.get_nonterminals():
            expect("branches of a join", 2, len(join.clades))
        expect("tree", text, written(tree.root) + ";")
    print(f"{name}: Biopython reads {len(lines)} binary trees of the leaves 1 to {n}")


{"matrix": matrix, "trees": trees}[sys.argv[1]](sys.argv[2])
