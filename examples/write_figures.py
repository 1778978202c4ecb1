"""Writes a figures file without a library: python3 examples/write_figures.py | ./plan"""


def figures_file(counts, divisors):
    """The text for row counts in the relations' order and {(i, j): d} for the pairs with a predicate, relations named from 1."""
    entries = [(k, k, rows) for k, rows in enumerate(counts, 1)]
    entries += [(max(pair), min(pair), d) for pair, d in divisors.items()]
    size = (len(counts), len(counts), len(entries))
    lines = ["%d %d %d" % numbers for numbers in [size, *entries]]
    return "\n".join(["%%MatrixMarket matrix coordinate integer symmetric", *lines, ""])


print(figures_file([10, 20, 30], {(1, 2): 10, (2, 3): 7}), end="")
