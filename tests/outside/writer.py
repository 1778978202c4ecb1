"""A stock writer: whether the program takes what scipy's mmwrite makes of matrices of several kinds. `writer.py PROGRAM`, which is given a
file's name."""
import subprocess
import sys
import tempfile

from scipy.io import mmwrite
from scipy.sparse import coo_matrix

LOWER = [[10, 0, 0], [10, 20, 0], [0, 7, 30]]
WHOLE = [[10, 10, 0], [10, 20, 7], [0, 7, 30]]
NO_ROWS = [[0, 10, 0], [10, 20, 7], [0, 7, 30]]

TAKEN = "0 106 86 ((1,2),3);"
STORED = coo_matrix(WHOLE, dtype="int64")
STORED.data[0] = 0
KINDS = [
    ("signed", coo_matrix(WHOLE, dtype="int64"), {}, TAKEN),
    ("with a comment", coo_matrix(WHOLE, dtype="int64"), {"comment": "lifts\nlandings"}, TAKEN),
    ("the lower triangle, called symmetric", coo_matrix(LOWER, dtype="int64"), {"symmetry": "symmetric"}, TAKEN),
    ("unsigned, called integer", coo_matrix(WHOLE, dtype="uint32"), {"field": "integer"}, TAKEN),
    ("real, called integer", coo_matrix(WHOLE, dtype="float64"), {"field": "integer"}, TAKEN),
    ("a row count of 0 that is stored", STORED, {}, "0 0 0 (2,(1,3));"),
    ("the lower triangle", coo_matrix(LOWER, dtype="int64"), {}, "refused 11 at 0"),
    ("unsigned", coo_matrix(WHOLE, dtype="uint32"), {}, "refused 11 at 0"),
    ("real", coo_matrix(WHOLE, dtype="float64"), {}, "refused 11 at 0"),
    ("dense", coo_matrix(WHOLE, dtype="int64").toarray(), {}, "refused 11 at 0"),
    ("a row count of 0 that is not stored", coo_matrix(NO_ROWS, dtype="int64"), {}, "refused 12 at 86"),
]

for what, matrix, words, expected in KINDS:
    with tempfile.NamedTemporaryFile(suffix=".mtx") as file:
        mmwrite(file, matrix, **words)
        file.flush()
        printed = subprocess.run([sys.argv[1], file.name], stdout=subprocess.PIPE, check=False).stdout.decode()
    if not printed.startswith(expected + "\n"):
        sys.exit(f"scipy, {what}: {expected} is expected, and this is printed:\n{printed}")
print(f"scipy writes {len(KINDS)} kinds of matrices, which are taken or refused as the README says")
