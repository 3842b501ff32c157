"""Rows of `case`. The same case is the same at each run."""

from rows import Ends, Row

ROWS = [
    Row("two leaves", "case 1 2 3", {}, "case 1207 20 3202976 0 0\n"),
    Row("three leaves", "case 2 3 3", {}, "case 1521 20 3203317 0 0\n"),
    Row("eight leaves", "case 7 8 4", {}, "case 3102 30 3202950 0 0\n"),
    Row("eight leaves, once more", "case 7 8 4", {}, "case 3102 30 3202950 0 0\n"),
    Row("sixteen leaves", "case 12345 16 8", {}, "case 6926 42 3203182 0 0\n"),
    Row("the largest fabric", "case 1 256 32", {}, Ends("case ", " 0 0\n")),
]
