#!/usr/bin/env python3
"""Prints what the program vapour_table must write (crates/vapour_table/stdout): the vapour table's entry for each dew point t
from -500 to 500 tenths, one a line, by document 01's recurrence in exact whole numbers."""

S = 10**8


def entry(t):
    q = 1767 * abs(t) * S // (100 * (t + 2435))
    terms = [S]
    for k in range(1, 31):
        terms.append(terms[k - 1] * q // (S * k))
    z = sum(terms)
    return (1224 * z + S) // (2 * S) if t >= 0 else (1224 * S + z) // (2 * z)


for t in range(-500, 501):
    print(entry(t))
