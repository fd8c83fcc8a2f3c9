"""The steps of document 01 carried out on tables, step 6 of request K6, and one that a planner does not have.

A step names its ingredients; `carry` looks them up. Columns are named from 1. Cross is step 6. Replace
puts one column of 8 or 16 levels in place of seven or fifteen two-level columns, as 000 does in its
Class C; neither 01 nor a request of 02 has it.
"""

from itertools import product
from typing import NamedTuple

from fields import group_sum, row_times


class Table(NamedTuple):
    levels: list
    runs: list


class Matrix(NamedTuple):
    p: int
    rows: list


class Generator(NamedTuple):
    s: int
    sizes: list
    rows: list


class Take(NamedTuple):
    table: str


class Field(NamedTuple):
    generator: str


class Sum(NamedTuple):
    matrices: tuple
    k: str


class Merge(NamedTuple):
    p: int
    members: list


class Split(NamedTuple):
    column: int
    table: str


class Cross(NamedTuple):
    matrices: tuple
    k: str
    h: str


class Replace(NamedTuple):
    generators: list
    members: list


def expanded(generator):
    """FIELD: all tuples, first coordinate slowest; a factor's values are the digits of its level, first highest."""
    s, sizes, rows = generator
    columns = list(zip(*rows))
    runs = []
    for coordinates in product(range(s), repeat=len(rows)):
        values = iter([row_times(s, coordinates, column) for column in columns])
        runs.append([number_of(s, [next(values) for _ in range(u)]) for u in sizes])
    return Table([s ** u for u in sizes], runs)


def number_of(base, digits):
    total = 0
    for digit in digits:
        total = base * total + digit
    return total


def summed(sheet, matrices, k):
    """SUM. The sum is that of the field for p = 4, 8 and 9 and modulo p for every other p (request K2)."""
    of = {matrix.p: matrix.rows for matrix in matrices}
    assert len(of) == len(matrices) and set(of) == set(sheet.levels)
    assert all(len(rows) == len(k.runs) for rows in of.values())
    levels = [p for p in sheet.levels for _ in of[p][0]]
    runs = [[group_sum(p, x, entry) for p, x in zip(sheet.levels, run) for entry in of[p][y]] + k.runs[y]
            for run in sheet.runs for y in range(len(k.runs))]
    return Table(levels + k.levels, runs)


def merged(sheet, p, members):
    """MERGE, with 01's question 7."""
    first, second = members[0] - 1, members[1] - 1
    assert len(set(members)) == p + 1 == len(members) and all(sheet.levels[c - 1] == p for c in members)
    for run in sheet.runs:
        for h, c in enumerate(members[2:], 1):
            assert run[c - 1] == (run[first] + h * run[second]) % p
    kept = [c for c in range(len(sheet.levels)) if c + 1 not in members[1:]]
    return Table([p * p if c == first else sheet.levels[c] for c in kept],
                 [[p * run[first] + run[second] if c == first else run[c] for c in kept] for run in sheet.runs])


def parted(sheet, column, table):
    """SPLIT."""
    c = column - 1
    assert sheet.levels[c] == len(table.runs)
    return Table(sheet.levels[:c] + table.levels + sheet.levels[c + 1:],
                 [run[:c] + table.runs[run[c]] + run[c + 1:] for run in sheet.runs])


def crossed(sheet, matrices, k, h):
    """CROSS: SUM's columns, then those of h at the old run. Each column of a matrix is even (request K6)."""
    below = summed(sheet, matrices, k)
    assert len(h.runs) == len(sheet.runs)
    for p, rows in matrices:
        assert all(p * column.count(x) == len(rows) for column in zip(*rows) for x in range(p))
    return Table(below.levels + h.levels,
                 [run + h.runs[i // len(k.runs)] for i, run in enumerate(below.runs)])


def replaced(sheet, generators, members):
    """The members are all the sums of the generators modulo 2; one column, in front, stands for them."""
    sums = [pick for pick in product((0, 1), repeat=len(generators)) if any(pick)]
    columns = [[run[c - 1] for run in sheet.runs] for c in members]
    assert len(members) == len(sums)
    for pick in sums:
        assert [sum(x * run[g - 1] for x, g in zip(pick, generators)) % 2 for run in sheet.runs] in columns
    kept = [c for c in range(len(sheet.levels)) if c + 1 not in members]
    return Table([2 ** len(generators)] + [sheet.levels[c] for c in kept],
                 [[number_of(2, [run[g - 1] for g in generators])] + [run[c] for c in kept] for run in sheet.runs])


def carry(sheet, step, known):
    """The sheet that a step leaves."""
    match step:
        case Take(table):
            return known[table]
        case Field(generator):
            return expanded(known[generator])
        case Sum(matrices, k):
            return summed(sheet, [known[name] for name in matrices], known[k])
        case Merge(p, members):
            return merged(sheet, p, members)
        case Split(column, table):
            return parted(sheet, column, known[table])
        case Cross(matrices, k, h):
            return crossed(sheet, [known[name] for name in matrices], known[k], known[h])
        case Replace(generators, members):
            return replaced(sheet, generators, members)


def carry_all(steps, known):
    sheet = None
    for step in steps:
        sheet = carry(sheet, step, known)
    return sheet
