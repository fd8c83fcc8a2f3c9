"""Checks every block of arrays.txt by plain counting, with the definitions of document 01 and request K2.

A table passes when each level of each column stands in runs / s runs and each pair of levels
of every two columns in runs / (s * t) runs. A matrix passes when, for every two columns, the
differences, first minus second, take each value rows / p times; they are those of the field for
p = 4, 8 and 9, and modulo p for every other p. Columns are named from 1, levels and differences
from 0. A generator passes when no coefficients but all zeros combine the columns of two factors
to zero.

The last line sums up, and the exit status is 0 when every block passes.
"""

import sys
from itertools import combinations, product
from pathlib import Path

from fields import group_difference, row_times


def read_blocks(text):
    """Yields (kind, name, sizes, rows); sizes are the numbers after the name. Lines that start with # are comments."""
    head, rows = None, []
    for line in text.split("\n") + [""]:
        if line.startswith("#"):
            continue
        if line == "":
            if head:
                yield head[0], head[1], [int(w) for w in head[2:]], rows
            head, rows = None, []
        elif head is None:
            head = line.split(" ")
        else:
            rows.append([int(w) for w in line.split(" ")])


def shape_failure(rows, row_count, column_count, limits):
    """The first row of a wrong length or entry that is not below its limit, or None."""
    if len(rows) != row_count:
        return f"{len(rows)} rows, not {row_count}"
    for y, row in enumerate(rows):
        if len(row) != column_count:
            return f"row {y} has {len(row)} entries, not {column_count}"
        for c, entry in enumerate(row):
            if not 0 <= entry < limits[c]:
                return f"row {y}, column {c + 1}: entry {entry} is not below {limits[c]}"
    return None


def table_failure(runs, levels):
    """The first uneven column, else the first uneven pair of columns, or None."""
    n = len(runs)
    for c, s in enumerate(levels):
        for x in range(s):
            times = sum(run[c] == x for run in runs)
            if s * times != n:
                return f"column {c + 1}, level {x}: {times} times"
    for a, b in combinations(range(len(levels)), 2):
        s, t = levels[a], levels[b]
        for x in range(s):
            for y in range(t):
                times = sum(run[a] == x and run[b] == y for run in runs)
                if s * t * times != n:
                    return f"columns {a + 1} {b + 1}, levels {x} {y}: {times} times"
    return None


def matrix_failure(rows, p):
    """The first pair of columns whose differences are uneven, or None."""
    for a, b in combinations(range(len(rows[0])), 2):
        differences = [group_difference(p, row[a], row[b]) for row in rows]
        for d in range(p):
            times = differences.count(d)
            if p * times != len(rows):
                return f"columns {a + 1} {b + 1}, difference {d}: {times} times"
    return None


def generator_failure(rows, s, sizes):
    """The first two factors, or the only one, whose columns depend on each other, or None."""
    starts = [sum(sizes[:i]) for i in range(len(sizes))]
    columns = [range(start, start + u) for start, u in zip(starts, sizes)]
    for factors in combinations(range(len(sizes)), min(2, len(sizes))):
        chosen = [[row[c] for i in factors for c in columns[i]] for row in rows]
        for coefficients in product(range(s), repeat=len(chosen[0])):
            if any(coefficients) and not any(row_times(s, row, coefficients) for row in chosen):
                named = " ".join(str(i + 1) for i in factors)
                return f"factors {named}, coefficients {' '.join(map(str, coefficients))}"
    return None


def limits_of(kind, column_count, rest):
    """For each column of entries, the number that they are below; rest is a header after its two sizes."""
    if kind == "table":
        return rest
    if kind == "matrix":
        return rest * column_count
    return rest[:1] * sum(rest[1:])


def header_fits(kind, column_count, rest):
    return len(rest) == {"table": column_count, "matrix": 1, "generator": 1 + column_count}.get(kind)


def failure_of(kind, rest, rows):
    """What the count finds, or None."""
    if kind == "table":
        return table_failure(rows, rest)
    if kind == "matrix":
        return matrix_failure(rows, rest[0])
    return generator_failure(rows, rest[0], rest[1:])


def check(kind, name, sizes, rows):
    """Returns the line to print and whether the block passes."""
    row_count, column_count, rest = sizes[0], sizes[1], sizes[2:]
    if not header_fits(kind, column_count, rest):
        return f"{name} fails: bad header", False
    limits = limits_of(kind, column_count, rest)
    failure = shape_failure(rows, row_count, len(limits), limits) or failure_of(kind, rest, rows)
    return (f"{name} fails: {failure}", False) if failure else (f"{name} passes", True)


def main():
    text = Path(__file__).with_name("arrays.txt").read_text()
    results = [check(*block) for block in read_blocks(text)]
    for line, _ in results:
        print(line)
    passing = sum(passes for _, passes in results)
    print(f"{len(results)} blocks, {passing} pass")
    return 0 if passing == len(results) else 1


if __name__ == "__main__":
    sys.exit(main())
