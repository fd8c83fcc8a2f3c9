"""Builds the papers' arrays by the steps of document 01, counts them, and prints them as orders and tables.

    python3 catalogue.py              each array, its steps, and what the count says
    python3 catalogue.py NAME         the planner order of one array, as 'L24(4x2^20)'
    python3 catalogue.py --table      docs/CATALOGUE.md's table of the arrays that have an order file
    python3 catalogue.py --absent     its table of examples that have no steps here

An array is "whole" if its steps have a replacement of seven or fifteen columns, which MERGE does not make.
It enters an order as a table for TAKE.
"""

import re
import sys
from functools import cache
from itertools import groupby
from typing import NamedTuple

from ingredients import names
from recipes import ABSENT, ALSO, Entry, entries
from steps import Field, Generator, Matrix, Merge, Cross, Replace, Split, Sum, Table, Take, carry_all
from verify import matrix_failure, table_failure

HOUSE = {"L4(2^3)": 101, "L9(3^4)": 102, "L12(3x2^4)": 103, "L12(6x2^2)": 104}


class Array(NamedTuple):
    entry: Entry
    sheet: Table
    whole: bool
    file: str
    order: list


# Names of arrays.

def runs_of(name):
    return int(re.match(r"L(\d+)", name)[1])


def parts_of(name):
    """L24(4x2^20) has the parts 4 and 2^20."""
    return re.fullmatch(r"L\d+\((.*)\)", name)[1].split("x")


def levels_of(name):
    """The level counts that a name claims, largest first."""
    pairs = [(part.split("^") + ["1"])[:2] for part in parts_of(name)]
    return sorted((int(s) for s, times in pairs for _ in range(int(times))), reverse=True)


def file_stem(name):
    return name.replace("(", "_").replace(")", "").replace("^", "-")


def file_name(entry, taken):
    """An array of 000 or 002 has its own name; the others, and one whose name is taken, say where they are from."""
    stem = file_stem(entry.name)
    if entry.place[:3] in ("000", "002") and f"{stem}.txt" not in taken:
        return f"{stem}.txt"
    place = re.sub(r"[()]", "", entry.place.lower()).replace(" ", "_").replace(".", "-")
    return f"{place}_{stem}.txt"


# Orders.

def ingredient_lines(item):
    """A header and the rows of entries, a line each."""
    match item:
        case Table(levels, runs):
            return [[1, len(runs), len(levels), *levels], *runs]
        case Matrix(p, rows):
            return [[2, len(rows), len(rows[0]), p], *rows]
        case Generator(s, sizes, rows):
            return [[3, len(rows), len(sizes), s, *sizes], *rows]


def step_line(step, number):
    match step:
        case Take(table):
            return [1, number(table)]
        case Field(generator):
            return [2, number(generator)]
        case Sum(matrices, k):
            return [3, len(matrices), *map(number, matrices), number(k)]
        case Merge(p, members):
            return [4, p, *members]
        case Split(column, table):
            return [5, column, number(table)]
        case Cross(matrices, k, h):
            return [6, len(matrices), *map(number, matrices), number(k), number(h)]


def order_lines(steps, known):
    """Document 01's order. Ingredients are numbered as the steps first name them; house tables have their own numbers."""
    listed = []

    def number(name):
        if name in HOUSE:
            return HOUSE[name]
        if name not in listed:
            listed.append(name)
        return listed.index(name) + 1

    tail = [step_line(step, number) for step in steps]
    ingredients = [line for name in listed for line in ingredient_lines(known[name])]
    return [[len(listed)], *ingredients, [len(steps)], *tail]


def text_of(lines):
    return "".join(" ".join(map(str, line)) + "\n" for line in lines)


# The catalogue.

@cache
def catalogue():
    """Every array, built; each joins the ingredients of those after it."""
    known, taken, arrays = names(), set(), []
    for entry in entries():
        sheet = carry_all(entry.steps, known)
        known.setdefault(entry.name, sheet)
        whole = any(isinstance(step, Replace) for step in entry.steps)
        steps = [Take(entry.name)] if whole else entry.steps
        file = file_name(entry, taken)
        taken.add(file)
        arrays.append(Array(entry, sheet, whole, file, order_lines(steps, known)))
    return arrays


def failure_of(name, sheet):
    """What is wrong with a sheet that has an array's name, or None."""
    if len(sheet.runs) != runs_of(name) or sorted(sheet.levels, reverse=True) != levels_of(name):
        return f"{len(sheet.runs)} runs, levels {' '.join(map(str, sheet.levels))}"
    return table_failure(sheet.runs, sheet.levels)


def uneven_matrices():
    """The names of matrices that are no difference matrices."""
    matrices = {name: item for name, item in names().items() if isinstance(item, Matrix)}
    return [name for name, (p, rows) in matrices.items() if matrix_failure(rows, p)]


# Words.

def together(names_said):
    return " and ".join(names_said)


def in_words(step):
    match step:
        case Take(table):
            return f"take {table}"
        case Field(generator):
            return f"expand the generator {generator}"
        case Sum(matrices, k):
            return f"sum with {together(matrices)}, adjoin {k}"
        case Split(column, table):
            return f"split column {column} by {table}"
        case Cross(matrices, k, h):
            return f"cross with {together(matrices)}, adjoin {k}, and {h} on the other side"
        case Replace(generators, members):
            return f"put one column of {2 ** len(generators)} levels for columns {' '.join(map(str, members))}"


def merges_in_words(steps):
    groups = ", then ".join(" ".join(map(str, step.members)) for step in steps)
    return f"merge columns {groups} into {steps[0].p ** 2} levels{' each' if len(steps) > 1 else ''}"


def steps_in_words(steps):
    """MERGE steps that follow each other are said together."""
    words = []
    for merging, group in groupby(steps, lambda step: isinstance(step, Merge)):
        group = list(group)
        words += [merges_in_words(group)] if merging else map(in_words, group)
    return "; ".join(words)


def order_in_words(array):
    words = steps_in_words(array.entry.steps)
    if array.whole:
        return f"take the whole table, as no steps reach it (it was made so: {words})"
    if len(array.entry.steps) == 1 and isinstance(array.entry.steps[0], Take):
        house = HOUSE.get(array.entry.name)
        return f"take house table {house}" if house else "take the table as printed"
    return words


def spare_of(sheet):
    """How much a sheet could still hold, as request K1 has it; a planner prints it after runs and columns."""
    return len(sheet.runs) - 1 - sum(s - 1 for s in sheet.levels)


def size_cells(name):
    """An array's runs and levels, for a printed table."""
    return [str(runs_of(name)), " · ".join(parts_of(name))]


def shown(name):
    runs, levels = size_cells(name)
    return f"L{runs}({levels})"


# Printed tables.

def table_lines(headings, rows):
    return [f"| {' | '.join(cells)} |" for cells in [headings, ["---"] * len(headings), *rows]]


def places_of(entry):
    return f"{entry.place}; {ALSO[entry.name]}" if entry.name in ALSO else entry.place


def table_row(array):
    link = f"[{array.file}](../orders/{array.file})"
    spare = spare_of(array.sheet)
    saturated = "yes" if spare == 0 else "no"
    return [places_of(array.entry), link, *size_cells(array.entry.name), order_in_words(array), str(spare), saturated]


def table():
    rows = [table_row(array) for array in catalogue()]
    return table_lines(["paper and number", "file", "runs", "levels", "steps", "spare", "saturated"], rows)


def excess(name):
    """What of an array is beyond 01's limits, or nothing."""
    sizes = ((runs_of(name), 512, "runs"), (len(levels_of(name)), 128, "columns"))
    return [f"{size} {unit}" for size, most, unit in sizes if size > most]


def absent_row(place, why, listed):
    """Without a reason of their own the arrays are beyond the limits, and how far is said with each."""
    assert all(bool(excess(name)) == (why is None) for name in listed)
    arrays = ["".join([shown(name), *(f", {over}" for over in excess(name))]) for name in listed]
    return [place, "; ".join(arrays), why or "beyond the limits of 01"]


def absent():
    return table_lines(["paper and number", "arrays", "why"], [absent_row(*group) for group in ABSENT])


PRINTED = {"--table": table, "--absent": absent}


def list_all():
    bad = uneven_matrices()
    for name in bad:
        print(f"{name} fails: it is no difference matrix")
    for entry, sheet, whole, _, _ in catalogue():
        failure = failure_of(entry.name, sheet)
        bad += [entry.name] if failure else []
        verdict = f"fails: {failure}" if failure else "passes"
        mark = " [whole]" if whole else ""
        print(f"{entry.name} {verdict}{mark}: {steps_in_words(entry.steps)}")
    return 1 if bad else 0


def main():
    if len(sys.argv) == 1:
        return list_all()
    wanted = sys.argv[1]
    if wanted in PRINTED:
        print(*PRINTED[wanted](), sep="\n")
        return 0
    for array in catalogue():
        if array.entry.name == wanted:
            print(text_of(array.order), end="")
            return 0
    print(f"no array {wanted}", file=sys.stderr)
    return 1


if __name__ == "__main__":
    sys.exit(main())
