"""Runs a planner program on every order file and compares what it prints.

    python3 orders/check.py PROGRAM

For each file: the order is filled; runs and levels are those of the array's name; the printed runs
are an orthogonal array of strength two by the plain count of source/verify.py, which knows nothing
of how they were made; and they are, run for run, those that source/catalogue.py builds. The printed
spare is that of the printed runs and levels, and so the one in docs/CATALOGUE.md. The file itself is
the one that source/write_orders.py writes. One line for each file, then a last one with counts; the
exit status is 1 if anything differs.
"""

import subprocess
import sys
from pathlib import Path

ORDERS = Path(__file__).resolve().parent
sys.path.insert(0, str(ORDERS / "source"))

from catalogue import catalogue, failure_of, spare_of, text_of  # noqa: E402
from steps import Table  # noqa: E402
from verify import shape_failure  # noqa: E402


def printed_table(answer):
    """The table that a program printed, or what is wrong with its form."""
    lines = answer.splitlines()
    if not lines or lines[0].startswith("refused"):
        return None, f"not filled: {lines[0] if lines else 'nothing was printed'}"
    try:
        header, levels, *runs = [[int(word) for word in line.split(" ")] for line in lines]
    except ValueError:
        return None, "not lines of numbers"
    if len(header) != 3 or header[1] != len(levels):
        return None, "bad header"
    table = Table(levels, runs)
    failure = shape_failure(runs, header[0], header[1], levels)
    if failure is None and header[2] != spare_of(table):
        failure = f"spare {header[2]}, not {spare_of(table)}"
    return (None, failure) if failure else (table, None)


def expected_answer(sheet):
    """Document 01's printed runs, with 02's header: N, m and the spare, the level counts, the runs."""
    return text_of([[len(sheet.runs), len(sheet.levels), spare_of(sheet)], sheet.levels, *sheet.runs])


def difference(array, program):
    """What differs for an array's file, or None."""
    path = ORDERS / array.file
    if not path.exists():
        return "no such file"
    order = path.read_text()
    if order != text_of(array.order):
        return "not what write_orders.py writes"
    answer = subprocess.run([program], input=order, stdout=subprocess.PIPE, text=True).stdout
    table, failure = printed_table(answer)
    failure = failure or failure_of(array.entry.name, table)
    if failure is None and answer != expected_answer(array.sheet):
        failure = "even, but other lines than catalogue.py's runs come to"
    return failure


def main():
    if len(sys.argv) != 2:
        print("usage: python3 orders/check.py PROGRAM", file=sys.stderr)
        return 2
    arrays = catalogue()
    right = 0
    for array in arrays:
        failure = difference(array, sys.argv[1])
        right += failure is None
        size = f"{len(array.sheet.runs)} runs, {len(array.sheet.levels)} columns, spare {spare_of(array.sheet)}"
        print(f"{array.file}: {failure or size + ', as expected'}")
    unlisted = sorted({path.name for path in ORDERS.glob("*.txt")} - {array.file for array in arrays})
    for name in unlisted:
        print(f"{name}: not in the catalogue")
    print(f"{len(arrays)} files, {right} as expected, {len(arrays) - right + len(unlisted)} different")
    return 0 if right == len(arrays) and not unlisted else 1


if __name__ == "__main__":
    sys.exit(main())
