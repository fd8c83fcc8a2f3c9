"""Every ingredient of the catalogue's orders by name: those of arrays.txt, and those that formulas give.

H_20 and H_36 are in none of the papers and come from Paley's formulas. An order's own arrays join
as they are built (catalogue.py), so that a later order can adjoin them.
"""

from itertools import product
from pathlib import Path

from fields import field_product, group_sum
from steps import Generator, Matrix, Table, summed
from verify import read_blocks

SOURCE = Path(__file__).parent


class Known(dict):
    """By name. "X aligned" is table X with its runs rearranged so that its first two-level column is
    column 2 of the Hadamard matrix of as many rows, which Class A1 of 000 asks for."""

    def __missing__(self, name):
        table, _, word = name.partition(" ")
        if word != "aligned":
            raise KeyError(name)
        return aligned(self[table], self[f"H_{len(self[table].runs)}"])


def aligned(table, matrix):
    column = table.levels.index(2)
    waiting = {x: [run for run in table.runs if run[column] == x] for x in (0, 1)}
    return Table(table.levels, [waiting[row[1]].pop(0) for row in matrix.rows])


def factorial(*levels):
    return Table(list(levels), [list(run) for run in product(*map(range, levels))])


def repeating(runs, s):
    """One column 0 .. s - 1, again and again."""
    return Table([s], [[y % s] for y in range(runs)])


def columns_of(table, places):
    """The columns at the places, from 0."""
    return Table([table.levels[c] for c in places], [[run[c] for c in places] for run in table.runs])


def with_zeros(table):
    """A column of zeros before a table of one level count (000, section 4)."""
    return Matrix(table.levels[0], [[0] + run for run in table.runs])


def without_zeros(matrix):
    """A matrix without the zeros of its first column: each of its columns is even, as K6 wants."""
    assert not any(row[0] for row in matrix.rows)
    return Matrix(matrix.p, [row[1:] for row in matrix.rows])


def kronecker_sum(left, right):
    """The Kronecker sum of two matrices of one p (000, section 2)."""
    p = left.p
    return Matrix(p, [[group_sum(p, a, b) for a in upper for b in lower] for upper in left.rows for lower in right.rows])


def symbol(q, x):
    """Legendre's symbol of x modulo the prime q."""
    return 0 if x % q == 0 else 1 if pow(x, (q - 1) // 2, q) == 1 else -1


def normal(signs):
    """Signs 1 and -1 as 0 and 1, with the first row and column turned to zeros."""
    return Matrix(2, [[int(signs[0][0] * signs[0][j] * row[0] * row[j] < 0) for j in range(len(row))]
                      for row in signs])


def paley_first(q):
    """Order q + 1, q a prime of the form 4 n + 3: a border on Q + 1, Q the symbols of the differences."""
    body = [[-1] + [symbol(q, j - i) + (i == j) for j in range(q)] for i in range(q)]
    return normal([[1] * (q + 1)] + body)


def paley_second(q):
    """Order 2 q + 2, q a prime of the form 4 n + 1: each entry of a conference matrix as a 2 by 2 square."""
    conference = [[0] + [1] * q] + [[1] + [symbol(q, j - i) for j in range(q)] for i in range(q)]
    square = {0: [[1, -1], [-1, -1]], 1: [[1, 1], [1, -1]], -1: [[-1, -1], [-1, 1]]}
    return normal([[x for entry in row for x in square[entry][half]] for row in conference for half in (0, 1)])


def halved(runs):
    """000, section 4: [L2(2) * D, 0 * Ln(n)] with n = runs / 2 and D = zeros beside n / 2 zeros and n / 2 ones."""
    n = runs // 2
    return summed(factorial(2), [Matrix(2, [[0, int(2 * y >= n)] for y in range(n)])], factorial(n))


def by_equation_7(known, tables):
    """002, (7): three 12-run tables less two columns, and a column of L9(3^4), as a 36-run table.

    Run (u, v) takes run 4 x + Q(v) of each table, x being the level of run u of L9 in the column
    that goes with the table, and Q the permutation of Table 3. S3 and S4 there are L9's columns 4 and 3.
    """
    nine = known["L9(3^4)"].runs
    turns = ((0, (0, 1, 2, 3)), (1, (0, 2, 1, 3)), (3, (0, 2, 3, 1)))
    runs = [[x for (column, turn), table in zip(turns, tables) for x in table.runs[4 * row[column] + turn[v]]] + [row[2]]
            for row in nine for v in range(4)]
    return Table([s for table in tables for s in table.levels] + [3], runs)


def lines(s, t):
    """A generator of one column for each line through 0: its first nonzero coordinate is 1."""
    vectors = [v for v in product(range(s), repeat=t) if any(v) and next(x for x in v if x) == 1]
    return Generator(s, [1] * len(vectors), [list(row) for row in zip(*vectors)])


def with_two_levels(generator, kept):
    """004, Example 3.1: of D2 to D6 the first ones are kept, and each other one gives three two-level factors,
    both its columns and their sum below a 1."""
    s, sizes, rows = generator
    new_rows = []
    for y, row in enumerate(rows):
        pairs = [row[c:c + 2] for c in range(3, len(row), 2)]
        new = row[:3] + [x for pair in pairs[:kept] for x in pair]
        for a, b in pairs[kept:]:
            new += [1, 1, 1] if y == 0 else [a, b, (a + b) % 2]
        new_rows.append(new)
    return Generator(s, sizes[:1 + kept] + [1] * (3 * (5 - kept)), new_rows)


def bits(x, count):
    return [x >> place & 1 for place in reversed(range(count))]


def sixteen_and_eight():
    """001, Corollary 1.2 with p = 4 and r = 2, over GF(2).

    A run is a pair of elements of GF(4), four coordinates, and an element y of GF(8), three. D8,8;4 has
    entry f(c y) in row y and column c, f dropping the highest bit (Bose and Bush); the columns of L16(4^5)
    are the second element, and the first plus m times the second. Then 16 levels stand for the pair,
    8 for y, and 4 for each column of L16 plus f(c y), c not 0.
    """
    identity = [bits(1 << place, 7) for place in reversed(range(7))]
    factors = [[row[:4] for row in identity], [row[4:] for row in identity]]
    for along, across in ((0, 1), (1, 0), (1, 1), (1, 2), (1, 3)):
        pair = [bits(field_product(4, m, x), 2) for m in (along, across) for x in (2, 1)]
        factors += [pair + [bits(field_product(8, c, y) & 3, 2) for y in (4, 2, 1)] for c in range(1, 8)]
    return Generator(2, [len(factor[0]) for factor in factors],
                     [[x for factor in factors for x in factor[y]] for y in range(7)])


def read():
    """The blocks of arrays.txt."""
    kinds = {"table": lambda rest, rows: Table(rest, rows), "matrix": lambda rest, rows: Matrix(rest[0], rows),
             "generator": lambda rest, rows: Generator(rest[0], rest[1:], rows)}
    blocks = read_blocks((SOURCE / "arrays.txt").read_text())
    return Known({name: kinds[kind](sizes[2:], rows) for kind, name, sizes, rows in blocks})


def add_tables(known):
    for n in (2, 3, 4, 5, 6, 7, 8, 10, 12, 14, 18, 20, 27):
        known[f"L{n}({n})"] = factorial(n)
    for levels in ((2, 3), (3, 4), (2, 5), (7, 2), (6, 5), (5, 3, 2)):
        table = factorial(*levels)
        known[f"L{len(table.runs)}({'x'.join(map(str, levels))})"] = table
    known["L6(3)"], known["L12(3)"] = repeating(6, 3), repeating(12, 3)
    known["L20(2^19)"] = columns_of(Table([2] * 20, known["H_20"].rows), range(1, 20))
    nine, three, six = (columns_of(known[name], places) for name, places in (
        ("L12(2^11)", range(2, 11)), ("L12(3x2^4)", (0, 3, 4)), ("L12(6x2^2)", (0,))))
    assert by_equation_7(known, [nine] * 3) == known["L36(3x2^27)"] and halved(20) == known["L20(2^2x10)"]
    known["L36(3^2x2^20)"] = by_equation_7(known, [nine, nine, three])
    known["L36(6x3x2^18)"] = by_equation_7(known, [nine, nine, six])
    known["L36(18x2^2)"] = halved(36)


def add_matrices(known):
    two = Matrix(2, [[0, 0], [0, 1]])
    known["H_4"] = with_zeros(known["L4(2^3)"])
    known["H_8"] = kronecker_sum(known["H_4"], two)
    known["H_48"] = kronecker_sum(known["H_4"], known["H_12_002"])
    known["H_20"], known["H_36"] = paley_first(19), paley_second(17)
    for name in ("H_8", "H_12_002", "D_6_6_3", "D_12_6_6", "D_12_12_3", "D_12_12_4"):
        known[f"{name}_even"] = without_zeros(known[name])


def add_generators(known):
    known["L8(4x2^4) over GF(2)"] = Generator(
        2, [2, 1, 1, 1, 1], [[1, 0, 0, 1, 0, 1], [0, 1, 0, 0, 1, 1], [0, 0, 1, 1, 1, 1]])
    known["L25(5^6) over GF(5)"], known["L27(3^13) over GF(3)"] = lines(5, 2), lines(3, 3)
    known["L128(16x8x4^35) over GF(2)"] = sixteen_and_eight()
    for kept in range(6):
        known[f"C_3.1_{kept}"] = with_two_levels(known["C_3.1"], kept)


def names():
    """Every ingredient by name."""
    known = read()
    add_matrices(known)
    add_tables(known)
    add_generators(known)
    return known
