"""The arrays of the catalogue and the steps that make them, in the order of the papers.

Each function gives the arrays of one place of a paper as pairs of a name and steps; `entries` puts
the place to them. Ingredients are named as in ingredients.py; an array can be an ingredient of
those after it.
"""

from typing import NamedTuple

from steps import Field, Merge, Cross, Replace, Split, Sum, Take


class Entry(NamedTuple):
    place: str
    name: str
    steps: list


# Forms that several places share.

def kronecker(runs, first, matrix, arrays):
    """[first * matrix, 0 * k] for each k (000, section 3)."""
    return [(f"L{runs}({levels})", [Take(first), Sum((matrix,), k)]) for k, levels in arrays]


def class_a1(runs, matrix, arrays):
    """Class A1 of 000: L2(2) and a Hadamard matrix; k's column at the given place is column 2 of the matrix."""
    return [(f"L{runs}({levels})", [Take("L2(2)"), Sum((matrix,), k), Merge(2, [1, 2, runs // 2 + place])])
            for k, place, levels in arrays]


def class_b(runs, first, n, matrix, arrays):
    """Class B of 000 with t = runs / n: as many triples as there are."""
    return [(f"L{runs}({levels})", [*first, Sum((matrix,), k), *merges(triples_of_b(n, runs // n))])
            for k, levels in arrays]


def triples_of_b(n, t):
    """Class B's triples by the columns after SUM, a_i * 0 and a_i * b_j at n (i - 1) + 1 and n (i - 1) + 1 + j."""
    half = t // 2

    def at(i, j):
        return n * (i - 1) + 1 + j

    return ([(at(1, 0), at(2, 1), at(half + 1, 1))]
            + [(at(1, i + 1), at(i + 1, 0), at(half + i, i + 1)) for i in range(1, half)]
            + [(at(1, half + i), at(i + 1, half + i), at(half + i, 0)) for i in range(1, half)])


def merges(triples):
    """MERGE steps for triples named by the columns before any of them: the numbers when each one's turn comes."""
    gone, steps = [], []
    for triple in triples:
        steps.append(Merge(2, [c - sum(g < c for g in gone) for c in triple]))
        gone += triple[1:]
    return steps


def one_column(runs, first, matrix, generators, members, arrays):
    """A column of 8 or 16 levels for the members and column b, which k brings, and which is a generator too."""
    return [(f"L{runs}({levels})", [*first, Sum((matrix,), k), Replace([*generators, b], [*members, b])])
            for k, b, levels in arrays]


def on_48(k, *rest):
    """(9) of 000, [L2(2) * H48, 0 * L48]: columns g * c of H48 at 12 g + c + 1, g from 0 to 3, and k's from 49."""
    return [Take("L2(2)"), Sum(("H_48",), k), *rest]


# 000, section 5.

def example_1():
    return kronecker(18, "L3(3)", "D_6_6_3", (("L6(3)", "3^7"), ("L6(2x3)", "2x3^7"), ("L6(6)", "6x3^6")))


def example_2():
    return class_a1(24, "H_12_002", (
        ("L12(2^11)", 1, "4x2^20"), ("L12(6x2^2)", 2, "6x4x2^11"), ("L12(3x2^4)", 2, "3x4x2^13")))


def example_3():
    return kronecker(36, "L3(3)", "D_12_12_3", (
        ("L12(3)", "3^13"), ("L12(2^11)", "3^12x2^11"), ("L12(12)", "3^12x12"), ("L12(6x2^2)", "3^12x6x2^2"),
        ("L12(3x4)", "3^13x4"), ("L12(3x2^4)", "3^13x2^4")))


def example_4():
    plain = kronecker(40, "L2(2)", "H_20", [("L20(20)", "20x2^20")])
    return plain + class_a1(40, "H_20", (
        ("L20(2^19)", 1, "4x2^36"), ("L20(2^2x10) aligned", 1, "10x4x2^19"), ("L20(5x2^8) aligned", 2, "5x4x2^25")))


def example_5():
    first = [Take("L4(2^3)")]
    four = class_b(48, first, 12, "H_12_002", (
        ("L12(2^11)", "4^3x2^38"), ("L12(6x2^2)", "6x4^3x2^29"), ("L12(3x2^4)", "4^3x3x2^31"),
        ("L12(3x4)", "4^4x3x2^27"), ("L12(12)", "12x4^3x2^27")))
    eight = one_column(48, first, "H_12_002", [1, 13], [1, 13, 25, 2, 14, 26], (
        ("L12(2^11)", 37, "8x2^40"), ("L12(6x2^2)", 38, "8x6x2^31"), ("L12(3x2^4)", 38, "8x3x2^33")))
    over_field = kronecker(48, "L4(4)", "D_12_12_4", (
        ("L12(2^11)", "4^12x2^11"), ("L12(6x2^2)", "6x4^12x2^2"), ("L12(3x2^4)", "4^12x3x2^4"),
        ("L12(3x4)", "4^13x3"), ("L12(12)", "12x4^12")))
    return four + eight + over_field


def example_6():
    return kronecker(50, "L5(5)", "D_10_10_5", (("L10(2x5)", "2x5^11"), ("L10(10)", "10x5^10")))


def example_7():
    """The columns of L9(3^4) are a, b, a + b and 2a + b, so that b leads and a is second."""
    plain = kronecker(54, "L9(3^4)", "D_6_6_3", (("L6(2x3)", "3^25x2"), ("L6(6)", "6x3^24")))
    nine = Merge(3, [7, 1, 13, 19])
    return plain + [(name, steps + [nine]) for name, (_, steps) in zip(("L54(9x3^21x2)", "L54(9x6x3^20)"), plain)]


def example_8():
    merged = class_a1(72, "H_36", (
        ("L36(3^12x6x2^2) aligned", 14, "6x4x3^12x2^35"), ("L36(3^12x2^11) aligned", 13, "4x3^12x2^44"),
        ("L36(3^13x2^4) aligned", 14, "4x3^13x2^37")))
    plain = kronecker(72, "L2(2)", "H_36", [("L36(3^12x12)", "12x2^36x3^12")])
    split = [("L72(6x3^12x2^38)", merged[0][1] + [Split(1, "L4(2^3)")])]
    six = kronecker(72, "L6(6)", "D_12_6_6", (
        ("L12(2^11)", "6^6x2^11"), ("L12(12)", "12x6^6"), ("L12(3x4)", "6^6x4x3"), ("L12(3x2^4)", "6^6x3x2^4"),
        ("L12(6x2^2)", "6^7x2^2")))
    return merged + plain + split + six


def example_9():
    first = [Take("L4(2^3)")]
    four = class_b(80, first, 20, "H_20", (
        ("L20(2^19)", "4^3x2^70"), ("L20(2^2x10) aligned", "10x4^3x2^53"), ("L20(5x2^8) aligned", "5x4^3x2^59"),
        ("L20(20)", "20x4^3x2^51")))
    eight = one_column(80, first, "H_20", [1, 21], [1, 21, 41, 2, 22, 42], (
        ("L20(2^19)", 61, "8x2^72"), ("L20(2^2x10) aligned", 61, "8x10x2^55"), ("L20(5x2^8) aligned", 62, "8x5x2^61")))
    return four + eight


def example_10():
    return kronecker(90, "L3(3)", "D_30_30_3", (("L30(6x5)", "6x5x3^30"), ("L30(5x3x2)", "5x3^31x2")))


def eight_and_four():
    """The levels of Class C2, by (9): the 8-level column is one of L48's.

    a1 * b2 to a1 * b5 of L48 are columns 50 to 53. Each is the sum of a column g * 0 and a column
    g' * b of H48, g and g' being 0 and a1, or a2 and a3.
    """
    four = merges([(1, 15, 50), (13, 4, 51), (25, 41, 52), (37, 30, 53)])
    return [(f"L96({levels})", on_48(k, *four)) for k, levels in (
        ("L48(8x2^40)", "8x4^4x2^76"), ("L48(8x3x2^33)", "8x4^4x3x2^69"), ("L48(8x6x2^31)", "8x4^4x6x2^67"))]


def equation_9():
    """b is the first two-level column that L48 brings, and s says how many of them are merged."""
    return [(f"L96({levels})", on_48(k, *merges([(12 * i + 1, 12 * i + 2 + i, b + i) for i in range(s)])))
            for k, b, s, levels in (
                ("L48(12x4^12)", 0, 0, "12x4^12x2^48"), ("L48(4^12x2^11)", 61, 4, "4^16x2^47"),
                ("L48(4^12x3x2^4)", 62, 4, "4^16x3x2^40"), ("L48(6x4^12x2^2)", 62, 2, "6x4^14x2^44"))]


def example_11():
    """L8(2^7) is made on the way, so that a1 + a(i+1) = a(4+i), as Class B asks."""
    first = [Take("L2(2)"), Sum(("H_4",), "L4(2^3)")]
    four = class_b(96, first, 12, "H_12_002", (
        ("L12(12)", "12x4^7x2^63"), ("L12(2^11)", "4^7x2^74"), ("L12(3x4)", "4^8x3x2^63"),
        ("L12(3x2^4)", "4^7x3x2^67"), ("L12(6x2^2)", "4^7x6x2^65")))
    twelve = [("L96(12x8x2^77)", [Take("L12(2^11)"), Cross(("H_8_even",), "L8(8)", "L12(12)")])]
    sixteen = one_column(96, first, "H_12_002", [1, 13, 25], [12 * i + c for i in range(7) for c in (1, 2)], (
        ("L12(2^11)", 85, "16x2^80"), ("L12(3x2^4)", 86, "16x3x2^73"), ("L12(6x2^2)", 86, "16x6x2^71")))
    return four + eight_and_four() + twelve + sixteen + equation_9()


def example_12():
    return kronecker(98, "L7(7)", "D_14_14_7", (("L14(14)", "14x7^14"), ("L14(7x2)", "7^15x2")))


# 001.

def mixed_sheets():
    """Section 2's formula with the ingredients of Theorem 1's three examples, and of Corollary 1.1 for p = 2 and r = 3."""
    return [("L216(12x6^6x3^72)", [Take("L18(6x3^6)"), Sum(("D_12_6_6", "D_12_12_3"), "L12(12)")]),
            ("L216(12x3^84x2^12)", [Take("L18(2x3^7)"), Sum(("D_12_12_3", "H_12_002"), "L12(12)")]),
            ("L144(12x3^12x2^48)", [Take("L12(3x2^4)"), Sum(("D_12_12_3", "H_12_002"), "L12(12)")]),
            ("L96(12x4^12x2^48)", [Field("L8(4x2^4) over GF(2)"), Sum(("D_12_12_4", "H_12_002"), "L12(12)")])]


def theorem_1():
    six_and_three, three_and_two = ("D_12_6_6_even", "D_12_12_3_even"), ("D_12_12_3_even", "H_12_002_even")
    return [("L216(18x12x6^5x3^66)", [Take("L18(6x3^6)"), Cross(six_and_three, "L12(12)", "L18(18)")]),
            ("L216(18x12x3^77x2^11)", [Take("L18(2x3^7)"), Cross(three_and_two, "L12(12)", "L18(18)")]),
            ("L144(12^2x3^11x2^44)", [Take("L12(3x2^4)"), Cross(three_and_two, "L12(12)", "L12(12)")])]


def corollary_1_1():
    four_and_two = "D_12_12_4_even", "H_12_002_even"
    return [("L96(12x8x4^11x2^44)", [Field("L8(4x2^4) over GF(2)"), Cross(four_and_two, "L12(12)", "L8(8)")])]


def corollary_1_2():
    """The columns of L25(5^6) are b, a, a + b, a + 2b and so on, so that the second leads and the first is second."""
    return [("L128(16x8x4^35)", [Field("L128(16x8x4^35) over GF(2)")]),
            ("L250(25x10x5^54)", [Field("L25(5^6) over GF(5)"), Sum(("D_10_10_5",), "L10(10)"),
                                  Merge(5, [11, 1, 21, 31, 41, 51])])]


def corollary_1_3():
    return [("L108(12x9x3^44)", [Take("L9(3^4)"), Sum(("D_12_12_3",), "L12(12)"), Merge(3, [13, 1, 25, 37])]),
            ("L162(27x6x3^65)", [Field("L27(3^13) over GF(3)"), Cross(("D_6_6_3_even",), "L6(6)", "L27(27)")])]


def example_1_b():
    """Theorem 2 with w = 2 and D2,2;2 is Class A1 of 000."""
    return class_a1(72, "H_36", (
        ("L36(18x2^2) aligned", 1, "18x4x2^35"), ("L36(6^2x3^8x2) aligned", 11, "6^2x4x3^8x2^34"),
        ("L36(6x3x2^18) aligned", 1, "6x4x3x2^51"), ("L36(3^2x2^20) aligned", 1, "4x3^2x2^53"),
        ("L36(3x2^27) aligned", 1, "4x3x2^60")))


def example_2_of_001():
    """By (9) of 000. Column 49, L4(4) * 0 of L48, is split into a1, a2 and a3: each is the sum of two columns of H48."""
    parts = [(1, 13, 49), (2, 26, 50), (3, 39, 51)]
    split = Split(49, "L4(2^3)")
    return [("L96(12x4^14x2^42)", on_48("L48(12x4^12)", split, *merges(parts))),
            ("L96(6x4^15x2^41)", on_48("L48(6x4^12x2^2)", split, *merges(parts + [(37, 38, 64)])))]


# 002.

def table_4():
    return [(name, [Take(name)]) for name in (
        "L4(2^3)", "L9(3^4)", "L12(2^11)", "L12(3x2^4)", "L12(6x2^2)", "L18(6x3^6)")]


# 004, each from the generator that it prints.

def printed(generator, name):
    return lambda: [(name, [Field(generator)])]


def example_3_1():
    levels = "8x2^15", "8x4x2^12", "8x4^2x2^9", "8x4^3x2^6", "8x4^4x2^3", "8x4^5"
    return [("L64(4^6)", [Field("C_3.1_GF4")])] + [
        (f"L128({levels[kept]})", [Field(f"C_3.1_{kept}")]) for kept in range(6)]


PLACES = (
    ("000 Example 1", example_1), ("000 Example 2", example_2), ("000 Example 3", example_3),
    ("000 Example 4", example_4), ("000 Example 5", example_5), ("000 Example 6", example_6),
    ("000 Example 7", example_7), ("000 Example 8", example_8), ("000 Example 9", example_9),
    ("000 Example 10", example_10), ("000 Example 11", example_11), ("000 Example 12", example_12),
    ("001 Section 2", mixed_sheets), ("001 Theorem 1", theorem_1), ("001 Corollary 1.1", corollary_1_1),
    ("001 Corollary 1.2", corollary_1_2), ("001 Corollary 1.3", corollary_1_3),
    ("001 Example 1 (b)", example_1_b), ("001 Example 2", example_2_of_001),
    ("002 Table 4", table_4),
    ("004 Example 2.1", printed("C_2.1", "L16(4x2^3)")),
    ("004 Theorem 3.7 (i)", printed("C_3.7_i", "L243(9x3^13)")),
    ("004 Theorem 3.7 (ii)", printed("C_3.7_ii", "L243(9^2x3^9)")),
    ("004 Example 3.1", example_3_1),
    ("004 Remark 4.1", printed("C_4.1", "L32(4x2^4)")),
)

# Where a later paper names an array of 000 again.
ALSO = {"L24(3x4x2^13)": "001 Corollary 2.1", "L40(5x4x2^25)": "001 Corollary 2.1",
        "L54(9x6x3^20)": "001 Corollary 1.3"}

# Examples without steps here: the place, why (where the limits of 01 are not the reason), the arrays.
ABSENT = (
    ("001 Corollary 1.1", None, ["L486(27x18x9^17x3^153)"]),
    ("001 Corollary 1.3", None, ["L324(27x12x3^143)"]),
    ("001 Example 1 (a)", "one column of 6 levels follows both sheet and matrix: no step makes it",
     ["L72(12x6x3^11x2^27)", "L72(6^4x3^6x2^27)", "L72(6^4x3^2x2^28)", "L72(6^4x3x2^30)", "L72(6^4x2^31)"]),
    ("001 Example 1 (b)", "the papers neither print its 36-run table nor say how to make it",
     ["L72(9x4x2^46)", "L72(6^3x4x3^3x2^34)", "L72(6^3x4x3^2x2^36)", "L72(6^3x4x3x2^37)", "L72(6^3x4x2^41)",
      "L72(6^2x4x3^5x2^35)", "L72(6^2x4x3^4x2^42)", "L72(6^2x4x3x2^43)", "L72(6x4x3^9x2^36)", "L72(6x4x3^8x2^43)"]),
    ("001 Corollary 2.1", "the papers neither print L28(7 · 2^12) or L44(11 · 2^12) nor say how to make them",
     ["L56(7x4x2^37)", "L88(11x4x2^53)"]),
    ("001 Corollary 2.1", "one column of 8 or 24 levels follows both sheet and matrix: no step makes it",
     ["L112(14x8x2^79)", "L112(8x7x2^89)", "L144(24x6x2^111)", "L144(24x3x2^113)", "L144(18x8x2^103)",
      "L144(9x8x2^114)"]),
    ("001 Corollary 2.1", None,
     ["L160(16x10x2^127)", "L160(16x5x2^133)", "L224(16x14x2^183)", "L224(16x7x2^193)", "L240(24x10x2^199)",
      "L240(24x5x2^205)", "L288(18x16x2^239)", "L288(16x9x2^250)", "L336(24x14x2^287)", "L336(24x7x2^297)",
      "L432(24x18x2^375)", "L432(24x9x2^386)"]),
    ("001 Example 2", "one column of 24 levels follows both sheet and matrix: no step makes it",
     ["L96(24x4^12x2^36)"]),
    ("004 Remark 4.1", None, ["L1024(16x4^6)"]),
)


def entries():
    return [Entry(place, name, steps) for place, arrays in PLACES for name, steps in arrays()]
