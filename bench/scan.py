#!/usr/bin/env python3
"""scan.py PROGRAM SECOND N SEED [pages|checker|pricer]: N random texts on the standard input of both programs, outputs compared.

PROGRAM is given each text in pieces cut at random places, and the next piece only when it has read the one before, so that no read goes over a cut;
SECOND is given the text whole. The texts are orders, whole or damaged, and streams of bytes. With `pages` and with `pricer` both programs are given random
arguments too, and more of the texts are whole orders. With `checker` the texts have single tables in the place of orders, right and wrong ones, and more of
them are whole. The same SEED makes the same texts, cuts and arguments.
"""

import collections
import fcntl
import os
import random
import struct
import subprocess
import sys
import tempfile
import termios
import time

MOST_WORDS = 32768
BLANKS = [b" ", b"\t", b"\n"]
FIELDS = [2, 3, 4, 5, 7, 8, 9]

# Words that are no decimal number up to 65,535, or look as if they were none.
STRANGE_WORDS = [
    b"65535", b"65536", b"65540", b"99999", b"100000", b"4294967296", b"18446744073709551616", b"9" * 40,
    b"0" * 30 + b"1", b"0" * 5000 + b"65535", b"0" * 5000 + b"65536",
    b"+1", b"-1", b"-0", b"1.0", b"1,", b"0x1", b"1e1", b"a", b"1a", b"a1", b"/", b":", b"0:", b"/0",
    b"\r", b"1\r", b"\x00", b"1\x001", b"\x0b", b"\x0c", b"\xff", b"\xc2\xb2",
]


# Orders, as lists of numbers.


class Order(list):
    """The numbers of an order, and how many columns its sheet has where it is filled."""

    def __init__(self, ingredients, steps, columns):
        super().__init__([len(ingredients), *sum(ingredients, []), len(steps), *sum(steps, [])])
        self.columns = columns


def parity(a, b):
    return (a & b).bit_count() % 2


def parity_table(runs, columns):
    entries = [parity(run, column) for run in range(runs) for column in range(1, columns + 1)]
    return [1, runs, columns, *[2] * columns, *entries]


def house_order(rng):
    """TAKE of a house table; of 101 with MERGE and SPLIT in turn."""
    number = rng.randint(101, 104)
    steps, columns = [[1, number]], {101: 3, 102: 4, 103: 5, 104: 3}[number]
    if number == 101:
        steps += [[4, 2, 1, 2, 3], [5, 1, 101]] * 7
        steps = steps[: rng.randint(1, 15)]
        columns = 1 if steps[-1][0] == 4 else 3
    return Order([], steps, columns)


def table_order(rng):
    runs = 2 ** rng.randint(1, 6)
    columns = rng.randint(1, runs - 1)
    return Order([parity_table(runs, columns)], [[1, 1]], columns)


def large_order(rng):
    """Nearly as many words as are allowed."""
    runs, columns = rng.choice([(512, 63), (256, 127)])
    return Order([parity_table(runs, columns)], [[1, 1]], columns)


def full_order(rng):
    """As many words as are allowed: a matrix of one column makes up the number."""
    table = parity_table(512, 63)
    rows = MOST_WORDS - len(table) - 8
    return Order([table, [2, rows, 1, 2, *[rng.randrange(2) for _ in range(rows)]]], [[1, 1]], 63)


def field_order(rng):
    """Different columns whose first element is 1: no two of them are multiples of each other."""
    s = rng.choice(FIELDS)
    t = rng.choice([t for t in range(1, 10) if s**t <= 512])
    n = rng.randint(1, min(128, s ** (t - 1)))
    columns = [[1, *(number // s**place % s for place in range(t - 1))] for number in rng.sample(range(s ** (t - 1)), n)]
    entries = [column[row] for row in range(t) for column in columns]
    return Order([[3, t, n, s, *[1] * n, *entries]], [[2, 1]], n)


def sum_order(rng):
    runs = 2 ** rng.randint(1, 5)
    rows = 2 ** rng.randint(1, 4)
    columns = rng.randint(1, min(runs - 1, 128 // rows))
    matrix = [2, rows, rows, 2, *(parity(y, c) for y in range(rows) for c in range(rows))]
    return Order([parity_table(runs, columns), matrix], [[1, 1], [3, 1, 2, 0]], columns * rows)


def cross_order(rng):
    """The sheet is the table on the other side too. A matrix with its first column has zeros in it, and is uneven."""
    runs = 2 ** rng.randint(1, 5)
    rows = 2 ** rng.randint(1, 4)
    columns = rng.randint(1, min(runs - 1, 128 // rows))
    first = rng.choices([0, 1], [20, 80])[0]
    matrix = [2, rows, rows - first, 2, *(parity(y, c) for y in range(rows) for c in range(first, rows))]
    return Order([parity_table(runs, columns), matrix], [[1, 1], [6, 1, 2, 0, 1]], columns * (rows - first + 1))


def any_order(rng):
    makers = [house_order, table_order, field_order, sum_order, cross_order, large_order, full_order]
    return rng.choices(makers, [30, 20, 20, 20, 15, 2, 2])[0](rng)


# Tables, as lists of numbers.


def right_table(rng):
    runs = 2 ** rng.randint(1, 6)
    return parity_table(runs, rng.randint(1, runs - 1))


def uneven_table(rng):
    """Even columns in any order, or two of them nearly even together and then some entries exchanged."""
    runs = rng.choice([6, 12, 18, 24, 36, 64])
    levels = rng.choices([s for s in range(2, 65) if runs % s == 0][:4], k=rng.randint(2, 4))
    stride, columns = 1, []
    for s in levels:
        column = [run // stride % s for run in range(runs)]
        if runs % (stride * s) != 0 or rng.random() < 0.3:
            column = rng.sample([run % s for run in range(runs)], runs)
        for _ in range(rng.choice([0, 1, 2, 6])):
            a, b = rng.randrange(runs), rng.randrange(runs)
            column[a], column[b] = column[b], column[a]
        columns.append(column)
        stride *= s
    return [1, runs, len(levels), *levels, *(column[run] for run in range(runs) for column in columns)]


def large_table(rng):
    """Nearly as many words as are allowed; perhaps two columns are equal."""
    runs, columns = rng.choice([(512, 63), (256, 127)])
    table = parity_table(runs, columns)
    if rng.random() < 0.5:
        first, second = sorted(rng.sample(range(columns), 2))
        for start in range(3 + columns, len(table), columns):
            table[start + second] = table[start + first]
    return table


def changed_table(rng):
    """A number that may be out of its limits, an entry out of range or another level, a number too many or too few."""
    table = rng.choice([right_table, uneven_table])(rng)
    kind = rng.randrange(4)
    if kind == 0:
        table[rng.randrange(min(4, len(table)))] = rng.choice([0, 1, 2, 3, 64, 65, 128, 129, 512, 513])
    elif kind == 1:
        table[rng.randrange(3 + table[2], len(table))] = rng.choice([0, 1, 2, 64, 65535])
    elif kind == 2:
        table.append(rng.randrange(3))
    else:
        table.pop()
    return table


def any_table(rng):
    return rng.choices([right_table, uneven_table, changed_table, large_table], [20, 50, 25, 3])[0](rng)


# Texts. Each is made by `numbers`, which gives an order or a table.


def gap(rng, least):
    if rng.random() < 0.002:
        return b"".join(rng.choices(BLANKS, k=rng.randint(1000, 10000)))
    if rng.random() < 0.8:
        return b" "[:least]
    return b"".join(rng.choices(BLANKS, k=rng.randint(least, 5)))


def word(rng, number):
    zeros = rng.choice([1, 2, 5, 20]) if rng.random() < 0.02 else 0
    return b"0" * zeros + str(number).encode()


def text_of(rng, words):
    parts = [gap(rng, 0)]
    for this in words:
        parts += [this, gap(rng, 1)]
    parts[-1] = gap(rng, 0)
    return b"".join(parts)


def list_words(rng, numbers):
    return [word(rng, number) for number in numbers(rng)]


def whole_text(rng, numbers):
    return text_of(rng, list_words(rng, numbers))


def strange_word_text(rng, numbers):
    words = list_words(rng, numbers)
    place = rng.randrange(len(words))
    words[place] = rng.choice(STRANGE_WORDS)
    return text_of(rng, words)


def changed_byte_text(rng, numbers):
    text = bytearray(whole_text(rng, numbers))
    if text:
        place = rng.randrange(len(text))
        text[place : place + rng.randint(0, 1)] = rng.choice([bytes([rng.randrange(256)]), b"", b" ", b"0", b"7"])
    return bytes(text)


def cut_off_text(rng, numbers):
    text = whole_text(rng, numbers)
    return text[: rng.randint(0, len(text))]


def too_many_words_text(rng, _numbers):
    """One word over the most, or more, and perhaps a strange one before, at or after that place."""
    words = [word(rng, rng.randrange(3)) for _ in range(MOST_WORDS + rng.choice([0, 1, 1, 2, 500]))]
    if rng.random() < 0.5:
        near = [0, MOST_WORDS - 2, MOST_WORDS - 1, MOST_WORDS, len(words) - 1]
        words[min(rng.choice(near), len(words) - 1)] = rng.choice(STRANGE_WORDS)
    return text_of(rng, words)


def byte_stream(rng, _numbers):
    alphabet = rng.choice([b" \t\n0123456789", b" 0123456789abc-+.", b"\n01", bytes(range(256))])
    return bytes(rng.choices(alphabet, k=rng.choice([0, 1, 2, 5, 40, 300, 9000])))


def make_text(rng, numbers):
    kinds = [whole_text, strange_word_text, changed_byte_text, cut_off_text, too_many_words_text, byte_stream]
    return rng.choices(kinds, [30, 25, 15, 10, 2, 18])[0](rng, numbers)


# Arguments of a program that prints pages. None holds a zero byte.


def page_word(rng):
    """A number that is often that of a page, or a word that is none."""
    strange = [this for this in STRANGE_WORDS if b"\0" not in this]
    numbers = [1, rng.randint(1, 4), rng.randint(1, 54), 0, 55, 65535]
    kinds = [*(word(rng, number) for number in numbers), rng.choice(strange)]
    return rng.choices(kinds, [35, 20, 10, 6, 4, 4, 21])[0]


def page_argument(rng):
    """One word, perhaps with blanks around it; or none, or several."""
    count = rng.choices([0, 1, 2, 3], [8, 84, 5, 3])[0]
    return text_of(rng, [page_word(rng) for _ in range(count)])


def page_arguments(rng):
    return [page_argument(rng) for _ in range(rng.choices([0, 1, 2], [15, 75, 10])[0])]


# Arguments of a program that works out charges: RUN COLUMN.. DISCOUNT.

# Words that are no number of 32 bits, or look as if they were none. A zero byte would end an argument.
STRANGE_PRICES = [
    *(this for this in STRANGE_WORDS if b"\0" not in this),
    b"", b" ", b" 1", b"1 ", b"1 1", b"1\n", b"\t1", b"4294967295", b"4294967297", b"4294967300", b"42949672950",
    b"0" * 5000 + b"4294967295", b"0" * 5000 + b"4294967296",
]


def price(rng):
    return rng.choice([0, 1, 49, 50, 51, rng.randrange(100), rng.randrange(10000), rng.randrange(2**32), 2**32 - 1])


def discount(rng):
    """Mostly one up to 100."""
    right = [0, 1, 50, 99, 100, rng.randint(0, 100)]
    wrong = [101, 102, 200, 256, 356, 65536, 65636, 2**32 - 1]
    return rng.choice(right if rng.random() < 0.9 else wrong)


def price_count(rng, columns):
    """Mostly one price for each column."""
    if rng.random() < 0.85:
        return columns
    return rng.choice([0, columns - 1, columns + 1, columns + 2, 127, 128, 129, 130, 300])


def price_arguments(rng, columns):
    """A price list, now and then with a strange word in it, or cut off after a few words."""
    numbers = [price(rng) for _ in range(1 + price_count(rng, columns))]
    words = [word(rng, number) for number in [*numbers, discount(rng)]]
    if rng.random() < 0.12:
        words[rng.randrange(len(words))] = rng.choice(STRANGE_PRICES)
    return words[: rng.randint(0, 2)] if rng.random() < 0.04 else words


# What the programs are given.


def often_whole_text(rng, numbers):
    return whole_text(rng, numbers) if rng.random() < 0.7 else make_text(rng, numbers)


def text_and_arguments(rng, program):
    if program == "planner":
        return make_text(rng, any_order), []
    if program == "checker":
        return often_whole_text(rng, any_table), []
    if program == "pages":
        return often_whole_text(rng, any_order), page_arguments(rng)
    made = any_order(rng)
    return often_whole_text(rng, lambda _rng: made), price_arguments(rng, made.columns)


def cut(rng, text):
    """Pieces of the text: now and then every byte of a short one, mostly a few."""
    if len(text) <= 60 and rng.random() < 0.3:
        places = range(1, len(text))
    else:
        places = sorted(rng.sample(range(1, max(len(text), 1)), min(rng.randint(0, 12), max(len(text) - 1, 0))))
    return [text[start:end] for start, end in zip([0, *places], [*places, len(text)])]


# The programs.


def unread(pipe):
    return struct.unpack("i", fcntl.ioctl(pipe, termios.FIONREAD, b"\0" * 4))[0]


def feed(pipe, pieces):
    """Writes the pieces, each when the one before has been read; gives up waiting if that takes long. How many had been read."""
    read = 0
    for piece in pieces:
        rest = memoryview(piece)
        while rest:
            rest = rest[os.write(pipe, rest) :]
        given_up = time.monotonic() + 0.2
        while unread(pipe) and time.monotonic() < given_up:
            os.sched_yield()
        read += not unread(pipe)
    return read


def output_in_pieces(command, pieces):
    """What the program prints, its exit status, and how many pieces it had read before the next. The output goes to a file, so that a program
    that prints before it has read everything does not wait for a reader."""
    with tempfile.TemporaryFile() as output:
        process = subprocess.Popen(command, stdin=subprocess.PIPE, stdout=output, bufsize=0)
        pieces_read = 0
        try:
            pieces_read = feed(process.stdin.fileno(), pieces)
        except BrokenPipeError:
            pass  # a program may stop reading when the answer is sure
        process.stdin.close()
        status = process.wait()
        output.seek(0)
        return output.read(), status, pieces_read


def kind_of(output):
    """By the first word, which is a number where an order is filled, a page printed or a sheet charged."""
    words = output.split(maxsplit=2)
    if words[:1] == [b"refused"]:
        return "refused " + words[1].decode()
    return "passes" if words[:1] == [b"passes"] else "filled"


def main():
    if len(sys.argv) not in (5, 6) or sys.argv[5:] not in ([], ["pages"], ["checker"], ["pricer"]):
        sys.exit("scan.py PROGRAM SECOND N SEED [pages|checker|pricer]")
    program, second = sys.argv[1:3]
    count, seed = map(int, sys.argv[3:5])
    kind_of_program = sys.argv[5] if len(sys.argv) == 6 else "planner"
    kinds = collections.Counter()
    differing = []
    pieces_written = pieces_read = 0
    for index in range(count):
        rng = random.Random(f"{seed} {index}")
        text, arguments = text_and_arguments(rng, kind_of_program)
        pieces = cut(rng, text)
        wanted = subprocess.run([second, *arguments], input=text, stdout=subprocess.PIPE, check=True).stdout
        output, status, read = output_in_pieces([program, *arguments], pieces)
        if (output, status) != (wanted, 0):
            differing.append(index)
        kinds[kind_of(wanted)] += 1
        pieces_written += len(pieces)
        pieces_read += read
    print(f"{count} texts tried in {pieces_written} pieces, of which {pieces_read} were read before the next was written")
    for kind, times in sorted(kinds.items()):
        print(f"  {kind}: {times}")
    print(f"{len(differing)} differ")
    for index in differing[:20]:
        print(f"  text {index}")
    sys.exit(1 if differing else 0)


main()
