"""The Raptor code of RFC 5053 and its tables file, by plain definitions.

The texts that are made here have the layout of the RFC, and random numbers.
"""

import bisect
import hashlib
import itertools
import random
import textwrap
from collections import namedtuple

ALL_K = range(4, 8193)

# The numbers that a text gives. The first of J is that of the K 4.
Numbers = namedtuple("Numbers", "v0 v1 indices")
Row = namedtuple("Row", "k j s lp")
Tables = namedtuple("Tables", "v0 v1 rows")


# S, H, L and L' (RFC 5053 sections 5.4.2.3 and 5.4.4.4).


def primes_below(end):
    crossed = set()
    for number in range(2, end):
        if number not in crossed:
            yield number
            crossed.update(range(2 * number, end, number))


PRIMES = list(primes_below(10_000))
# Pascal's triangle: in how many ways so many of so many are chosen.
WAYS = [[1]]
while len(WAYS) < 20:
    WAYS.append([left + right for left, right in zip([0] + WAYS[-1], WAYS[-1] + [0])])


def least_s(k):
    """What S is at least: ceil(K/100) + X."""
    x = 1
    while x * (x - 1) < 2 * k:
        x += 1
    return -(-k // 100) + x


def h_of(k, s):
    h = 0
    while WAYS[h][-(-h // 2)] < k + s:
        h += 1
    return h


def prime_from(least):
    return PRIMES[bisect.bisect_left(PRIMES, least)]


def row_of(k, j):
    s = prime_from(least_s(k))
    return Row(k, j, s, prime_from(k + s + h_of(k, s)))


# The tables file.


def file_of(numbers, ks=ALL_K):
    """The file that has these numbers, with the rows of these K."""
    rows = [row_of(k, numbers.indices[k - 4]) for k in ks]
    words = b"".join(word.to_bytes(4, "big") for word in numbers.v0 + numbers.v1)
    fields = b"".join(field.to_bytes(2, "big") for row in rows for field in row)
    return b"RAPTAB01" + words + len(rows).to_bytes(2, "big") + fields


def read(content):
    """The tables of a file: it is one that the crate `mb_tables` reads (its specs/Limits.antt and Tables.antt)."""
    words = [int.from_bytes(content[place : place + 4], "big") for place in range(8, 2056, 4)]
    fields = [int.from_bytes(content[place : place + 2], "big") for place in range(2056, len(content), 2)]
    rows = [Row(*fields[place : place + 4]) for place in range(1, len(fields), 4)]
    if content[:8] != b"RAPTAB01" or fields[0] != len(rows) or len(content) != 2058 + 8 * len(rows):
        raise AssertionError(f"no tables file of {len(rows)} rows: {content[:8]!r} and {len(content)} bytes")
    for before, row in zip([Row(3, 0, 0, 0)] + rows, rows):
        size = row.k + row.s + h_of(row.k, row.s)
        if not (before.k < row.k <= 8192 and least_s(row.k) <= row.s <= 512 and size <= row.lp < 2 * size):
            raise AssertionError(f"a row out of order or outside its limits: {row} behind {before}")
    return Tables(words[:256], words[256:], rows)


# The code. A row of its matrix is a number with a bit for each intermediate symbol.

DEGREES = ((10241, 1), (491582, 2), (712794, 3), (831695, 4), (948446, 10), (1032189, 11), (1048576, 40))


def random_word(tables, y, i, m):
    return (tables.v0[(y + i) % 256] ^ tables.v1[(y // 256 + i) % 256]) % m


def encoding_row(tables, row, size, x):
    """The intermediate symbols in the symbol with ESI X (sections 5.4.4.1 to 5.4.4.4)."""
    y = (10267 * (row.j + 1) + x * (53591 + row.j * 997)) % 65521
    v = random_word(tables, y, 0, 1 << 20)
    degree = next(degree for bound, degree in DEGREES if v < bound)
    a, b = 1 + random_word(tables, y, 1, row.lp - 1), random_word(tables, y, 2, row.lp)
    bits = 0
    for number in range(min(degree, size)):
        if number:
            b = (b + a) % row.lp
        while b >= size:
            b = (b + a) % row.lp
        bits ^= 1 << b
    return bits


def constraint_rows(row, h):
    """The LDPC and the half constraints (section 5.4.2.3)."""
    k, s = row.k, row.s
    rows = [1 << (k + number) for number in range(s + h)]
    for i in range(k):
        a, b = 1 + i // s % (s - 1), i % s
        for place in (b, (b + a) % s, (b + 2 * a) % s):
            rows[place] ^= 1 << i
    gray = (i ^ i >> 1 for i in itertools.count(1))
    chosen = (word for word in gray if bin(word).count("1") == (h + 1) // 2)
    for i, word in zip(range(k + s), chosen):
        for bit in range(h):
            rows[s + bit] ^= (word >> bit & 1) << i
    return rows


def is_usable(tables, row):
    """Whether the source symbols of a block of K give its intermediate symbols (section 5.7)."""
    h = h_of(row.k, row.s)
    size = row.k + row.s + h
    reduced = {}
    for bits in constraint_rows(row, h) + [encoding_row(tables, row, size, x) for x in range(row.k)]:
        while bits and bits.bit_length() in reduced:
            bits ^= reduced[bits.bit_length()]
        if not bits:
            return False
        reduced[bits.bit_length()] = bits
    return True


class Elimination:
    """Rows of a block's equations, each with the value that its symbols sum to, as far as they are independent."""

    def __init__(self, tables, row):
        self.tables, self.row = tables, row
        h = h_of(row.k, row.s)
        self.size = row.k + row.s + h
        self.reduced = {}
        for bits in constraint_rows(row, h):
            self.add(bits, 0)

    def add(self, bits, value):
        """Whether the row is no sum of those before it."""
        while bits and bits.bit_length() in self.reduced:
            other, sum_of_other = self.reduced[bits.bit_length()]
            bits ^= other
            value ^= sum_of_other
        if bits:
            self.reduced[bits.bit_length()] = bits, value
        return bool(bits)

    def hear(self, esi, symbol):
        return self.add(encoding_row(self.tables, self.row, self.size, esi), int.from_bytes(symbol, "big"))

    def missing(self):
        """How many symbols must come at least until the block is determined."""
        return self.size - len(self.reduced)

    def intermediate(self):
        """The intermediate symbols of a block that is determined, as numbers."""
        values = []
        for place in range(self.size):
            bits, value = self.reduced[place + 1]
            for lower in range(place):
                if bits >> lower & 1:
                    value ^= values[lower]
            values.append(value)
        return values


class Encoder:
    """The encoding symbols of a block whose size is usable."""

    def __init__(self, tables, row, symbols):
        self.tables, self.row, self.length = tables, row, len(symbols[0])
        elimination = Elimination(tables, row)
        for esi, symbol in enumerate(symbols):
            elimination.hear(esi, symbol)
        self.size, self.values = elimination.size, elimination.intermediate()

    def symbol(self, esi):
        bits, value = encoding_row(self.tables, self.row, self.size, esi), 0
        for place in range(self.size):
            if bits >> place & 1:
                value ^= self.values[place]
        return value.to_bytes(self.length, "big")


# Texts in the layout of the RFC.

TITLE = "Request for Comments: 5053                              Nobody at all"
HEADINGS = (
    "5.6.1.  The Table V0",
    "5.6.2.  The Table V1",
    "5.7.  Systematic Indices J(K)",
    "6.  Security Considerations",
)
PAGE_HEAD = "RFC 5053                   Raptor FEC Scheme                October 2007"
PAGE_FOOT = "Luby, et al.                Standards Track"


def random_numbers():
    chance = random.Random(5053)
    words = [chance.randrange(1 << 32) for _ in range(512 - 4)]
    edges = [0, (1 << 32) - 1]
    indices = [chance.randrange(6000) for _ in ALL_K[2:]]
    return Numbers(edges + words[:254], words[254:] + edges, [0, *indices, 65535])


def digest_of(numbers):
    return hashlib.sha256(b"".join(number.to_bytes(4, "big") for number in numbers)).hexdigest()


def indented(text):
    return textwrap.wrap(text, 72, initial_indent="   ", subsequent_indent="   ", break_long_words=False)


def listed(numbers):
    return indented(", ".join(str(number) for number in numbers))


def lines_of(v0, v1, indices):
    """The lines of a text with these lists, without pages."""
    contents = [f"     {heading} . . . . {page}" for page, heading in enumerate(HEADINGS, 28)]
    words = indented("Of 2 tables, V0 and V1, each has 256 numbers of 32 bits, and Section 5.4.4.1 takes 2 of them.")
    sentences = [*indented("For each K, the index J(K) is such that (d[0], a[0], b[0]), ..., are good."), ""]
    sentences += indented("The list is that for values of K between 4 and 8192 inclusive.")
    parts = (v0, v1, [*sentences, "", *indices], indented("Whoever sends packets may send wrong ones, as in 2007."))
    lines = ["", "", TITLE, "", "Table of Contents", "", *contents, "", "5.6.  Random Numbers", "", *words, ""]
    for heading, part in zip(HEADINGS, parts):
        lines += [heading, "", *part, ""]
    return lines


def paged(lines, length=48):
    """The lines in pages of that length, each with its head, its foot and a form feed."""
    result = []
    for place in range(0, len(lines), length):
        head = [PAGE_HEAD, "", ""] if place else []
        foot = f"{PAGE_FOOT}{f'[Page {place // length + 1}]':>29}"
        result += [*head, *lines[place : place + length], "", "", "", foot, "\f"]
    return result


def bytes_of(lines, end="\n"):
    return "".join(line + end for line in lines).encode("utf-8")


def text_of(numbers):
    return bytes_of(paged(lines_of(*(listed(part) for part in numbers))))
