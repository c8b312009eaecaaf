"""`mbms_tab` with tables: what `make` writes, and what `check` says of that and of other files.

The code and its tables are those of plain definitions in `support/raptor.py`.
"""

import os
import unittest

from support import raptor
from support.programs import DONE, TABLES, USAGE, ProgramTest, check_words, make_words, path_of

MASK = (1 << 32) - 1
NUMBERS = raptor.random_numbers()


def word(i):
    """Number i of the sequence that the seed 1 begins."""
    z = (1 + i * 0x9E3779B9) & MASK
    z = (z ^ z >> 16) * 0x85EBCA6B & MASK
    z = (z ^ z >> 13) * 0xC2B2AE35 & MASK
    return z ^ z >> 16


def made_row(k, j):
    s = raptor.least_s(k) | 1
    return raptor.Row(k, j, s, k + s + raptor.h_of(k, s) | 1)


def line_of(row, usable):
    return f"row {row.k} {row.j} {row.s} {row.lp} {'usable' if usable else 'unusable'}\n"


class MadeTables(ProgramTest):
    def made(self, *ks, **how):
        ended = self.written(make_words(*ks), **how)
        self.assertEqual((ended.told, ended.status), ("", DONE))
        return ended.lines

    def test_each_row_has_the_least_j(self):
        ks = [4, 5, 6, 7, 8, 10, 11, 64, 100, 250, 1000]
        file = self.made(*ks)
        tables = raptor.read(file)
        self.assertEqual((tables.v0, tables.v1), ([word(i) for i in range(256)], [word(i) for i in range(256, 512)]))
        self.assertEqual([row.k for row in tables.rows], ks)
        for row in tables.rows:
            self.assertEqual(row, made_row(row.k, row.j))
            usable = [j for j in range(row.j + 1) if raptor.is_usable(tables, made_row(row.k, j))]
            self.assertEqual(usable, [row.j])
        self.is_ended(self.called(check_words(), file), DONE, "".join(line_of(row, True) for row in tables.rows))

    def test_the_largest_block(self):
        file = self.made("08192")
        rows = raptor.read(file).rows
        self.assertEqual(rows, [made_row(8192, rows[0].j)])
        self.is_ended(self.called(check_words(), file), DONE, line_of(rows[0], True))

    def test_nothing_is_read(self):
        closed = ["sh", "-c", 'exec "$@" <&-', "sh", *make_words(4)]
        self.assertEqual(self.written(closed)[:2], (DONE, self.made(4)))

    def test_refused_arguments(self):
        for words in (["make"], ["make", "3"], ["make", "8193"], ["make", "5", "4"], ["make", "+4"], ["check", "x"]):
            with self.subTest(words):
                self.is_ended(self.called([path_of("mbms_tab"), *words]), USAGE, "usage\n")


class CheckedTables(ProgramTest):
    def test_each_row_is_usable_or_not(self):
        """Of random numbers some rows are usable and some are not."""
        tables = raptor.read(raptor.file_of(NUMBERS, range(4, 204)))
        answers = [raptor.is_usable(tables, row) for row in tables.rows]
        self.assertEqual({True, False}, set(answers))
        lines = "".join(map(line_of, tables.rows, answers))
        self.is_ended(self.called(check_words(), raptor.file_of(NUMBERS, range(4, 204))), DONE, lines)

    def test_each_place_of_a_cut(self):
        file = raptor.file_of(NUMBERS, [4, 9])
        for size in (0, 7, 8, 1031, 2057, 2058, 2059, 2065, 2066, 2073):
            with self.subTest(size):
                self.is_ended(self.called(check_words(), file[:size]), TABLES, f"tables 2 {size}\n")

    def test_other_files_that_are_refused(self):
        file = raptor.file_of(NUMBERS, [4, 9])
        for bytes_given, line in (
            (b"RAPTAB02" + file[8:], "tables 1"),
            (file[:2066] + file[2058:2066], "tables 3 1"),
            (file[:2066] + b"\xff" + file[2067:], "tables 4 1 0"),
            (file[:2062] + bytes(4) + file[2066:], "tables 4 0 2"),
            (file[:2064] + bytes(2) + file[2066:], "tables 4 0 3"),
            (file + b"\0", "tables 5"),
        ):
            with self.subTest(line):
                self.is_ended(self.called(check_words(), bytes_given), TABLES, line + "\n")


class Progress(ProgramTest):
    def test_it_is_told_on_a_terminal(self):
        main, terminal = os.openpty()
        self.addCleanup(os.close, main)
        self.written(make_words(4, 5), stderr=terminal)
        os.close(terminal)
        self.assertEqual(os.read(main, 100), b"1 of 2\r2 of 2\r\n")


if __name__ == "__main__":
    unittest.main()
