"""`mbms_rx` with files under Raptor: a file is stored exactly where a plain elimination says that its blocks are determined.

The code is that of plain definitions in `support/raptor.py`.
"""

import base64
import os
import random
import unittest

from support import raptor
from support.programs import (
    DONE,
    INCOMPLETE,
    READ_FAULT,
    TABLES,
    ProgramTest,
    fdt_line,
    receive_words,
)

MOMENT = 3_899_999_000
T = 4
# Sets of ESIs of each block size.
SETS = int(os.environ.get("MBMS_SETS", "90"))
# Files of a session. Their descriptions are in several instances.
FILES, DESCRIBED = 800, 400


def record(datagram):
    return MOMENT.to_bytes(6, "big") + len(datagram).to_bytes(2, "big") + datagram


def words(*values):
    return b"".join(value.to_bytes(4, "big") for value in values)


class File:
    """A file under Raptor, and what is heard of it."""

    def __init__(self, toi, content, t=T, z=1, n=1, al=4):
        self.toi, self.content, self.t, self.z, self.n, self.al = toi, content, t, z, n, al
        self.heard = []

    def element(self):
        scheme = self.z.to_bytes(2, "big") + bytes([self.n, self.al])
        return (
            f'<File TOI="{self.toi}" Content-Location="f{self.toi}" Content-Length="{len(self.content)}"'
            f' FEC-OTI-Encoding-Symbol-Length="{self.t}"'
            f' FEC-OTI-Scheme-Specific-Info="{base64.b64encode(scheme).decode()}"/>'
        )

    def sizes(self):
        """The numbers of source symbols of its blocks."""
        count = -(-len(self.content) // self.t)
        small, larger = divmod(count, self.z)
        return [small + 1] * larger + [small] * (self.z - larger)

    def symbols(self, sbn):
        """The source symbols of a block, through its sub-blocks (RFC 5053 section 5.3.1.2)."""
        sizes = self.sizes()
        whole = self.content + bytes(-len(self.content) % self.t)
        k = sizes[sbn]
        start = sum(sizes[:sbn]) * self.t
        block = whole[start : start + k * self.t]
        units, larger = divmod(self.t // self.al, self.n)
        lengths = [(units + 1) * self.al] * larger + [units * self.al] * (self.n - larger)
        found, at = [b""] * k, 0
        for length in lengths:
            for i in range(k):
                found[i] += block[at + i * length : at + (i + 1) * length]
            at += k * length
        return found

    def packet(self, sbn, esi, payload):
        return record(words(0x10A00401, 0, 1, self.toi, sbn << 16 | esi) + payload)


def instance(number, files):
    """The packets of an FDT Instance, in symbols of 1,400 bytes."""
    elements = "".join(file.element() for file in files)
    text = f'<FDT-Instance Expires="3900000000" FEC-OTI-FEC-Encoding-ID="1">{elements}</FDT-Instance>'.encode()
    block = -(-len(text) // 1400)
    head = words(0x10A00900, 0, 1, 0, 0xC0100000 | number) + b"\x40\x04" + len(text).to_bytes(6, "big") + b"\0\0"
    head += (1400).to_bytes(2, "big") + words(block)
    return b"".join(record(head + words(esi) + text[1400 * esi : 1400 * esi + 1400]) for esi in range(block))


def made_tables(ks):
    """Tables of random numbers in which each of these K is usable."""
    chance = random.Random(5)
    v0, v1 = ([chance.randrange(1 << 32) for _ in range(256)] for _ in range(2))
    rows = []
    for k in ks:
        j = 0
        while not raptor.is_usable(raptor.Tables(v0, v1, []), raptor.row_of(k, j)):
            j += 1
        rows.append(raptor.row_of(k, j))
    return raptor.Tables(v0, v1, rows)


def bytes_of(tables):
    numbers = b"".join(word.to_bytes(4, "big") for word in tables.v0 + tables.v1)
    fields = b"".join(field.to_bytes(2, "big") for row in tables.rows for field in row)
    return b"RAPTAB01" + numbers + len(tables.rows).to_bytes(2, "big") + fields


class RaptorSessions(ProgramTest):
    def setUp(self):
        super().setUp()
        self.tables = os.path.join(self.room, "tables")

    def received(self, tables, trace):
        with open(self.tables, "wb") as file:
            file.write(tables)
        return self.called(receive_words(tables=self.tables), trace)

    def drawn(self, tables):
        """Files of each size, each with a random set of ESIs in random order, and repeats."""
        chance = random.Random(9)
        toi = 0
        for row in tables.rows:
            for _ in range(SETS):
                toi += 1
                file = File(toi, chance.randbytes(row.k * T - chance.randrange(T)))
                encoder = raptor.Encoder(tables, row, file.symbols(0))
                source = chance.sample(range(row.k), chance.randrange(row.k + 1))
                repair = [chance.randrange(row.k, 65536) for _ in range(row.k - len(source) + chance.randrange(-1, 4))]
                drawn = source + repair
                file.heard = drawn + chance.choices(drawn, k=2) if drawn else []
                chance.shuffle(file.heard)
                file.pairs = [(esi, encoder.symbol(esi)) for esi in file.heard]
                yield row, file

    def test_a_file_is_stored_exactly_where_it_is_determined(self):
        tables = made_tables(range(4, 41))
        drawn = list(self.drawn(tables))
        counts = [0, 0]
        for first in range(0, len(drawn), FILES):
            part = drawn[first : first + FILES]
            trace = b"".join(
                instance(1 + at // DESCRIBED, [file for _, file in part[at : at + DESCRIBED]])
                for at in range(0, len(part), DESCRIBED)
            )
            packets = [file.packet(0, esi, symbol) for _, file in part for esi, symbol in file.pairs]
            random.Random(first).shuffle(packets)
            ended = self.received(bytes_of(tables), trace + b"".join(packets))
            stored, missing = {}, []
            for row, file in part:
                elimination = raptor.Elimination(tables, row)
                for esi, symbol in file.pairs:
                    elimination.hear(esi, symbol)
                if elimination.missing() == 0:
                    stored[file.toi] = file.content
                else:
                    missing.append(f"incomplete {file.toi} {elimination.missing()}")
            counts[0] += len(stored)
            counts[1] += len(missing)
            self.assertEqual((ended.told, ended.status), ("", INCOMPLETE if missing else DONE))
            lines = ended.lines.splitlines()
            self.assertEqual([line for line in lines if line.startswith("incomplete")], missing)
            self.assertEqual(sorted(line for line in lines if line.startswith("stored")),
                             sorted(f"stored {toi} {len(content)} f{toi}" for toi, content in stored.items()))
            self.has_files(stored)
            for name in stored:
                os.remove(os.path.join(self.folder, str(name)))
        # Both are many.
        self.assertGreater(min(counts), len(drawn) // 20)

    def test_blocks_of_two_sizes_and_sub_blocks(self):
        tables = made_tables([4, 5, 6, 13, 14])
        chance = random.Random(3)
        for t, z, n, al, length in ((12, 3, 2, 4, 157), (20, 1, 3, 4, 271), (16, 2, 1, 8, 430), (7, 2, 7, 1, 70)):
            with self.subTest((t, z, n, al, length)):
                file = File(1, chance.randbytes(length), t, z, n, al)
                rows = {row.k: row for row in tables.rows}
                packets = []
                for sbn, k in enumerate(file.sizes()):
                    encoder = raptor.Encoder(tables, rows[k], file.symbols(sbn))
                    elimination, esi = raptor.Elimination(tables, rows[k]), chance.randrange(1, k)
                    while elimination.missing():
                        # Two symbols in a packet, across K.
                        pair = encoder.symbol(esi), encoder.symbol(esi + 1)
                        elimination.hear(esi, pair[0])
                        elimination.hear(esi + 1, pair[1])
                        packets.append(file.packet(sbn, esi, b"".join(pair)))
                        esi += 2
                chance.shuffle(packets)
                trace = instance(1, [file]) + b"".join(packets)
                ended = self.received(bytes_of(tables), trace)
                self.assertEqual((ended.told, ended.status), ("", DONE))
                self.has_files({1: file.content})
                os.remove(os.path.join(self.folder, "1"))

    def test_a_size_without_a_row(self):
        tables = made_tables([4])
        ended = self.received(bytes_of(tables), instance(1, [File(1, bytes(20)), File(2, bytes(16))]))
        lines = fdt_line(1, norow=1) + f"end ended {MOMENT} datagrams 1\nincomplete 2 4\n"
        self.is_ended(ended, INCOMPLETE, lines)
        ended = self.called(receive_words(), instance(1, [File(1, bytes(20)), File(2, bytes(16))]))
        self.is_ended(ended, DONE, fdt_line(0, norow=2) + f"end ended {MOMENT} datagrams 1\n")

    def test_tables_of_zeros_store_nothing_wrong(self):
        """All source symbols of a block are heard, and they determine nothing but what they are."""
        tables = raptor.Tables([0] * 256, [0] * 256, [raptor.row_of(k, 0) for k in range(4, 41)])
        chance = random.Random(4)
        files = [File(row.k, chance.randbytes(row.k * T)) for row in tables.rows]
        packets = [file.packet(0, 0, file.content) for file in files]
        ended = self.received(bytes_of(tables), instance(1, files) + b"".join(packets))
        missing = []
        for row, file in zip(tables.rows, files):
            elimination = raptor.Elimination(tables, row)
            for esi, symbol in enumerate(file.symbols(0)):
                elimination.hear(esi, symbol)
            missing.append(f"incomplete {file.toi} {elimination.missing()}\n")
            self.assertGreater(elimination.missing(), 0)
        self.assertEqual((ended.told, ended.status), ("", INCOMPLETE))
        self.assertEqual(ended.lines[ended.lines.index("incomplete") :], "".join(missing))
        self.has_files({})

    def test_files_that_are_no_tables(self):
        good = bytes_of(made_tables([4]))
        for content, line in (
            (b"", "tables 2 0"),
            (b"RAPTAB02" + good[8:], "tables 1"),
            (good[:-1], f"tables 2 {len(good) - 1}"),
            (good + b"\0", "tables 5"),
        ):
            with self.subTest(line):
                self.is_ended(self.received(content, b""), TABLES, line + "\n")

    def test_tables_that_cannot_be_read(self):
        for name in (self.tables, self.room):
            with self.subTest(name):
                self.is_ended(self.called(receive_words(tables=name), b""), READ_FAULT, "")


if __name__ == "__main__":
    unittest.main()
