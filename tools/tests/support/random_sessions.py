"""Random traces of sessions: honest and lying packets of files that come, change, lack symbols and expire."""

import base64
import copy
import hashlib
import itertools
import struct

from support.traces import MOMENT, record

TSI = 1
TOIS = (1, 2, 3, 7, 2**32, 2**64 + 1, 2**112 - 1)
# Lengths, symbol lengths and maximum source block lengths of great files, some of which are too great.
GREAT = ((2**28, 4096, 65_536), (2**28 + 1, 4096, 65_536), (2**28 - 1, 50_000, 1), (65_536, 1, 1), (65_537, 1, 1))
MD5_OF_NOTHING = hashlib.md5(b"").digest()


def header(chance, toi, extensions=b"", tsi=TSI, cp=0, closes=False):
    """An LCT header, of any of the widths that have room for its TSI and TOI."""
    def has_room(s, o, h):
        if s + h == 0 or tsi >= 1 << 32 * s + 16 * h:
            return False
        return o + h == 0 if toi is None else o + h > 0 and toi < 1 << 32 * o + 16 * h

    widths = [each for each in itertools.product((0, 1), range(4), (0, 1)) if has_room(*each)]
    s, o, h = chance.choice(widths)
    cci, times = chance.randrange(4), chance.randrange(4) if chance.random() < 0.2 else 0
    fields = tsi.to_bytes(4 * s + 2 * h, "big") + (toi or 0).to_bytes(4 * o + 2 * h, "big")
    fields += bytes(4 * bin(times).count("1"))
    if chance.random() < 0.1:
        extensions = chance.choice((b"\0\1\0\0", b"\1\2\0\0aaaa", b"\xc8\0\0\0")) + extensions
    words = (4 + 4 * (cci + 1) + len(fields) + len(extensions)) // 4
    flags = s << 7 | o << 5 | h << 4 | times << 2 | closes << 1 | (chance.random() < 0.05)
    return bytes([0x10 | cci << 2, flags, words, cp]) + bytes(4 * (cci + 1)) + fields + extensions


def fti_extension(length, symbol, last):
    return b"\x40\x04" + length.to_bytes(6, "big") + struct.pack(">HHL", 0, symbol, last)


class File:
    """A file under one description, and some of its packets."""

    def __init__(self, chance, toi):
        self.toi = toi
        self.symbol = chance.choice((1, 2, 3, 4, 7, 16, 100))
        self.data = chance.randbytes(chance.choice((0, 1, chance.randrange(12 * self.symbol), 4 * self.symbol)))
        self.most = chance.choice((1, 2, 3, 5, 64, 65_536))
        self.location = chance.choice(("a", "b/c.txt", "d e%", "\u00e9"))
        right = hashlib.md5(self.data).digest()
        self.md5 = chance.choice((None, None, right, right, MD5_OF_NOTHING))
        self.raptor = chance.random() < 0.05
        # How long it is said to be. No symbol of a file that is said to be longer comes.
        self.length = len(self.data)
        if chance.random() < 0.03:
            self.length, self.symbol, self.most = chance.choice(GREAT)

    def element(self, chance):
        """Its File element, in which an attribute is sometimes missing or bad."""
        attributes = {
            "TOI": self.toi,
            "Content-Location": self.location,
            "Content-Length": self.length,
            "FEC-OTI-FEC-Encoding-ID": int(self.raptor),
            "FEC-OTI-Maximum-Source-Block-Length": self.most,
            "FEC-OTI-Encoding-Symbol-Length": self.symbol,
        }
        if self.raptor:
            attributes["FEC-OTI-Scheme-Specific-Info"] = base64.b64encode(struct.pack(">HBB", 1, 1, 1)).decode()
        if self.md5:
            attributes["Content-MD5"] = base64.b64encode(self.md5).decode()
        if chance.random() < 0.2:
            attributes["Transfer-Length"] = self.length
        if chance.random() < 0.05:
            attributes[chance.choice(list(attributes))] = chance.choice(("", "x", "0", " 1 ", 1 << 60))
        if chance.random() < 0.03:
            del attributes[chance.choice(list(attributes))]
        if attributes.get("Content-MD5") in ("", "x", "0", " 1 ", 1 << 60):
            del attributes["Content-MD5"]
        if attributes.get("FEC-OTI-Scheme-Specific-Info") in ("", "x", "0", " 1 ", 1 << 60):
            del attributes["FEC-OTI-Scheme-Specific-Info"]
        return "<File" + "".join(f' {name}="{value}"' for name, value in attributes.items()) + "/>"

    def sizes(self):
        symbols = -(-len(self.data) // self.symbol)
        blocks = -(-symbols // self.most)
        return [symbols // blocks + (sbn < symbols % blocks) for sbn in range(blocks)]

    def extension(self, chance):
        length, symbol, most = len(self.data), self.symbol, self.most
        if chance.random() < 0.1:
            length, symbol, most = chance.choice(((length + 1, symbol, most), (length, 9, most), (length, symbol, 77)))
        return fti_extension(length, symbol, most)

    def packets(self, chance, lies):
        """Packets with all its symbols."""
        datagrams, first = [], 0
        if self.length > len(self.data):
            return datagrams
        for sbn, size in enumerate(self.sizes()):
            esi = 0
            while esi < size:
                count = min(chance.choice((1, 1, 1, 2, 3, 8)), size - esi)
                at = (first + esi) * self.symbol
                datagrams.append(self.packet(chance, sbn, esi, self.data[at : at + count * self.symbol], count, lies))
                esi += count
            first += size
        if chance.random() < lies:
            sbn, esi = chance.randrange(9), chance.randrange(9)
            datagrams.append(self.packet(chance, sbn, esi, chance.randbytes(self.symbol), 1, 1))
        return datagrams

    def packet(self, chance, sbn, esi, payload, count, lies):
        if chance.random() < 0.2:
            # A last symbol may have more bytes than the file, or all of them.
            padding = count * self.symbol - len(payload)
            payload += chance.randbytes(chance.choice((padding, chance.randrange(padding + 1))))
        cp, extensions = 0, b""
        if chance.random() < 0.1:
            extensions = self.extension(chance)
        if chance.random() < lies:
            what = chance.randrange(7)
            if what == 0:
                sbn += chance.choice((1, 65_535 - sbn))
            elif what == 1:
                esi += chance.choice((1, 5, 65_535 - esi))
                payload = chance.choice((payload, b""))
            elif what == 2:
                payload = payload[: chance.randrange(len(payload) + 1)]
            elif what == 3:
                payload = bytes(len(payload))
            elif what == 4:
                payload += chance.randbytes(chance.randrange(1, 3 * self.symbol))
            elif what == 5:
                cp = 1
            else:
                extensions += chance.choice((b"\xc1\1\0\0", struct.pack(">L", 0xC010_0000)))
        toi = self.toi if chance.random() > lies / 5 else chance.choice((9, 4, 1, 2))
        return header(chance, toi, extensions, cp=cp) + struct.pack(">HH", sbn, esi) + payload


def huge_files(chance):
    """Files that pass the limit on the bytes of symbols together, or that on the bytes of equations."""
    length, symbol, most, count = chance.choice(((2**28, 2**12, 64, 6), (2**16, 1, 1, 63)))
    files = [File(chance, toi) for toi in range(100, 100 + count)]
    for file in files:
        file.raptor, file.length, file.symbol, file.most = False, length, symbol, most
    return files


class Instance:
    """An FDT Instance, and its packets."""

    def __init__(self, chance, number, files):
        self.number = number
        self.expires = MOMENT + chance.choice((-1, 0, 0, 3, 9, 9, 30, 30, 30))
        self.files = files
        self.text = self.written(chance)
        self.symbol = chance.choice((40, 100, 150, 400, 1400, 1400, 65_535))
        self.most = chance.choice((1, 2, 5, 64, 2**32 - 1))
        if chance.random() < 0.08:
            self.text = self.text[:-1] + b"<"

    def twin(self, chance):
        """An instance under the same ID, whose text has as many bytes and differs in its Expires alone."""
        other = copy.copy(self)
        expires = str(MOMENT + chance.randrange(40)).encode()
        other.text = self.text.replace(str(self.expires).encode(), expires)
        return other

    def written(self, chance):
        root = f' Expires="{self.expires}"' if chance.random() > 0.03 else chance.choice(("", ' Expires="x"'))
        if chance.random() < 0.02:
            root += ' Content-Encoding="gzip"'
        elements = "".join(file.element(chance) for file in self.files)
        return f"<FDT-Instance{root}>{elements}</FDT-Instance>".encode()

    def packets(self, chance, lies):
        datagrams = []
        symbols = -(-len(self.text) // self.symbol)
        blocks = -(-symbols // self.most)
        sizes = [symbols // blocks + (sbn < symbols % blocks) for sbn in range(blocks)]
        place, has_all = 0, chance.random() < 0.7
        for sbn, size in enumerate(sizes):
            esi = 0
            while esi < size:
                count = min(chance.choice((1, 1, 1, 2, 9)), size - esi)
                piece = self.text[place * self.symbol : (place + count) * self.symbol]
                if chance.random() < 0.1:
                    piece += chance.randbytes(chance.randrange(count * self.symbol - len(piece) + 1))
                if len(piece) < 60_000:
                    datagrams.append(self.packet(chance, sbn, esi, piece, lies, has_all or place == 0))
                esi += count
                place += count
        return datagrams

    def packet(self, chance, sbn, esi, piece, lies, has_fti):
        length, symbol, most, cp, number = len(self.text), self.symbol, self.most, 0, self.number
        more = b""
        if chance.random() < lies:
            what = chance.randrange(11)
            if what == 0:
                length = chance.choice((0, length + 1, 65_536, 65_537))
            elif what == 1:
                symbol = chance.choice((0, 39))
            elif what == 2:
                most = chance.choice((0, 3))
            elif what == 3:
                cp = 1
            elif what == 4:
                more = chance.choice((b"\xc1\0\0\0", b"\xc1\3\0\0"))
            elif what == 5:
                has_fti = not has_fti
            elif what == 6:
                sbn += 1
            elif what == 7:
                esi += 1
                piece = chance.choice((piece, b""))
            elif what == 8:
                piece = piece[: chance.randrange(len(piece))]
            elif what == 9:
                number = None
            else:
                number += 1
        extensions = [] if number is None else [struct.pack(">L", 0xC010_0000 | number)]
        if has_fti:
            extensions.append(fti_extension(length, symbol, most))
        extensions = b"".join(chance.sample(extensions, len(extensions))) + more
        return header(chance, 0, extensions, cp=cp) + struct.pack(">HH", sbn, esi) + piece


def stray(chance):
    """A datagram that isn't of the session, or is no packet."""
    return chance.choice(
        (
            b"",
            b"\x10\xa0",
            chance.randbytes(chance.randrange(40)),
            bytes.fromhex("20a00400 00000000 00000001 00000005 00000000"),
            bytes.fromhex("10a00500 00000000 00000001 00000005 40000000 00000000 61"),
            bytes.fromhex("10a00402 00000000 00000001 00000005"),
            bytes.fromhex("10a00400 00000000 00000001 00000005 00"),
            bytes.fromhex("10a00500 00000000 00000001 00000005 c0200001"),
            bytes.fromhex("10a00500 00000000 00000001 00000005 40040000"),
            bytes.fromhex("10a00500 00000000 00000001 00000005 40010000"),
            bytes.fromhex("10200300 00000000 00000005"),
            bytes.fromhex("10a00300 00000000 00000001 00000005"),
            header(chance, 5, tsi=chance.choice((2, 2**40))) + bytes(5),
            header(chance, None) + chance.choice((b"", bytes(9))),
            header(chance, chance.choice((0, 1, 5))),
        )
    )


def session_of(chance):
    """The records of a trace."""
    lies = chance.choice((0, 0, 0.05, 0.3))
    files = [File(chance, chance.choice(TOIS)) for _ in range(chance.randrange(1, 7))]
    if chance.random() < 0.02:
        files += huge_files(chance)
    # More instances than the window has slots.
    many = chance.random() < 0.1
    instances = []
    for number in range(1, chance.randrange(20, 28) if many else chance.randrange(2, 5)):
        described = chance.sample(files, chance.randrange(len(files) + 1))
        instances.append(Instance(chance, chance.choice((number, number, 1, 2**20 - 1 - number)), described))
    if many:
        for each in instances:
            each.symbol = chance.choice((100, 150, 400))
    instances += [each.twin(chance) for each in instances if chance.random() < 0.1]
    first = [datagram for each in instances for datagram in each.packets(chance, lies)]
    second = [datagram for each in files for datagram in each.packets(chance, lies)]
    for _ in range(chance.choice((0, 1, 3))):
        second.append(stray(chance))
    repeated = [datagram for datagram in first + second if chance.random() < 0.3]
    lost = chance.choice((0, 0, 0.1, 0.4))
    order = chance.choice((0, 2, 2)) if many else chance.randrange(4)
    if order == 0:
        chance.shuffle(first)
    if order == 1:
        chance.shuffle(second)
    datagrams = first + second + repeated
    if order == 2:
        chance.shuffle(datagrams)
    datagrams = [datagram for datagram in datagrams if chance.random() >= lost]
    if chance.random() < 0.1:
        toi = chance.choice((None, 0, 1, 2))
        place = chance.randrange(len(datagrams) + 1)
        datagrams.insert(place, header(chance, toi, closes=True) + (b"" if toi is None else bytes(5)))
    return [record(moment, datagram) for moment, datagram in timed(chance, datagrams)]


def timed(chance, datagrams):
    moment, pace = MOMENT, chance.choice((0, 0, 0.05, 0.3))
    for datagram in datagrams:
        if chance.random() < pace:
            moment += chance.choice((1, 1, 2, 5, -3))
        yield moment, datagram


def trace_of(chance):
    """A trace, which is cut now and then."""
    trace = b"".join(session_of(chance))
    return trace[: chance.randrange(len(trace) + 1)] if chance.random() < 0.05 else trace
