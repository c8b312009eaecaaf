"""The receiver as a plain machine over lists, written apart from the program.

It keeps every symbol in a list of pairs and works out everything anew, so it is slow and short. Of texts of FDT
Instances it reads those that `random_sessions` writes, and raises `Unread` for others.
"""

import base64
import functools
import hashlib
import re
import struct
from collections import namedtuple

REASONS = (
    "closed othersession notoi nobody fdtwithoutids fdtencoded fdtshape unknown ftidiffers codepointdiffers block"
    " symbol length done"
).split()
FAULTS = (
    "short version headerlength notsi overrun zerolength ftilength fluteversion codepoint nopayloadid"
).split()
LIVES_MOST, NEEDED_MOST, SLOTS_MOST = 1024, 1 << 30, 16

Fti = namedtuple("Fti", "length symbol last")
Packet = namedtuple("Packet", "tsi toi closes cp fdt fti cenc sbn esi payload")
Desc = namedtuple("Desc", "location length symbol scheme md5")


class Unread(Exception):
    """A text that isn't of the kind that is read here."""


class Fault(Exception):
    """A datagram that is no packet, with its word."""


def ceiling(number, by):
    return -(-number // by)


def number(data):
    return int.from_bytes(data, "big")


# Packets (RFC 3450 section 2, RFC 3451 section 5, RFC 3926 sections 3.4 and 5.1).


def packet_of(data):
    if len(data) < 4 or len(data) < 4 * data[2]:
        raise Fault("short")
    if data[0] >> 4 != 1:
        raise Fault("version")
    half = data[1] >> 4 & 1
    cci = 4 * ((data[0] >> 2 & 3) + 1)
    tsi_bytes, toi_bytes = 4 * (data[1] >> 7) + 2 * half, 4 * (data[1] >> 5 & 3) + 2 * half
    fixed = 4 + cci + tsi_bytes + toi_bytes + 4 * (data[1] >> 3 & 1) + 4 * (data[1] >> 2 & 1)
    end = 4 * data[2]
    if end < fixed:
        raise Fault("headerlength")
    if tsi_bytes == 0:
        raise Fault("notsi")
    at = 4 + cci
    tsi = number(data[at : at + tsi_bytes])
    toi = number(data[at + tsi_bytes : at + tsi_bytes + toi_bytes]) if toi_bytes else None
    fdt, fti, cenc = extensions_of(data[fixed:end])
    if data[3] > 1:
        raise Fault("codepoint")
    rest = data[end:]
    if 0 < len(rest) < 4:
        raise Fault("nopayloadid")
    body = (number(rest[:2]), number(rest[2:4]), rest[4:]) if rest else (None, None, None)
    return Packet(tsi, toi, bool(data[1] & 2), data[3], fdt, fti, cenc, *body)


def extensions_of(area):
    """The content of the first extension of each kind."""
    fdt = fti = cenc = None
    while area:
        kind, words = area[0], area[1] if area[0] < 128 else 1
        if words == 0:
            raise Fault("zerolength")
        if 4 * words > len(area):
            raise Fault("overrun")
        if kind == 64:
            if words != 4:
                raise Fault("ftilength")
            if fti is None:
                fti = Fti(number(area[2:8]), number(area[10:12]), area[12:16])
        if kind == 192:
            if area[1] >> 4 != 1:
                raise Fault("fluteversion")
            if fdt is None:
                fdt = number(area[1:4]) & 0xFFFFF
        if kind == 193 and cenc is None:
            cenc = area[1]
        area = area[4 * words :]
    return fdt, fti, cenc


# Descriptions and their blocks.


def symbols_of(desc):
    return ceiling(desc.length, desc.symbol)


@functools.lru_cache
def sizes_of(desc):
    """How many symbols each block has (RFC 3926 section 5.1.2.3)."""
    symbols = symbols_of(desc)
    blocks = desc.scheme[1] if desc.scheme[0] else ceiling(symbols, desc.scheme[1])
    return [symbols // blocks + (sbn < symbols % blocks) for sbn in range(blocks)]


def is_good(desc):
    if desc.length > 1 << 28 or desc.symbol == 0 or 0 in desc.scheme[1:]:
        return False
    if desc.scheme[0] and (desc.symbol % desc.scheme[3] or desc.scheme[2] > desc.symbol // desc.scheme[3]):
        return False
    if (desc.scheme[1] if desc.scheme[0] else ceiling(ceiling(desc.length, desc.symbol), desc.scheme[1])) > 65_536:
        return False
    least, most = (4, 8192) if desc.scheme[0] else (1, 65_536)
    return all(least <= size <= most for size in sizes_of(desc))


def plain(desc):
    return symbols_of(desc) * desc.symbol


@functools.lru_cache
def equations(desc):
    """Under Compact No-Code, the only scheme under which a life starts."""
    return sum(256 + 8 * ceiling(size, 64) for size in sizes_of(desc))


def md5(data):
    return hashlib.md5(data).digest()


# Texts.

ATTRIBUTES = rb'(?: [-A-Za-z0-9]+="[^"&<]*")*'
ROOT = re.compile(rb"<FDT-Instance(%b)>((?:<File%b/>)*)</FDT-Instance>" % (ATTRIBUTES, ATTRIBUTES))
ELEMENT = re.compile(rb"<File(%b)/>" % ATTRIBUTES)
ATTRIBUTE = re.compile(rb' ([-A-Za-z0-9]+)="([^"]*)"')
OTI = b"FEC-OTI-"


def attributes_of(tag):
    pairs = ATTRIBUTE.findall(tag)
    if len(dict(pairs)) != len(pairs):
        raise Unread(tag)
    return dict(pairs)


def number_below(value, most):
    """The number that the value is, if it is one."""
    value = value.strip(b" \t\r\n")
    return int(value) if re.fullmatch(rb"[0-9]+", value) and int(value) < most else None


def fdt_of(text):
    """When the instance expires, and of each File element its TOI and its description, or None where it has none; or
    the fault of the text and its place."""
    # A text whose last byte is another is one with that fault, unless its root has one before.
    is_spoiled = text[-1:] == b"<"
    found = ROOT.fullmatch(text[:-1] + b">" if is_spoiled else text)
    if not found:
        raise Unread(text)
    root, files = attributes_of(found.group(1)), [attributes_of(tag) for tag in ELEMENT.findall(found.group(2))]
    if b"Expires" not in root:
        return "fault", 5, 0
    expires = number_below(root[b"Expires"], 1 << 32)
    if expires is None:
        return "fault", 6, 0
    if is_spoiled:
        return "fault", 2, len(text) - 1
    return "read", expires, [entry_of(root, file) for file in files]


def entry_of(root, file):
    oti = {name: value for name, value in root.items() if name.startswith(OTI)}
    file = {**oti, **file}
    bad = []

    def read(name, most):
        if name not in file:
            return None
        bad.append(number_below(file[name], most) is None)
        return number_below(file[name], most)

    toi = read(b"TOI", 1 << 112)
    bad.append(toi == 0)
    content, transfer = read(b"Content-Length", 1 << 64), read(b"Transfer-Length", 1 << 64)
    kind = read(OTI + b"FEC-Encoding-ID", 1 << 8)
    symbol, scheme = None, None
    if kind == 0:
        symbol, most = (
            read(OTI + b"Encoding-Symbol-Length", 1 << 16),
            read(OTI + b"Maximum-Source-Block-Length", 1 << 32),
        )
        scheme = None if most is None else (0, most)
    if kind == 1:
        symbol = read(OTI + b"Encoding-Symbol-Length", 1 << 16)
        if OTI + b"Scheme-Specific-Info" in file:
            scheme = (1, *struct.unpack(">HBB", base64.b64decode(file[OTI + b"Scheme-Specific-Info"])))
    digest = base64.b64decode(file[b"Content-MD5"]) if b"Content-MD5" in file else None
    location = file.get(b"Content-Location")
    lengths = {length for length in (content, transfer) if length is not None}
    if (
        any(bad)
        or location is None
        or toi is None
        or len(location) > 2048
        or file.get(b"Content-Encoding")
        or root.get(b"Content-Encoding")
        or len(lengths) != 1
        or scheme is None
        or symbol is None
    ):
        return toi, None
    desc = Desc(location, lengths.pop(), symbol, scheme, digest)
    return toi, desc if is_good(desc) else None


# The machine.


def pieces_of(payload, symbol):
    return [payload[at : at + symbol] for at in range(0, len(payload), symbol)]


def refused(desc, sbn, esi, payload):
    """Why an object has no such symbols."""
    sizes = sizes_of(desc)
    if sbn >= len(sizes):
        return "block"
    count = ceiling(len(payload), desc.symbol)
    if esi + max(count, 1) > sizes[sbn]:
        return "symbol"
    short = len(payload) % desc.symbol
    is_last = sbn + 1 == len(sizes) and esi + count == sizes[sbn]
    tail = desc.length - (symbols_of(desc) - 1) * desc.symbol
    if not payload or (short and not (is_last and short >= tail)):
        return "length"
    return None


class Slot:
    """An FDT Instance in the window: its pairs, or the expiry of its text."""

    def __init__(self, id_, desc):
        self.id, self.desc, self.pairs, self.expires = id_, desc, {}, None


class Life:
    def __init__(self, toi, desc, expires):
        self.toi, self.desc, self.expires, self.pairs, self.done = toi, desc, expires, {}, False

    def missing(self):
        return 0 if self.done else symbols_of(self.desc) - len(self.pairs)

    def is_ready(self):
        wrongly_empty = self.desc.length == 0 and self.desc.md5 not in (None, md5(b""))
        return not self.done and not wrongly_empty and self.missing() == 0

    def bytes(self):
        return b"".join(self.pairs[pair] for pair in sorted(self.pairs))[: self.desc.length]


def shown(location):
    return "".join(chr(byte) if 0x21 <= byte <= 0x7E and byte != 0x25 else f"%{byte:02X}" for byte in location)


class Receiver:
    def __init__(self, tsi):
        self.tsi, self.clock, self.closed, self.expired = tsi, 0, False, 0
        self.slots, self.lives, self.lines, self.files = [], [], [], {}
        self.counts = dict.fromkeys([f"fault {word}" for word in FAULTS] + REASONS, 0)

    def step(self, moment, datagram):
        self.tick(moment)
        try:
            packet = packet_of(datagram)
        except Fault as fault:
            self.counts[f"fault {fault}"] += 1
            return
        reason = self.hear(packet)
        if reason:
            self.counts[reason] += 1
        if packet.tsi == self.tsi and packet.closes:
            self.closed = True
        self.hand_out()

    def tick(self, moment):
        self.clock = max(self.clock, moment)
        past = [life for life in self.lives if life.expires < self.clock]
        self.expired += sum(not life.done for life in past)
        self.lives = [life for life in self.lives if life not in past]
        self.slots = [slot for slot in self.slots if slot.expires is None or slot.expires >= self.clock]

    def hear(self, packet):
        """Hears a packet, or answers why it is dropped."""
        if self.closed:
            return "closed"
        if packet.tsi != self.tsi:
            return "othersession"
        if packet.toi is None:
            return "notoi"
        if packet.sbn is None:
            return "nobody"
        return self.hear_object(packet) if packet.toi else self.hear_fdt(packet)

    def hear_fdt(self, packet):
        slot = next((slot for slot in self.slots if slot.id == packet.fdt), None)
        fti = packet.fti
        if packet.fdt is None or (slot is None and fti is None):
            return "fdtwithoutids"
        if packet.cenc:
            return "fdtencoded"
        if packet.cp != 0:
            return "codepointdiffers"
        if fti and (fti.symbol == 0 or number(fti.last) == 0 or not 1 <= fti.length <= 65_536):
            return "fdtshape"
        desc = Desc(None, fti.length, fti.symbol, (0, number(fti.last)), None) if fti else slot.desc
        if slot and desc != slot.desc:
            return "ftidiffers"
        reason = refused(desc, packet.sbn, packet.esi, packet.payload)
        if reason:
            return reason
        if slot and slot.expires is not None:
            return "done"
        if slot is None:
            slot = Slot(packet.fdt, desc)
            self.slots = self.slots[-(SLOTS_MOST - 1) :] + [slot]
        for place, piece in enumerate(pieces_of(packet.payload, desc.symbol)):
            slot.pairs.setdefault((packet.sbn, packet.esi + place), piece)
        if len(slot.pairs) == symbols_of(desc):
            self.read(slot)
        return None

    def read(self, slot):
        text = b"".join(slot.pairs[pair] for pair in sorted(slot.pairs))[: slot.desc.length]
        told, *rest = fdt_of(text)
        if told == "fault":
            self.slots.remove(slot)
            self.lines.append(f"fdt {slot.id} fault {rest[0]} at {rest[1]}")
            return
        expires, entries = rest
        if expires < self.clock:
            self.slots.remove(slot)
            self.lines.append(f"fdt {slot.id} late")
            return
        slot.expires = expires
        words = "started prolonged conflicting refused norow full".split()
        counts = dict.fromkeys(words, 0)
        for toi, desc in entries:
            counts[self.enter(toi, desc, expires)] += 1
        self.lines.append(f"fdt {slot.id} " + " ".join(f"{word} {counts[word]}" for word in words))

    def enter(self, toi, desc, expires):
        if toi is None or desc is None:
            return "refused"
        life = next((life for life in self.lives if life.toi == toi), None)
        if life:
            if life.desc != desc:
                return "conflicting"
            life.expires = max(life.expires, expires)
            return "prolonged"
        # No Raptor file has a row, since there are no tables.
        if desc.scheme[0]:
            return "norow"
        others = [life.desc for life in self.lives if not life.done] + [desc]
        needs = [sum(map(need, others)) for need in (plain, equations)]
        if len(self.lives) == LIVES_MOST or max(needs) > NEEDED_MOST:
            return "full"
        self.lives.append(Life(toi, desc, expires))
        return "started"

    def hear_object(self, packet):
        life = next((life for life in self.lives if life.toi == packet.toi), None)
        if life is None:
            return "unknown"
        desc = life.desc
        if packet.fti and packet.fti != Fti(desc.length, desc.symbol, desc.scheme[1].to_bytes(4, "big")):
            return "ftidiffers"
        if packet.cp != 0:
            return "codepointdiffers"
        reason = refused(desc, packet.sbn, packet.esi, packet.payload)
        if reason:
            return reason
        if life.done:
            return "done"
        for place, piece in enumerate(pieces_of(packet.payload, desc.symbol)):
            life.pairs.setdefault((packet.sbn, packet.esi + place), piece)
        return None

    def hand_out(self):
        """The first ready life first, until none is ready."""
        while life := next((life for life in self.lives if life.is_ready()), None):
            data, given = life.bytes(), life.desc.md5
            life.pairs = {}
            if given is not None and given != md5(data):
                self.lines.append(f"damaged {life.toi} {given.hex()} {md5(data).hex()}")
                continue
            life.done = True
            self.files[life.toi] = data
            self.lines.append(f"stored {life.toi} {len(data)} {shown(life.desc.location)}")

    def end(self, cause, datagrams):
        self.lines.append(f"end {cause} {self.clock} datagrams {datagrams}")
        if self.expired:
            self.lines.append(f"expired {self.expired}")
        for key, count in self.counts.items():
            if count:
                self.lines.append(f"dropped {key.split()[-1]} {count}")
        left = [life for life in self.lives if not life.done]
        self.lines += [f"incomplete {life.toi} {life.missing()}" for life in left]
        return 1 if left else 0


def received(trace, tsi=1):
    """The status, the lines and the stored files of a session's trace."""
    receiver, place, datagrams = Receiver(tsi), 0, 0
    while place < len(trace) and not receiver.closed:
        length = number(trace[place + 6 : place + 8])
        if len(trace) < place + 8 + length or len(trace) < place + 8:
            receiver.lines.append(f"broken {place}")
            return 4, receiver.lines, receiver.files
        receiver.step(number(trace[place : place + 6]), trace[place + 8 : place + 8 + length])
        place += 8 + length
        datagrams += 1
    status = receiver.end("closed" if receiver.closed else "ended", datagrams)
    return status, receiver.lines, receiver.files
