"""Capture files: pcap and pcapng, in both byte orders."""

import struct
from collections import namedtuple

from captures.outside import Fault

# The time is in whole Unix seconds, or None. DATA is what was captured of the WIRE bytes of the packet.
Packet = namedtuple("Packet", "place link seconds data wire")
Interface = namedtuple("Interface", "link units offset")

# The first four bytes of a pcap file say its byte order and its units in a second.
PCAP = {
    bytes.fromhex("a1b2c3d4"): (">", 10**6),
    bytes.fromhex("d4c3b2a1"): ("<", 10**6),
    bytes.fromhex("a1b23c4d"): (">", 10**9),
    bytes.fromhex("4d3cb2a1"): ("<", 10**9),
}
CAPTURED_LIMIT = 262_144

# A pcapng section's first block has a type that reads alike in both orders, and then says its order.
SECTION = bytes.fromhex("0a0d0d0a")
ORDERS = {bytes.fromhex("1a2b3c4d"): ">", bytes.fromhex("4d3c2b1a"): "<"}
BLOCK_LIMIT = 16 << 20
INTERFACE_LIMIT = 65_536
INTERFACE, OLD_PACKET, SIMPLE_PACKET, ENHANCED_PACKET = 1, 2, 3, 6
RESOLUTION, OFFSET = 9, 14


def packets(source):
    """Each packet of a capture, in its order."""
    magic = source.up_to(4)
    if magic == SECTION:
        yield from pcapng_packets(source, magic)
    elif magic in PCAP:
        yield from pcap_packets(source, *PCAP[magic])
    else:
        raise Fault("the bytes at byte 0 begin no pcap and no pcapng file")


def pcap_packets(source, order, units):
    """The packets of a pcap file behind its first four bytes."""
    head = source.exactly(20, "header", 0)
    major, minor, link = struct.unpack(order + "HH12xL", head)
    if (major, minor) != (2, 4):
        raise Fault(f"the header at byte 0 has the version {major}.{minor}, and only 2.4 is read")
    # The six upper bits tell of a frame check sequence, which stands behind the IP packet.
    link &= 0x03FFFFFF
    while True:
        place = source.place
        head = source.front(16, "record")
        if not head:
            return
        seconds, part, captured, wire = struct.unpack(order + "LLLL", head)
        if captured > CAPTURED_LIMIT:
            raise Fault(f"the record at byte {place} has {captured} bytes, and at most {CAPTURED_LIMIT} are read")
        data = source.exactly(captured, "record", place)
        yield Packet(place, link, seconds + part // units, data, max(wire, captured))


def pcapng_packets(source, kind):
    """The packets of a pcapng file. The four bytes of its first block's type were read."""
    section = None
    place = 0
    while kind:
        order, body = block_of(source, kind, section, place)
        if kind == SECTION:
            section = Section(order, body, place)
        else:
            packet = section.packet_of(struct.unpack(order + "L", kind)[0], body, place)
            if packet is not None:
                yield packet
        place = source.place
        kind = source.front(4, "block")


def block_of(source, kind, section, place):
    """The byte order and the body of the block at PLACE, behind its type."""
    size = source.exactly(4, "block", place)
    if kind == SECTION:
        front = source.exactly(4, "block", place)
        order = ORDERS.get(front)
        if order is None:
            raise Fault(f"the section at byte {place} has no known byte order")
    else:
        front, order = b"", section.order
    length = struct.unpack(order + "L", size)[0]
    if length % 4 != 0 or not 12 + len(front) <= length <= BLOCK_LIMIT:
        raise Fault(f"the block at byte {place} has the length {length}, which no block can have")
    body = front + source.exactly(length - 12 - len(front), "block", place)
    if source.exactly(4, "block", place) != size:
        raise Fault(f"the block at byte {place} has another length at its end")
    return order, body


class Section:
    """A section of a pcapng file: its byte order, and the interfaces that it has described so far."""

    def __init__(self, order, body, place):
        self.order = order
        self.interfaces = []
        major, minor = self.fields("4xHH8x", body, place)
        # The minor version 2 was written by some, and means 0.
        if major != 1 or minor not in (0, 2):
            raise Fault(f"the section at byte {place} has the version {major}.{minor}, and only 1.0 is read")

    def fields(self, layout, body, place):
        """The first fields of a block's body."""
        layout = self.order + layout
        if len(body) < struct.calcsize(layout):
            raise Fault(f"the block at byte {place} is too short for its type")
        return struct.unpack_from(layout, body)

    def packet_of(self, kind, body, place):
        """The packet of a block, if it has one. A block that describes an interface is noted."""
        if kind == ENHANCED_PACKET:
            return self.timed("LLLLL", body, place)
        if kind == OLD_PACKET:
            return self.timed("HxxLLLL", body, place)
        if kind == SIMPLE_PACKET:
            (wire,) = self.fields("L", body, place)
            return Packet(place, self.interface(0, place).link, None, b"", wire)
        if kind == INTERFACE:
            if len(self.interfaces) == INTERFACE_LIMIT:
                raise Fault(f"the section of the block at byte {place} has more than {INTERFACE_LIMIT} interfaces")
            self.interfaces.append(self.interface_of(body, place))
        return None

    def timed(self, layout, body, place):
        """The packet of a block that tells its time. Its fields end at byte 20 of the body."""
        number, high, low, captured, wire = self.fields(layout, body, place)
        interface = self.interface(number, place)
        data = body[20 : 20 + captured]
        if len(data) < captured:
            raise Fault(f"the packet at byte {place} is longer than its block")
        seconds = (high << 32 | low) // interface.units + interface.offset
        return Packet(place, interface.link, seconds, data, max(wire, captured))

    def interface(self, number, place):
        if number >= len(self.interfaces):
            raise Fault(f"the packet at byte {place} is of interface {number}, which isn't described")
        return self.interfaces[number]

    def interface_of(self, body, place):
        """The interface that a block describes."""
        (link,) = self.fields("H6x", body, place)
        options = self.options(body[8:], {RESOLUTION: 1, OFFSET: 8}, place)
        resolution = options.get(RESOLUTION, b"\x06")[0]
        units = 2 ** (resolution & 0x7F) if resolution & 0x80 else 10**resolution
        offset = struct.unpack(self.order + "q", options.get(OFFSET, bytes(8)))[0]
        return Interface(link, units, offset)

    def options(self, data, lengths, place):
        """The values of those options that LENGTHS names, each of which stands at most once."""
        values = {}
        start = 0
        while start < len(data):
            code, length = struct.unpack_from(self.order + "HH", data, start)
            if code == 0:
                break
            start += 4
            if start + length > len(data):
                raise Fault(f"the block at byte {place} has an option that is longer than the block")
            if code in lengths:
                if length != lengths[code] or code in values:
                    raise Fault(f"the block at byte {place} has a wrong length of option {code}, or has it twice")
                values[code] = data[start : start + length]
            # Each option is filled up to a multiple of four bytes, as the block is.
            start += length + -length % 4
        return values
