"""Capture files, written field by field without the code of the tools."""

import struct

from support.frames import ethernet_4, udp
from support.traces import SECOND

COUNTS = ("datagrams", "elsewhere", "fragments", "other", "malformed", "cut", "timeless")
ETHERNET, COOKED_1, COOKED_2, RAW = 1, 113, 276, 101


def counts(**counted):
    """The last line of `pcap2trace`, with these counts and else 0."""
    return "pcap2trace: " + " ".join(f"{word} {counted.get(word, 0)}" for word in COUNTS) + "\n"


# pcap.


def pcap_header(order="<", magic=0xA1B2C3D4, link=ETHERNET, version=(2, 4)):
    return struct.pack(order + "LHHlLLL", magic, *version, 0, 0, 65_535, link)


def pcap_record(data, order="<", second=SECOND, part=0, wire=None, captured=None):
    captured = len(data) if captured is None else captured
    return struct.pack(order + "LLLL", second, part, captured, len(data) if wire is None else wire) + data


def pcap(data, link=ETHERNET, wire=None):
    """A capture of one packet."""
    return pcap_header(link=link) + pcap_record(data, wire=wire)


def frames_of(capture):
    """The times and frames of a pcap file in the form that `trace2pcap` writes."""
    place = 24
    while place < len(capture):
        second, part, captured, wire = struct.unpack_from("<LLLL", capture, place)
        yield second, part, wire, capture[place + 16 : place + 16 + captured]
        place += 16 + captured


# pcapng.


def block(order, kind, body, length=None, end=None):
    body += bytes(-len(body) % 4)
    length = 12 + len(body) if length is None else length
    return struct.pack(order + "LL", kind, length) + body + struct.pack(order + "L", length if end is None else end)


def section(order, magic=0x1A2B3C4D, version=(1, 0)):
    return block(order, 0x0A0D0D0A, struct.pack(order + "LHHq", magic, *version, -1))


def option(order, code, value):
    return struct.pack(order + "HH", code, len(value)) + value + bytes(-len(value) % 4)


def interface(order, link=ETHERNET, resolution=None, offset=None, behind=b""):
    options = option(order, 2, b"eth0!")
    if resolution is not None:
        options += option(order, 9, bytes([resolution]))
    if offset is not None:
        options += option(order, 14, struct.pack(order + "q", offset))
    return block(order, 1, struct.pack(order + "HHL", link, 0, 65_535) + options + behind)


def enhanced(order, number, ticks, data, wire=None, captured=None):
    captured = len(data) if captured is None else captured
    wire = len(data) if wire is None else wire
    fields = struct.pack(order + "LLLLL", number, ticks >> 32, ticks & 0xFFFFFFFF, captured, wire)
    # Options behind the packet are not looked at.
    return block(order, 6, fields + data + bytes(-len(data) % 4) + option(order, 1, b"a comment"))


def old_packet(order, number, ticks, data):
    fields = struct.pack(order + "HHLLLL", number, 0, ticks >> 32, ticks & 0xFFFFFFFF, len(data), len(data))
    return block(order, 2, fields + data)


def simple(order, data):
    return block(order, 3, struct.pack(order + "L", len(data)) + data)


def small_captures():
    """Captures of two datagrams: a name, the parts behind which they may end, the datagrams, and how many parts
    stand before the first of them."""
    frames = [ethernet_4(udp(b"1")), ethernet_4(udp(b"23"))]
    for order in "<>":
        parts = [pcap_header(order)] + [pcap_record(frame, order) for frame in frames]
        yield f"pcap {order}", parts, (b"1", b"23"), 1
        parts = [section(order), interface(order, resolution=9, offset=1)]
        parts += [enhanced(order, 0, (SECOND - 1) * 10**9, frame) for frame in frames]
        yield f"pcapng {order}", parts, (b"1", b"23"), 2
