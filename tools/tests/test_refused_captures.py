"""`pcap2trace` over captures that are wrong: each is refused with one line, and nothing is written."""

import io
import random
import struct
import unittest

from support.captures import (
    block,
    enhanced,
    interface,
    old_packet,
    option,
    pcap,
    pcap_header,
    pcap_record,
    section,
    simple,
    small_captures,
)
from support.frames import ethernet_4, udp
from support.tools import READER, ToolTest, forked
from support.traces import UNIX_START, is_trace
from test_captured_frames import links, whole


def bad_files():
    """Captures that aren't good pcap files, each under its name and with words of the line that refuses it."""
    frame = ethernet_4(udp())
    good = pcap(frame)
    yield "compressed", b"\x1f\x8b" + good[2:], "at byte 0"
    yield "modified pcap", struct.pack("<L", 0xA1B2CD34) + good[4:], "at byte 0"
    yield "pcap version", pcap_header(version=(2, 5)), "2.5"
    yield "pcap version", pcap_header(version=(1, 4)), "1.4"
    yield "long record", good + pcap_record(frame, captured=2**32 - 1), f"byte {len(good)} "
    yield "record above the limit", good + pcap_record(bytes(262_145)), "262145"
    yield "link type", pcap(frame, 105), "byte 24 has the link type 105"
    yield "reserved bits of the link type", pcap(frame, 0x10001), "link type 65537"


def bad_blocks(order):
    """pcapng captures with a block that is wrong by itself."""
    head = section(order) + interface(order)
    place = f"byte {len(head)} "
    for length in (0, 4, 8, 13, 2**32 - 4, (16 << 20) + 4, 2**31):
        wrong = block(order, 77, bytes(4), length)
        yield f"block of length {length}", head + wrong, f"{place}has the length {length}"
    yield "lengths of a block", head + block(order, 77, bytes(4), end=20), place
    yield "section of length 12", block(order, 0x0A0D0D0A, struct.pack(order + "L", 0x1A2B3C4D), 12), "12"
    yield "short section", block(order, 0x0A0D0D0A, struct.pack(order + "LHHL", 0x1A2B3C4D, 1, 0, 0)), "too short"
    yield "section's byte order", head + section(order, magic=0x1A2B3C4E), place
    yield "section's version", section(order, version=(2, 0)), "2.0"
    yield "section's minor version", section(order, version=(1, 1)), "1.1"
    yield "short interface", section(order) + block(order, 1, bytes(4)), "too short"
    yield "short packet", head + block(order, 6, bytes(16)), "too short"
    yield "short old packet", head + block(order, 2, bytes(16)), "too short"
    yield "short simple packet", head + block(order, 3, b""), "too short"
    option_head = struct.pack(order + "HH", 5, 1)
    yield "option above its block", section(order) + interface(order, behind=option_head), "option"
    yield "option of a wrong length", section(order) + interface(order, behind=option(order, 9, b"12")), "option 9"
    twice = interface(order, offset=1, behind=option(order, 14, bytes(8)))
    yield "option twice", section(order) + twice, "option 14"


def bad_packets(order):
    """pcapng captures with a packet that doesn't fit its section."""
    frame = ethernet_4(udp())
    head = section(order) + interface(order)
    place = f"byte {len(head)} "
    yield "unknown interface", head + enhanced(order, 1, 0, frame), f"{place}is of interface 1"
    yield "unknown interface of an old packet", head + old_packet(order, 0xFFFF, 0, frame), "65535"
    yield "simple packet without interfaces", section(order) + simple(order, frame), "interface 0"
    yield "interface of another section", head + section(order) + enhanced(order, 0, 0, frame), "interface 0"
    yield "packet above its block", head + enhanced(order, 0, 0, frame, captured=999), f"{place}is longer"
    yield "packet of 2^32 - 1 bytes", head + enhanced(order, 0, 0, frame, captured=2**32 - 1), "is longer"
    yield "link type", section(order) + interface(order, 189) + enhanced(order, 0, 0, frame), "189"
    early = interface(order, offset=-UNIX_START - 1)
    yield "negative moment", section(order) + early + enhanced(order, 0, 0, frame), "second -1"
    late = interface(order, offset=2**48 - UNIX_START)
    yield "moment of 2^48", section(order) + late + enhanced(order, 0, 0, frame), str(2**48)


class RefusedCaptures(ToolTest):
    def each_is_refused(self, captures):
        for name, capture, word in captures:
            self.refused(name, forked(READER, (), capture), word)

    def test_pcap_files(self):
        self.each_is_refused(bad_files())

    def test_blocks(self):
        for order in "<>":
            self.each_is_refused(bad_blocks(order))

    def test_packets(self):
        for order in "<>":
            self.each_is_refused(bad_packets(order))

    def test_more_interfaces_than_a_section_may_have(self):
        blocks = section("<") + 65_537 * interface("<")
        self.refused("many interfaces", forked(READER, (), blocks), "65536 interfaces")


class ChangedBytes(ToolTest):
    def test_changed_captures_are_read_or_refused(self):
        """Captures with bytes that were changed, and nothing else happens over them."""
        chance = random.Random(20_230_802)
        captures = [bytearray(b"".join(parts)) for _, parts, _, _ in small_captures()]
        captures += [bytearray(pcap(frame, link)) for _, link, frame in links()]
        captures += [bytearray(pcap(frame)) for _, frame in whole()]
        for _ in range(20_000):
            capture = bytearray(chance.choice(captures))
            for _ in range(chance.randint(1, 3)):
                value = chance.choice((0, 1, 4, 8, 0x7F, 0x80, 0xFF, chance.randrange(256)))
                capture[chance.randrange(len(capture))] = value
            self.is_read_or_refused(capture)

    def is_read_or_refused(self, capture):
        result = io.BytesIO()
        with self.subTest(capture.hex()):
            try:
                READER.convert(READER.outside.Input(io.BytesIO(capture)), READER.frames.Wanted(None, None), result)
            except READER.outside.Fault as fault:
                self.assertTrue(str(fault).isprintable(), str(fault))
            else:
                self.assertTrue(is_trace(result.getvalue()), result.getvalue())


if __name__ == "__main__":
    unittest.main()
