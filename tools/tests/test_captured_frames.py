"""`pcap2trace` over frames: which bring a datagram, and why the others don't."""

import struct
import unittest

from support.captures import ETHERNET, RAW, counts, enhanced, interface, pcap, pcap_header, pcap_record, section
from support.frames import (
    DATAGRAM,
    GROUP,
    GROUP_6,
    OTHER_GROUP,
    OTHER_GROUP_6,
    PORT,
    cooked_1,
    cooked_2,
    ethernet,
    ethernet_4,
    ethernet_6,
    extension,
    fragment_header,
    internet_4,
    internet_6,
    tagged,
    udp,
)
from support.tools import ToolTest
from support.traces import trace_of

ONE = (0, trace_of(DATAGRAM), counts(datagrams=1))


def links():
    """Frames with the datagram, each under its name and link type."""
    four, six = internet_4(udp()), internet_6(udp())
    for number in (12, 14, RAW):
        yield f"raw {number} IPv4", number, four
        yield f"raw {number} IPv6", number, six
    yield "raw IPv4", 228, four
    yield "raw IPv6", 229, six
    for name, number, frame in (("Ethernet", 1, ethernet), ("cooked", 113, cooked_1), ("cooked v2", 276, cooked_2)):
        yield f"{name} IPv4", number, frame(0x0800, four)
        yield f"{name} IPv6", number, frame(0x86DD, six)
        yield f"{name} VLAN", number, frame(0x8100, struct.pack(">HH", 5, 0x86DD) + six)
    for kinds in ((0x8100,), (0x88A8, 0x8100), (0x9100, 0x8100), (0x8100,) * 9):
        yield f"tags {kinds}", ETHERNET, tagged(*kinds)


def whole():
    """Ethernet frames with the datagram, each under its name."""
    yield "IPv4 options", ethernet_4(udp(), options=bytes([1] * 40))
    yield "don't fragment", ethernet_4(udp(), fragment=0x4000)
    yield "padding", ethernet_4(udp()) + bytes(18)
    yield "padding, IPv6", ethernet_6(udp()) + bytes(18)
    yield "UDP length below IP's", ethernet_4(udp() + b"behind")
    yield "UDP length below IP's, IPv6", ethernet_6(udp() + b"behind")
    yield "hop-by-hop", ethernet_6(extension(17) + udp(), protocol=0)
    yield "routing", ethernet_6(extension(17, 2) + udp(), protocol=43)
    yield "destination options", ethernet_6(extension(17, 1) + udp(), protocol=60)
    yield "atomic fragment", ethernet_6(fragment_header(17, 0) + udp(), protocol=44)
    yield "reserved bits of an atomic fragment", ethernet_6(fragment_header(17, 6) + udp(), protocol=44)
    chain = extension(60) + extension(43) + extension(44, 1) + fragment_header(60, 0) + extension(17) + udp()
    yield "four extension headers", ethernet_6(chain, protocol=0)


def not_wanted():
    """Ethernet frames that bring no whole datagram to the wanted destination, each under its name and reason."""
    yield "another address", "elsewhere", ethernet_4(udp(), destination=OTHER_GROUP)
    yield "another address of TCP", "elsewhere", ethernet_4(bytes(20), destination=OTHER_GROUP, protocol=6)
    yield "another address, IPv6", "elsewhere", ethernet_6(udp(), destination=OTHER_GROUP_6)
    yield "another port", "elsewhere", ethernet_4(udp(port=PORT + 1))
    yield "another port, IPv6", "elsewhere", ethernet_6(udp(port=PORT + 256))
    yield "first fragment", "fragments", ethernet_4(udp(), fragment=0x2000)
    yield "last fragment", "fragments", ethernet_4(udp(), fragment=1)
    yield "first fragment, IPv6", "fragments", ethernet_6(fragment_header(17, 1) + udp(), protocol=44)
    yield "last fragment, IPv6", "fragments", ethernet_6(fragment_header(17, 8) + udp(), protocol=44)
    yield "fragment behind options", "fragments", ethernet_6(extension(44) + fragment_header(17, 9), protocol=0)
    yield "TCP", "other", ethernet_4(bytes(20), protocol=6)
    yield "TCP, IPv6", "other", ethernet_6(extension(6) + bytes(20), protocol=60)
    yield "no next header", "other", ethernet_6(b"", protocol=59)
    yield "ARP", "other", ethernet(0x0806, bytes(28))
    yield "length in place of a type", "other", ethernet(46, bytes(46))
    yield "tag before ARP", "other", ethernet(0x8100, struct.pack(">HH", 1, 0x0806) + bytes(28))


def malformed():
    """Ethernet frames with lengths or versions that can't be, each under its name."""
    yield "UDP length 0", ethernet_4(udp(length=0))
    yield "UDP length 7", ethernet_4(udp(length=7))
    yield "UDP length above IP's", ethernet_4(udp(length=17)) + bytes(18)
    yield "UDP length above IP's, IPv6", ethernet_6(udp(length=17)) + bytes(18)
    yield "short UDP header", ethernet_4(udp()[:5]) + bytes(18)
    yield "IPv4 total length above the frame's", ethernet_4(udp(), total=37)
    yield "IPv4 total length below the header's", ethernet_4(bytes(20), total=19, protocol=6)
    yield "IPv4 total length 0", ethernet_4(udp(), total=0)
    yield "IPv4 header of four words", ethernet(0x0800, b"\x44" + internet_4(udp())[1:])
    yield "IPv4 options above the packet", ethernet(0x0800, b"\x4f" + internet_4(udp())[1:] + bytes(60))
    yield "IPv4 of another version", ethernet_4(udp(), first=0x60)
    yield "IPv6 of another version", ethernet_6(udp(), first=0x40)
    yield "IPv6 length above the frame's", ethernet_6(udp(), length=17)
    yield "IPv6 length 0", ethernet_6(udp(), length=0)
    yield "extension above the packet", ethernet_6(bytes([17, 9]) + bytes(14), protocol=60) + bytes(90)
    yield "short fragment header", ethernet_6(fragment_header(17, 0)[:7], protocol=44) + bytes(18)
    yield "hop-by-hop that isn't the first", ethernet_6(extension(0) + extension(17) + udp(), protocol=60)
    yield "empty frame", b""
    yield "tag alone", ethernet(0x8100, b"\0\1")


def wanted_words(frame):
    """The words for which datagrams to the group and the port are taken."""
    return ("--address", str(GROUP_6 if frame[12:13] == b"\x86" else GROUP), "--port", str(PORT))


class Frames(ToolTest):
    def test_link_types_and_tags(self):
        for name, link, frame in links():
            self.read(name, pcap(frame, link), ONE)

    def test_whole_datagrams_are_taken(self):
        for name, frame in whole():
            self.read(name, pcap(frame), ONE, wanted_words(frame))

    def test_other_packets_are_passed_over_and_counted(self):
        for name, reason, frame in not_wanted():
            self.read(name, pcap(frame), (0, b"", counts(**{reason: 1})), wanted_words(frame))

    def test_malformed_packets_are_passed_over_and_counted(self):
        for name, frame in malformed():
            self.read(name, pcap(frame), (0, b"", counts(malformed=1)), wanted_words(frame))

    def test_raw_packets_of_another_version(self):
        for link, frame in ((RAW, b"\x50" + bytes(50)), (228, internet_6(udp())), (229, internet_4(udp()) + bytes(9))):
            self.read(f"another version in link type {link}", pcap(frame, link), (0, b"", counts(malformed=1)))


class CutPackets(ToolTest):
    def test_each_first_part_of_a_packet(self):
        for frame in (ethernet_4(udp()) + bytes(4), ethernet_6(extension(17) + udp(), protocol=0) + bytes(4)):
            for size in range(len(frame)):
                wanted = ONE if size >= len(frame) - 4 else (0, b"", counts(cut=1))
                self.read(f"{size} bytes captured", pcap(frame[:size], wire=len(frame)), wanted)

    def test_a_length_that_cannot_be_goes_before_a_cut(self):
        frame = ethernet_4(udp(), total=100)
        self.read("cut, and malformed", pcap(frame[:40], wire=60), (0, b"", counts(malformed=1)))

    def test_a_cut_packet_of_pcapng(self):
        capture = section("<") + interface("<") + enhanced("<", 0, 0, ethernet_4(udp())[:-1], wire=50)
        self.read("cut in a block", capture, (0, b"", counts(cut=1)))


class Selection(ToolTest):
    def test_addresses_and_ports(self):
        frames = [ethernet_4(udp(b"1")), ethernet_4(udp(b"2", port=9)), ethernet_4(udp(b"3"), destination=OTHER_GROUP)]
        frames += [ethernet_6(udp(b"4")), ethernet_6(udp(b"5", port=9))]
        frames += [ethernet_6(udp(b"6"), destination=OTHER_GROUP_6)]
        capture = pcap_header() + b"".join(pcap_record(frame) for frame in frames)
        selections = (
            ((), "123456"),
            (("--port", "4001"), "1346"),
            (("--port", "0009"), "25"),
            (("--address", "239.1.2.3"), "12"),
            (("--address", "FF0E:0::0001:2"), "45"),
            (("--address", "ff0e:0:0:0:0:0:1:2", "--port", "9"), "5"),
            (("--address", "::ffff:239.1.2.3"), ""),
        )
        for words, wanted in selections:
            taken = trace_of(*(digit.encode() for digit in wanted))
            counted = counts(datagrams=len(wanted), elsewhere=6 - len(wanted))
            self.read(f"selection {words}", capture, (0, taken, counted), words)


if __name__ == "__main__":
    unittest.main()
