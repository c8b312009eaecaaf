"""`pcap2trace` over capture files of each form that is read."""

import unittest

from support.captures import (
    COOKED_1,
    ETHERNET,
    RAW,
    block,
    counts,
    enhanced,
    interface,
    old_packet,
    option,
    pcap,
    pcap_header,
    pcap_record,
    section,
    simple,
    small_captures,
)
from support.frames import DATAGRAM, cooked_1, ethernet, ethernet_4, internet_4, udp
from support.tools import READER, ToolTest, forked
from support.traces import SECOND, UNIX_START, record, trace_of

ONE = (0, trace_of(DATAGRAM), counts(datagrams=1))


class PcapFiles(ToolTest):
    def test_both_byte_orders_and_units(self):
        for order in "<>":
            for magic, units in ((0xA1B2C3D4, 10**6), (0xA1B23C4D, 10**9)):
                capture = pcap_header(order, magic)
                # The second is the whole one, however near the next is, and a part of more than a second counts.
                capture += pcap_record(ethernet_4(udp(b"a")), order, part=units - 1)
                capture += pcap_record(ethernet_4(udp(b"")), order, second=0)
                capture += pcap_record(ethernet_4(udp(b"c")), order, second=2**32 - 1, part=units)
                wanted = trace_of(b"a") + trace_of(b"", second=0) + trace_of(b"c", second=2**32)
                self.read(f"pcap file {order}{magic:x}", capture, (0, wanted, counts(datagrams=3)))

    def test_a_frame_check_sequence_is_passed_over(self):
        capture = pcap_header(link=0x24000000 | ETHERNET) + pcap_record(ethernet_4(udp()) + b"\1\2\3\4")
        self.read("check sequence", capture, ONE)

    def test_a_file_may_have_no_packets(self):
        self.read("no packets", pcap_header(link=147), (0, b"", counts()))

    def test_the_largest_record(self):
        self.read("largest record", pcap(ethernet_4(udp()).ljust(262_144, b"\0")), ONE)

    def test_a_packet_has_what_was_captured_of_it(self):
        """Whatever length the record says."""
        self.read("length 0 of a packet", pcap_header() + pcap_record(ethernet_4(udp()), wire=0), ONE)


class PcapngFiles(ToolTest):
    def test_sections_interfaces_and_blocks(self):
        frame = ethernet_4(udp())
        for order, other in ("<>", "><"):
            capture = section(order)
            capture += interface(order, resolution=9) + interface(order, RAW, resolution=0x80 | 20, offset=-5)
            capture += interface(order, ETHERNET) + interface(order, ETHERNET, resolution=0, offset=2**33)
            capture += block(order, 5, bytes(8)) + block(order, 0x40000BAD, b"whatever")
            capture += enhanced(order, 0, SECOND * 10**9 + 999_999_999, frame)
            capture += enhanced(order, 1, (SECOND + 9 << 20) + (1 << 20) - 1, internet_4(udp(b"raw")))
            capture += simple(order, frame)
            capture += old_packet(order, 2, SECOND * 10**6 + 999_999, frame)
            capture += enhanced(order, 3, 2**32, frame, wire=0)
            # A section describes its interfaces anew, in its own byte order. Behind the end of options nothing counts.
            behind = option(other, 0, b"") + option(other, 9, b"\0")
            capture += section(other, version=(1, 2)) + interface(other, COOKED_1, behind=behind)
            capture += enhanced(other, 0, 3 * 10**6, cooked_1(0x0800, internet_4(udp(b"next"))))
            wanted = trace_of(DATAGRAM) + trace_of(b"raw", second=SECOND + 4) + trace_of(DATAGRAM)
            wanted += trace_of(DATAGRAM, second=2**33 + 2**32) + trace_of(b"next", second=3)
            self.read(f"pcapng file {order}", capture, (0, wanted, counts(datagrams=5, timeless=1)))

    def test_resolutions_of_time(self):
        frame = ethernet_4(udp())
        for order in "<>":
            for resolution, ticks in ((3, SECOND * 1000), (0x80, SECOND), (127, 10**19), (0xFF, 2**63)):
                capture = section(order) + interface(order, resolution=resolution) + enhanced(order, 0, ticks, frame)
                second = SECOND if ticks < 2**50 else 0
                wanted = (0, trace_of(DATAGRAM, second=second), counts(datagrams=1))
                self.read(f"resolution {resolution}", capture, wanted)

    def test_the_first_and_the_last_moment(self):
        for offset, moment in ((-UNIX_START, 0), (2**48 - UNIX_START - 1, 2**48 - 1)):
            capture = section("<") + interface("<", offset=offset) + enhanced("<", 0, 0, ethernet_4(udp()))
            self.read(f"moment {moment}", capture, (0, record(moment, DATAGRAM), counts(datagrams=1)))

    def test_the_time_of_a_packet_that_is_passed_over_does_not_count(self):
        capture = section("<") + interface("<", offset=-(2**62)) + enhanced("<", 0, 0, ethernet(0x0806, bytes(28)))
        self.read("moment of ARP", capture, (0, b"", counts(other=1)))

    def test_the_largest_block(self):
        self.read("largest block", section("<") + block("<", 77, bytes((16 << 20) - 12)), (0, b"", counts()))


class CutCaptures(ToolTest):
    def test_a_capture_may_end_only_behind_a_part(self):
        """Each first part of a capture: it is read where it ends behind a part, and else refused."""
        for name, parts, datagrams, heads in small_captures():
            capture = b"".join(parts)
            ends = [sum(map(len, parts[:count])) for count in range(1, len(parts) + 1)]
            for size in range(len(capture) + 1):
                outcome = forked(READER, (), capture[:size])
                if size in ends:
                    taken = datagrams[: max(0, ends.index(size) + 1 - heads)]
                    wanted = (0, trace_of(*taken), counts(datagrams=len(taken)))
                    self.same(f"{name} of {size} bytes", outcome, wanted)
                else:
                    last = max([0] + [end for end in ends if end < size])
                    told = ("pcap2trace: standard input: ", f" at byte {last}")
                    self.refused(f"{name} of {size} bytes", outcome, *told)


if __name__ == "__main__":
    unittest.main()
