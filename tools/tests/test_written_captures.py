"""`trace2pcap`: what it writes, field by field, and back through `pcap2trace`."""

import ipaddress
import os
import random
import shutil
import struct
import subprocess
import tempfile
import unittest

from support.captures import counts, frames_of, pcap_header
from support.frames import PORT
from support.tools import READER, WRITER, ToolTest, forked
from support.traces import SECOND, UNIX_START, record, trace_of


def is_summed(data):
    """Whether the ones' complement sum of the words is the one that a right checksum gives."""
    words = struct.unpack(f">{(len(data) + 1) // 2}H", data + bytes(len(data) % 2))
    total = sum(words)
    while total > 0xFFFF:
        total = (total >> 16) + (total & 0xFFFF)
    return total == 0xFFFF


def routes():
    """Words, and the station, source, destination and port that they mean."""
    yield (), "01005e7f0001", "192.0.2.1", "239.255.0.1", 4001
    all_words = ("--address", "239.1.2.3", "--from", "192.0.2.7", "--port", "65535")
    yield all_words, "01005e010203", "192.0.2.7", "239.1.2.3", 65_535
    yield ("--address", "224.128.130.255"), "01005e0082ff", "192.0.2.1", "224.128.130.255", 4001
    yield ("--port", "1", "--address", "198.51.100.9"), "000000000000", "192.0.2.1", "198.51.100.9", 1
    yield ("--from", "2001:db8::7"), "333300000001", "2001:db8::7", "ff15::1", 4001
    yield ("--address", "FF0E:0::0001:2"), "333300010002", "2001:db8::1", "ff0e::1:2", 4001
    yield ("--address", "2001:db8::9"), "000000000000", "2001:db8::1", "2001:db8::9", 4001


class WrittenCaptures(ToolTest):
    def test_there_and_back(self):
        chance = random.Random(1)
        for words, station, source, destination, port in routes():
            source, destination = ipaddress.ip_address(source), ipaddress.ip_address(destination)
            longest = 65_507 if destination.version == 4 else 65_527
            datagrams = [chance.randbytes(length) for length in (0, 1, 2, 3, 1400, 1401, longest)]
            records = [(UNIX_START + chance.randrange(2**32), datagram) for datagram in datagrams]
            records += [(UNIX_START, b"first"), (UNIX_START + 2**32 - 1, b"last")]
            trace = b"".join(record(*each) for each in records)
            name = f"trace2pcap {words}"
            status, capture, lines = forked(WRITER, words, trace)
            self.same(name, (status, lines), (0, ""))
            self.has_fields(name, capture, bytes.fromhex(station), source, destination, port, records)
            back = forked(READER, ("--address", str(destination), "--port", str(port)), capture)
            self.same(f"{name} and back", back, (0, trace, counts(datagrams=len(records))))

    def has_fields(self, name, capture, station, source, destination, port, records):
        """The capture has a packet for each record."""
        self.same(f"{name}: header", capture[:24], pcap_header()[:16] + struct.pack("<LL", 262_144, 1))
        found = list(frames_of(capture))
        self.same(f"{name}: number of packets", len(found), len(records))
        for (moment, datagram), (second, part, wire, frame) in zip(records, found):
            self.same(f"{name}: time and length", (second, part, wire), (moment - UNIX_START, 0, len(frame)))
            kind = 0x0800 if destination.version == 4 else 0x86DD
            self.same(f"{name}: Ethernet", frame[:14], station + bytes(6) + struct.pack(">H", kind))
            self.is_datagram(name, frame[14:], source, destination, port, datagram)

    def is_datagram(self, name, packet, source, destination, port, datagram):
        """The IP packet brings the datagram, and its checksums are right."""
        size = 20 if destination.version == 4 else 40
        head, inner = packet[:size], packet[size:]
        hops = 1 if destination.is_multicast else 64
        if size == 20:
            front = struct.pack(">BBHHHBB", 0x45, 0, len(packet), 0, 0x4000, hops, 17)
            self.same(f"{name}: IPv4 checksum", is_summed(head), True)
        else:
            front = struct.pack(">LHBB", 0x60000000, len(inner), 17, hops)
        addresses = source.packed + destination.packed
        self.same(f"{name}: IP", (head[: len(front)], head[-len(addresses) :]), (front, addresses))
        self.same(f"{name}: UDP", inner[:6], struct.pack(">HHH", port, port, 8 + len(datagram)))
        self.same(f"{name}: datagram", inner[8:] == datagram, True)
        pseudo = addresses + struct.pack(">HH", 17, len(inner))
        self.same(f"{name}: UDP checksum", (inner[6:8] != b"\0\0", is_summed(pseudo + inner)), (True, True))

    def test_a_udp_checksum_of_0_is_written_as_ffff(self):
        """The value 0 says that there is no checksum."""
        for words, place in (((), 14 + 20 + 6), (("--address", "ff15::1"), 14 + 40 + 6)):
            total = b"\0\0"
            for wanted in (False, True):
                # The second datagram is the checksum of the first, and so has the sum whose complement is 0.
                _, capture, _ = forked(WRITER, words, trace_of(total))
                total = capture[24 + 16 + place :][:2]
                self.same(f"checksum ffff {words}", total == b"\xff\xff", wanted)

    def test_an_internet_checksum_may_be_0(self):
        # With this length the header's other words have the sum ffff.
        _, capture, _ = forked(WRITER, (), trace_of(bytes(0xC7EB - 28)))
        self.same("checksum of the IPv4 header", capture[24 + 16 + 14 + 10 :][:2], b"\0\0")


class RefusedTraces(ToolTest):
    def test_moments_that_no_capture_can_hold(self):
        first = trace_of(b"first")
        for moment in (0, UNIX_START - 1, UNIX_START + 2**32, 2**48 - 1):
            outcome = forked(WRITER, (), first + record(moment, b"second"))
            self.refused(f"moment {moment}", outcome, f"byte {len(first)} ", str(moment))

    def test_datagrams_that_no_packet_can_hold(self):
        first = trace_of(b"first")
        for words, longest in (((), 65_507), (("--from", "2001:db8::2"), 65_527)):
            outcome = forked(WRITER, words, first + trace_of(bytes(longest + 1)))
            self.refused(f"{longest + 1} bytes", outcome, f"byte {len(first)} ", str(longest + 1))

    def test_a_trace_may_end_only_behind_a_record(self):
        records = [trace_of(datagram) for datagram in (b"first", b"", b"third")]
        trace = b"".join(records)
        ends = [sum(map(len, records[:count])) for count in range(len(records) + 1)]
        for size in range(len(trace) + 1):
            outcome = forked(WRITER, (), trace[:size])
            if size in ends:
                self.same(f"trace of {size} bytes", (outcome[0], outcome[2]), (0, ""))
            else:
                last = max(end for end in ends if end < size)
                told = f"trace2pcap: standard input: ends inside the record at byte {last}\n"
                self.refused(f"trace of {size} bytes", outcome, told)


def lct_header(session, toi):
    """An LCT header of four words (RFC 3451 section 5.1)."""
    return struct.pack(">HBBLLL", 0x10A0, 4, 0, 0, session, toi)


def tshark_finds(path, fields, folder):
    """What tshark finds in each packet of a capture: the values of the fields."""
    call = ["tshark", "-r", path, "-d", f"udp.port=={PORT},alc", "-o", "udp.check_checksum:TRUE", "-T", "fields"]
    for field in fields:
        call += ["-e", field]
    # With an empty home folder, no settings of a user count.
    home = {**os.environ, "HOME": folder, "XDG_CONFIG_HOME": folder}
    ended = subprocess.run(call, stdout=subprocess.PIPE, stderr=subprocess.PIPE, timeout=60, env=home)
    if ended.returncode != 0:
        raise AssertionError(f"tshark ended with {ended.returncode}: {ended.stderr.decode()}")
    return [found.split("\t") for found in ended.stdout.decode().splitlines()]


@unittest.skipUnless(shutil.which("tshark"), "tshark isn't installed")
class Tshark(ToolTest):
    def test_tshark_finds_what_stands_in_the_trace(self):
        objects = [(1, 5), (1, 2**32 - 1), (4_000_000_000, 7)]
        packets = [lct_header(*each) + struct.pack(">HH", 3, place) + b"hello" for place, each in enumerate(objects)]
        wanted = [(SECOND, "Good", *each, 3, place) for place, each in enumerate(objects)]
        fields = ("frame.time_epoch", "udp.checksum.status", "rmt-lct.tsi", "rmt-lct.toi", "rmt-fec.sbn", "rmt-fec.esi")
        for words in ((), ("--address", "ff15::1")):
            with tempfile.TemporaryDirectory() as folder:
                path = os.path.join(folder, "written.pcap")
                with open(path, "wb") as file:
                    file.write(forked(WRITER, words, trace_of(*packets))[1])
                found = []
                for time, status, *numbers in tshark_finds(path, fields, folder):
                    # Some versions write the number of this status.
                    status = "Good" if status == "1" else status
                    found.append((int(time.split(".")[0]), status, *(int(number, 0) for number in numbers)))
            self.same(f"tshark {words}", found, wanted)


if __name__ == "__main__":
    unittest.main()
