"""What `mbms_rx` prints and ends with, over whole, cut and long traces."""

import os
import unittest

from support.programs import BROKEN, DONE, INCOMPLETE, ProgramTest, fdt_line, receive_words
from support.traces import (
    MOMENT,
    TSI,
    described,
    file_element,
    files_session,
    instance,
    instance_packets,
    session,
    symbol,
    text,
)

HELLO = {5: b"hello"}


def end(datagrams, cause="ended", moment=MOMENT):
    return f"end {cause} {moment} datagrams {datagrams}\n"


def spaced(length):
    """A text of so many bytes, which describes one file."""
    whole = text(file_element(5, 5, "hello.txt"))
    return whole.replace(b"</FDT", b" " * (length - len(whole)) + b"</FDT")


class Sessions(ProgramTest):
    def received(self, trace, status, lines, files):
        self.is_ended(self.called(receive_words(), trace), status, lines)
        self.has_files(files)

    def test_a_trace_of_no_bytes(self):
        self.received(b"", DONE, end(0, moment=0), {})

    def test_a_file_that_does_not_come(self):
        self.received(session(described(HELLO)), INCOMPLETE, fdt_line(1) + end(1) + "incomplete 5 1\n", {})

    def test_a_location_of_2048_bytes_is_printed_whole(self):
        location = "/" + "%" * 2047
        printed = "/" + "%25" * 2047
        lines = fdt_line(1) + f"stored 5 5 {printed}\n" + end(2)
        self.received(files_session(HELLO, {5: location}), DONE, lines, HELLO)

    def test_a_longer_location_is_refused(self):
        trace = files_session(HELLO, {5: "/" + "a" * 2048})
        refused = "fdt 1 started 0 prolonged 0 conflicting 0 refused 1 norow 0 full 0\n"
        self.received(trace, DONE, refused + end(2) + "dropped unknown 1\n", {})

    def test_the_longest_text_in_one_packet(self):
        """A datagram has room for a byte more behind a short header."""
        for length, short in ((65_495, False), (65_496, True)):
            with self.subTest(length):
                trace = session(instance(spaced(length), short=short), symbol(5, b"hello"))
                self.received(trace, DONE, fdt_line(1) + "stored 5 5 hello.txt\n" + end(2), HELLO)

    def test_a_text_of_the_greatest_length(self):
        packets = instance_packets(spaced(65_536), 4_096)
        trace = session(*packets, symbol(5, b"hello"))
        self.received(trace, DONE, fdt_line(1) + "stored 5 5 hello.txt\n" + end(17), HELLO)

    def test_a_longer_text_is_not_heard(self):
        packets = instance_packets(spaced(65_537), 4_096)
        trace = session(*packets, symbol(5, b"hello"))
        self.received(trace, DONE, end(18) + "dropped fdtshape 17\ndropped unknown 1\n", {})

    def test_many_datagrams(self):
        """No datagram is the one behind which the receiver gives up."""
        others = [symbol(1_000_000 + number, b"of another") for number in range(5000)]
        trace = session(described(HELLO), *others, symbol(5, b"hello"))
        lines = fdt_line(1) + "stored 5 5 file5\n" + end(5002) + "dropped unknown 5000\n"
        self.received(trace, DONE, lines, HELLO)

    def test_many_lives(self):
        """As many as there may be at most."""
        shared = (
            ' FEC-OTI-FEC-Encoding-ID="0" FEC-OTI-Maximum-Source-Block-Length="1" FEC-OTI-Encoding-Symbol-Length="9"'
        )
        elements = "".join(f'<File Content-Location="f" TOI="{toi}" Content-Length="1"/>' for toi in range(1, 1025))
        whole = f'<FDT-Instance Expires="3900000000"{shared}>{elements}</FDT-Instance>'.encode()
        trace = session(instance(whole), *(symbol(toi, b"x") for toi in range(1024, 0, -1)), symbol(1025, b"x"))
        stored = "".join(f"stored {toi} 1 f\n" for toi in range(1024, 0, -1))
        lines = fdt_line(1024) + stored + end(1026) + "dropped unknown 1\n"
        self.received(trace, DONE, lines, {toi: b"x" for toi in range(1, 1025)})

    def test_what_comes_behind_close_session_is_not_heard(self):
        closing = bytes.fromhex("10820300" "00000000" "00000001")
        trace = session(described(HELLO), closing, symbol(5, b"hello"))
        lines = fdt_line(1) + end(2, "closed") + "dropped notoi 1\nincomplete 5 1\n"
        self.received(trace, INCOMPLETE, lines, {})

    def test_bytes_that_are_no_session(self):
        datagrams = [b"", b"\0", bytes(65_535), b"\xff" * 65_535, instance(b"<FDT-Instance Expires='1'>")]
        lines = f"fdt 1 fault 2 at 26\n{end(5)}dropped short 2\ndropped version 2\n"
        self.received(session(*datagrams), DONE, lines, {})


class CutTraces(ProgramTest):
    def test_each_place_of_a_cut(self):
        """What came before the record that is cut is received."""
        records = [session(described(HELLO)), session(symbol(5, b"hello")), session(symbol(6, b"of another"))]
        trace = b"".join(records)
        ends = [len(b"".join(records[:count])) for count in range(len(records) + 1)]
        printed = ["", fdt_line(1), fdt_line(1) + "stored 5 5 file5\n"]
        for size in range(1, len(trace)):
            if size in ends or (ends[0] + 9 < size < ends[1] - 9 and size % 16):
                continue
            count = sum(end <= size for end in ends) - 1
            with self.subTest(size):
                ended = self.called(receive_words(), trace[:size])
                self.is_ended(ended, BROKEN, f"{printed[count]}broken {ends[count]}\n")
                self.has_files(HELLO if count == 2 else {})


class Arguments(ProgramTest):
    def test_each_session_by_its_number(self):
        for tsi in ("0", "1", "0" * 50 + "1", str(2**48 - 1)):
            with self.subTest(tsi):
                ended = self.called(receive_words(tsi), session(symbol(6, b"of another")))
                reason = "unknown" if int(tsi) == TSI else "othersession"
                self.is_ended(ended, DONE, end(1) + f"dropped {reason} 1\n")


if __name__ == "__main__":
    unittest.main()
