"""What `mbms_tab` prints and ends with."""

import unittest

from support.programs import BROKEN, DONE, USAGE, ProgramTest, path_of, show_words
from support.traces import MOMENT, described, record, session, symbol

CLOSING = bytes.fromhex("10820300" "00000000" "00000001")


def shown(toi, size, moment=MOMENT):
    return f"at {moment} tsi 1 toi {toi} sbn 0 esi 0 bytes {size}\n"


class ShownTraces(ProgramTest):
    def test_packets_and_faults(self):
        cases = [
            (b"", f"at {MOMENT} fault short\n"),
            (bytes(65_535), f"at {MOMENT} fault version\n"),
            (b"\x10\xa0\x04\x02" + bytes(12), f"at {MOMENT} fault codepoint\n"),
            (CLOSING, f"at {MOMENT} tsi 1 toi - sbn - esi - bytes -\n"),
            (symbol(5, b""), shown(5, 0)),
            (symbol(2**112 - 1, b"x"), shown(2**112 - 1, 1)),
            (symbol(5, bytes(65_515)), shown(5, 65_515)),
            (symbol(5, b"x", 65_535, 65_534), f"at {MOMENT} tsi 1 toi 5 sbn 65535 esi 65534 bytes 1\n"),
        ]
        for datagram, line in cases:
            with self.subTest(line):
                self.is_ended(self.called(show_words(), session(datagram)), DONE, line)
        whole = session(*(datagram for datagram, _ in cases))
        self.is_ended(self.called(show_words(), whole), DONE, "".join(line for _, line in cases))

    def test_the_first_and_the_last_moment(self):
        for moment in (0, 2**48 - 1):
            ended = self.called(show_words(), record(moment, symbol(5, b"x")))
            self.is_ended(ended, DONE, shown(5, 1, moment))

    def test_a_trace_of_no_bytes(self):
        self.is_ended(self.called(show_words()), DONE, "")

    def test_many_records(self):
        """No record is the one behind which the program gives up."""
        numbers = range(1, 5001)
        trace = session(*(symbol(number, bytes(number % 7)) for number in numbers))
        lines = "".join(shown(number, number % 7) for number in numbers)
        self.is_ended(self.called(show_words(), trace), DONE, lines)

    def test_each_place_of_a_cut(self):
        records = [session(symbol(1, b"one")), session(b""), session(symbol(3, b"three"))]
        lines = [shown(1, 3), f"at {MOMENT} fault short\n", shown(3, 5)]
        trace = b"".join(records)
        ends = [len(b"".join(records[:count])) for count in range(len(records) + 1)]
        for size in range(len(trace) + 1):
            count = sum(end <= size for end in ends) - 1
            with self.subTest(size):
                if size in ends:
                    self.is_ended(self.called(show_words(), trace[:size]), DONE, "".join(lines[:count]))
                else:
                    broken = "".join(lines[:count]) + f"broken {ends[count]}\n"
                    self.is_ended(self.called(show_words(), trace[:size]), BROKEN, broken)

    def test_refused_arguments_print_usage_and_read_nothing(self):
        for words in ([], [""], ["Show"], ["--show"], ["show", "show"], ["show", ""], ["make"], [b"\xff"]):
            with self.subTest(words):
                ended = self.called([path_of("mbms_tab"), *words], session(described({5: b"hello"})))
                self.is_ended(ended, USAGE, "usage\n")

    def tearDown(self):
        """It never makes a file."""
        self.has_files({})


if __name__ == "__main__":
    unittest.main()
