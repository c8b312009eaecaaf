"""`mbms_rx` and `mbms_tab` with little memory: what they leave is a beginning, and their status says so."""

import os
import resource
import unittest

from support.programs import DONE, MEMORY, USAGE, ProgramTest, fdt_line, path_of, receive_words, show_words
from support.traces import MOMENT, files_session, session, symbol

FILES = {5: b"hello", 6: bytes(65_515), 7: b"last"}
# In bytes. No program starts with the first, and each has enough with the last.
FIRST, LAST = 64 << 10, 32 << 20
FAR, NEAR = 64 << 10, 4 << 10
# The status of the system's loader where it finds no room for the C library.
UNLOADED = 127


def limiting(size):
    def limit():
        resource.setrlimit(resource.RLIMIT_AS, (size, size))
        resource.setrlimit(resource.RLIMIT_CORE, (0, 0))

    return limit


class Memory(ProgramTest):
    """Each limit from one at which the system can't start the program to one at which it has enough."""

    def limited(self, size, words, given):
        return self.called(words, given, preexec_fn=limiting(size))

    def near_start(self, words, given):
        """A limit under which the system can't start the program, near one under which it can."""
        for size in range(FIRST, LAST, FAR):
            status = self.limited(size, words, given).status
            if status >= 0 and status != UNLOADED:
                return size - FAR
        self.fail("it doesn't start")

    def under_each_limit(self, words, given):
        """How the program ends under each limit at which it starts, up to the first that is enough."""
        reached = None
        for size in range(self.near_start(words, given), LAST, NEAR):
            ended = self.limited(size, words, given)
            if ended.status == UNLOADED or (ended.status < 0 and reached is None):
                self.assertIn(reached, (None, UNLOADED))
            else:
                yield ended
            if ended.status in (UNLOADED, MEMORY):
                reached = ended.status
            elif reached is not None or ended.status >= 0:
                break
        self.assertEqual(reached, MEMORY)

    def is_beginning(self, ended, lines):
        """Whole lines of the first part were printed, and nothing was told."""
        self.assertEqual((ended.told, ended.status), ("", MEMORY))
        self.assertTrue(lines.startswith(ended.lines) and ended.lines[-1:] in ("", "\n"), ended.lines)

    def test_a_trace_is_shown(self):
        numbers = range(1, 200)
        trace = session(*(symbol(number, bytes(number)) for number in numbers))
        lines = "".join(f"at {MOMENT} tsi 1 toi {number} sbn 0 esi 0 bytes {number}\n" for number in numbers)
        for ended in self.under_each_limit(show_words(), trace):
            if ended.status != DONE:
                self.is_beginning(ended, lines)
        self.is_ended(ended, DONE, lines)

    def test_a_session_is_received(self):
        """A file is put before its line is printed, so there may be one file more than lines."""
        lines = fdt_line(3) + "".join(f"stored {toi} {len(data)} file{toi}\n" for toi, data in FILES.items())
        lines += f"end ended {MOMENT} datagrams 4\n"
        for ended in self.under_each_limit(receive_words(), files_session(FILES)):
            if ended.status != DONE:
                self.is_beginning(ended, lines)
                self.has_first_files(ended.lines.count("stored "))
        self.is_ended(ended, DONE, lines)
        self.has_files(FILES)

    def has_first_files(self, count):
        found = len(os.listdir(self.folder))
        self.assertIn(found, (count, count + 1))
        self.has_files(dict(list(FILES.items())[:found]))
        for name in os.listdir(self.folder):
            os.remove(os.path.join(self.folder, name))

    def test_refused_arguments(self):
        for ended in self.under_each_limit([path_of("mbms_tab")], b""):
            if ended.status != USAGE:
                self.is_beginning(ended, "usage\n")
        self.is_ended(ended, USAGE, "usage\n")

    def test_refused_arguments_of_the_receiver(self):
        """Why they are refused is told first, where there is room for it."""
        for ended in self.under_each_limit([path_of("mbms_rx")], b""):
            if ended.status != USAGE:
                self.assertEqual((ended.status, ended.lines), (MEMORY, ""))
        self.is_refused(ended, "--tsi <tsi>")


if __name__ == "__main__":
    unittest.main()
