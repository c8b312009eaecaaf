"""`mbms_rx` and `mbms_tab` with streams that are closed, full, slow, or left by their reader."""

import os
import signal
import unittest

from support.programs import (
    AIR_FAULT,
    DONE,
    OUT_FAULT,
    PATIENCE,
    READ_FAULT,
    USAGE,
    ProgramTest,
    check_words,
    fdt_line,
    make_words,
    path_of,
    receive_words,
    show_words,
)
from support.traces import MOMENT, described, session, symbol

DESCRIPTION = session(described({5: b"hello"}))
SYMBOL = session(symbol(5, b"hello"))
TRACE = DESCRIPTION + SYMBOL
STORED = "stored 5 5 file5\n"
END = f"end ended {MOMENT} datagrams 2\n"
SHOWN = f"at {MOMENT} tsi 1 toi 5 sbn 0 esi 0 bytes 5\n"


# What reads the standard input, and its status where that can't be read.
INPUTS = ((receive_words, AIR_FAULT), (show_words, READ_FAULT), (check_words, READ_FAULT))


def programs():
    return receive_words(), show_words(), check_words(), make_words(4)


class Outputs(ProgramTest):
    """Where the first line can't be printed, no file is stored."""

    def is_stopped(self, words, **how):
        with self.subTest([os.path.basename(word) for word in words]):
            self.is_ended(self.called(words, TRACE, **how), OUT_FAULT, "")
            self.has_files({})

    def test_a_closed_standard_output(self):
        for words in programs():
            self.is_stopped(["sh", "-c", 'exec "$@" >&-', "sh", *words], stdout=None)

    @unittest.skipUnless(os.path.exists("/dev/full"), "there is no /dev/full")
    def test_a_full_standard_output(self):
        for words in programs():
            with open("/dev/full", "wb") as full:
                self.is_stopped(words, stdout=full)

    def test_a_standard_output_that_is_open_for_reading_only(self):
        for words in programs():
            with open(os.devnull, "rb") as unwritable:
                self.is_stopped(words, stdout=unwritable)

    def test_a_pipe_whose_reader_went_away(self):
        for words in programs():
            for restored in (True, False):
                end, start = os.pipe()
                os.close(end)
                self.is_stopped(words, stdout=start, restore_signals=restored)
                os.close(start)

    @unittest.skipUnless(os.path.exists("/dev/full"), "there is no /dev/full")
    def test_refused_arguments_where_usage_cannot_be_printed(self):
        with open("/dev/full", "wb") as full:
            self.is_stopped([path_of("mbms_tab")], stdout=full)
            ended = self.called([path_of("mbms_rx")], stdout=full)
        self.assertEqual((ended.status, ended.lines), (OUT_FAULT, ""))

    def test_a_closed_standard_error_changes_nothing(self):
        lines = fdt_line(1) + STORED + END
        ended = self.called(["sh", "-c", 'exec "$@" 2>&-', "sh", *receive_words()], TRACE)
        self.is_ended(ended, DONE, lines)
        self.has_files({5: b"hello"})


class Inputs(ProgramTest):
    def is_unread(self, **how):
        """Nothing is heard, put or shown."""
        for words, status in INPUTS:
            words = words()
            with self.subTest(words):
                closed = ["sh", "-c", 'exec "$@" <&-', "sh", *words]
                self.is_ended(self.called(words if how else closed, **how), status, "")
                self.has_files({})

    def test_a_closed_standard_input(self):
        self.is_unread()

    def test_a_folder_as_standard_input(self):
        folder = os.open(self.room, os.O_RDONLY)
        self.addCleanup(os.close, folder)
        self.is_unread(stdin=folder)

    def test_refused_arguments_do_not_need_it(self):
        unread = ["sh", "-c", 'exec "$@" <&-', "sh"]
        self.is_refused(self.called([*unread, path_of("mbms_rx")]), "--tsi <tsi>")
        self.is_ended(self.called([*unread, path_of("mbms_tab")]), USAGE, "usage\n")

    def test_all_streams_closed(self):
        for words, status in (*INPUTS, (lambda: make_words(4), OUT_FAULT)):
            ended = self.called(["sh", "-c", 'exec "$@" <&- >&- 2>&-', "sh", *words()])
            self.is_ended(ended, status, "")
            self.has_files({})


class SlowStreams(ProgramTest):
    """No line, and no file, waits for a record that hasn't come."""

    def give(self, child, data):
        child.stdin.write(data)
        child.stdin.flush()

    def line(self, child):
        return child.stdout.readline().decode()

    def finish(self, child, status, lines):
        found, told = child.communicate(timeout=PATIENCE)
        self.assertEqual((told, child.returncode, found.decode()), (b"", status, lines))

    def test_each_record_is_received_when_it_comes(self):
        child = self.started(receive_words())
        self.give(child, DESCRIPTION)
        self.assertEqual(self.line(child), fdt_line(1))
        self.give(child, SYMBOL + SYMBOL[:20])
        self.assertEqual(self.line(child), STORED)
        self.has_files({5: b"hello"})
        self.give(child, SYMBOL[20:])
        self.finish(child, DONE, END.replace("datagrams 2", "datagrams 3") + "dropped done 1\n")

    def test_each_record_is_shown_when_it_comes(self):
        child = self.started(show_words())
        for _ in range(3):
            self.give(child, SYMBOL)
            self.assertEqual(self.line(child), SHOWN)
        self.give(child, SYMBOL + SYMBOL[:20])
        self.assertEqual(self.line(child), SHOWN)
        self.give(child, SYMBOL[20:])
        self.assertEqual(self.line(child), SHOWN)
        self.finish(child, DONE, "")

    def test_a_trace_that_comes_byte_by_byte(self):
        child = self.started(receive_words())
        for place in range(len(TRACE)):
            self.give(child, TRACE[place : place + 1])
        self.finish(child, DONE, fdt_line(1) + STORED + END)
        self.has_files({5: b"hello"})

    def test_a_program_that_is_stopped_and_goes_on(self):
        child = self.started(receive_words())
        self.give(child, DESCRIPTION)
        self.assertEqual(self.line(child), fdt_line(1))
        for number in (signal.SIGSTOP, signal.SIGCONT, signal.SIGWINCH):
            child.send_signal(number)
        self.give(child, SYMBOL)
        self.finish(child, DONE, STORED + END)
        self.has_files({5: b"hello"})

    def test_a_reader_that_goes_away_between_two_lines(self):
        """The file is stored before its line is printed, so it is there."""
        child = self.started(receive_words())
        self.give(child, DESCRIPTION)
        self.assertEqual(self.line(child), fdt_line(1))
        child.stdout.close()
        self.give(child, SYMBOL + session(symbol(6, b"of another")))
        child.stdin.close()
        self.assertEqual((child.stderr.read(), child.wait(PATIENCE)), (b"", OUT_FAULT))
        self.has_files({5: b"hello"})

    def test_a_reader_that_goes_away_while_a_trace_is_shown(self):
        child = self.started(show_words())
        self.give(child, SYMBOL)
        self.assertEqual(self.line(child), SHOWN)
        child.stdout.close()
        self.give(child, SYMBOL)
        child.stdin.close()
        self.assertEqual((child.stderr.read(), child.wait(PATIENCE)), (b"", OUT_FAULT))


if __name__ == "__main__":
    unittest.main()
