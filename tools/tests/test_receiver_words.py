"""The arguments of `mbms_rx`: each option at both ends of its range, how they are spelled, and what they name."""

import os
import unittest

from support.programs import AIR_FAULT, DONE, STORE_FAULT, USAGE, ProgramTest, fdt_line, path_of, receive_words
from support.traces import MOMENT, described, files_session, record, session, symbol

HELLO = {5: b"hello"}
LINES = fdt_line(1) + f"stored 5 5 file5\nend ended {MOMENT} datagrams 2\n"
# Of a trace without records.
EMPTY = "end ended 0 datagrams 0\n"

MOST = 2**48 - 1
# The least and the greatest number of each option.
RANGES = {
    "tsi": (0, MOST),
    "until": (0, MOST),
    "offset": (0, 604_800),
    "period": (0, 604_800),
    "attempts": (1, 8),
    "workers": (1, 64),
    "percent": (0, 100),
}
NAMES = {"mode": ("symbols", "ranges"), "report": ("none", "rack", "star", "star-all")}
PATHS = ("/", "//", "/" + "a" * 255, "/azAZ09-._~%")
NO_PATHS = ("", "a", "a/", "/" + "a" * 256, "/a b", "/a?b", "/\u00e9")


def with_option(name, value):
    """Words with this option, and with a session's number."""
    others = () if name == "tsi" else ("--tsi", "1")
    return [path_of("mbms_rx"), *others, f"--{name}={value}"]


class Values(ProgramTest):
    def is_taken(self, name, value):
        with self.subTest(f"--{name}={value}"):
            self.is_ended(self.called(with_option(name, value)), DONE, EMPTY)

    def is_outside(self, name, value):
        with self.subTest(f"--{name}={value}"):
            ended = self.called(with_option(name, value), files_session(HELLO))
            self.is_refused(ended, f"error: invalid value '{value}' for '--{name} <{name}>': ")
            self.has_files({})

    def test_both_ends_of_each_range(self):
        for name, (least, greatest) in RANGES.items():
            for number in (least, greatest, f"{'0' * 50}{greatest}"):
                self.is_taken(name, number)
            for number in (least - 1, greatest + 1, 10 * greatest, 2**64 + least, 2**128 + least):
                self.is_outside(name, number)

    def test_numbers_are_digits_alone(self):
        for name, (least, _) in RANGES.items():
            for number in ("", f"+{least}", f" {least}", f"{least} ", "0x1", "1a", "1.", "1e0", "\u0661"):
                self.is_outside(name, number)

    def test_each_name(self):
        for option, names in NAMES.items():
            for name in names:
                self.is_taken(option, name)
                for other in (name.upper(), name[:-1], f"{name}s", f"{name} ", ""):
                    self.is_outside(option, other)

    def test_paths(self):
        for path in PATHS:
            self.is_taken("path", path)
        for path in NO_PATHS:
            self.is_outside("path", path)


class Spelling(ProgramTest):
    def test_words_that_are_taken(self):
        several = ["--workers=2", "--tsi", "1", "--mode=ranges", "--percent", "0"]
        for words in (["--tsi", "1"], ["--tsi=1"], several, ["--tsi=1", "--"]):
            with self.subTest(words):
                self.is_ended(self.called([path_of("mbms_rx"), *words], files_session(HELLO)), DONE, LINES)

    def test_words_that_are_refused(self):
        """Nothing is read and stored."""
        lacking, asking = "--tsi <tsi>", "help is asked for"
        unasked = "neither '--listen' nor a server is taken yet"
        cases = [
            ([], lacking),
            (["--workers", "1"], lacking),
            ([b"\xff", b"1"], lacking),
            (["--tsi"], "a value is required for '--tsi <tsi>'"),
            (["--tsi", "1", "--workers"], "a value is required for '--workers <workers>'"),
            (["--tsi", "-1"], "'-1'"),
            (["--tsi", "1", "--tsi", "1"], "'--tsi <tsi>' cannot be used multiple times"),
            (["--tsi", "1", "--path=/", "--path=/"], "'--path <path>' cannot be used multiple times"),
            (["--tsi", "1", "--unknown", "1"], "unexpected argument '--unknown'"),
            (["--TSI", "1"], "unexpected argument '--TSI'"),
            (["-tsi", "1"], "unexpected argument '-t'"),
            (["--help"], asking),
            (["-h"], asking),
            (["--tsi", "1", "--help"], asking),
            (["--tsi", "1", "host:80"], unasked),
            (["--tsi", "1", "host:80", "other:81"], unasked),
            (["--tsi", "1", "--listen", "239.255.0.1:4001"], unasked),
            (["--tsi", "1", "--listen="], unasked),
            (["--tsi", "1", "host 80"], "invalid value 'host 80' for '[server]...'"),
            (["--tsi", "1", ""], "invalid value '' for '[server]...'"),
            (["--tsi", "1", "a" * 257], "for '[server]...': 1 to 256 bytes"),
        ]
        for words, why in cases:
            with self.subTest(words):
                self.is_refused(self.called([path_of("mbms_rx"), *words], files_session(HELLO)), why)
                self.has_files({})

    def test_a_standard_error_that_takes_nothing(self):
        """The status and the line say the same."""
        closed = ["sh", "-c", 'exec "$@" 2>&-', "sh", path_of("mbms_rx"), "--tsi"]
        self.is_ended(self.called(closed), USAGE, "usage\n")
        if os.path.exists("/dev/full"):
            with open("/dev/full", "wb") as full:
                self.is_ended(self.called(closed[-2:], stderr=full), USAGE, "usage\n")


class Files(ProgramTest):
    """The files and the folder that options name."""

    def setUp(self):
        super().setUp()
        self.other = os.path.join(self.room, "other")

    def received(self, *words, given=b""):
        return self.called(receive_words(1, None, *words), given)

    def test_a_trace_in_place_of_the_standard_input(self):
        with open(self.other, "wb") as file:
            file.write(files_session(HELLO))
        for words in (("--trace", self.other), (f"--trace={self.other}",), ("--trace", "../other")):
            with self.subTest(words):
                self.is_ended(self.received(*words, given=session(described({6: b"world"}))), DONE, LINES)
                self.has_files(HELLO)
        unread = ["sh", "-c", 'exec "$@" <&-', "sh", *receive_words(1, None, "--trace", self.other)]
        self.is_ended(self.called(unread), DONE, LINES)

    def test_a_trace_that_cannot_be_read(self):
        for name in (self.other, self.room, ""):
            with self.subTest(name):
                ended = self.received(f"--trace={name}", given=files_session(HELLO))
                self.is_ended(ended, AIR_FAULT, "")
                self.has_files({})

    def test_a_folder_for_the_files(self):
        os.mkdir(self.other)
        for words in (("--folder", self.other), ("--folder=../other",)):
            with self.subTest(words):
                self.is_ended(self.received(*words, given=files_session(HELLO)), DONE, LINES)
                self.has_files(HELLO, self.other)
                self.has_files({})
                os.remove(os.path.join(self.other, "5"))
        self.is_ended(self.received("--folder", ".", given=files_session(HELLO)), DONE, LINES)
        self.has_files(HELLO)

    def test_a_folder_that_is_not_there(self):
        """It isn't made."""
        ended = self.received("--folder", self.other, given=files_session(HELLO))
        self.is_ended(ended, STORE_FAULT, fdt_line(1))
        self.assertFalse(os.path.exists(self.other))


class Until(ProgramTest):
    """A record past the last moment to listen ends the session, and isn't heard."""

    TRACE = session(described(HELLO), symbol(5, b"hello")) + record(MOMENT + 1, b"\0")

    def received(self, moment, trace=TRACE):
        return self.called(receive_words(1, None, "--until", str(moment)), trace)

    def test_a_later_record(self):
        lines = fdt_line(1) + f"stored 5 5 file5\nend quiet {MOMENT} datagrams 2\n"
        self.is_ended(self.received(MOMENT), DONE, lines)
        self.has_files(HELLO)

    def test_the_first_record_is_later(self):
        for moment in (0, MOMENT - 1):
            with self.subTest(moment):
                self.is_ended(self.received(moment), DONE, f"end quiet {moment} datagrams 0\n")
                self.has_files({})

    def test_no_record_is_later(self):
        lines = fdt_line(1) + f"stored 5 5 file5\nend ended {MOMENT + 1} datagrams 3\ndropped short 1\n"
        for moment in (MOMENT + 1, MOST):
            with self.subTest(moment):
                self.is_ended(self.received(moment), DONE, lines)
        self.is_ended(self.received(MOMENT, files_session(HELLO)), DONE, LINES)


if __name__ == "__main__":
    unittest.main()
