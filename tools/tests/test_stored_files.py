"""The files that `mbms_rx` stores: their names, their bytes, and what stands in the way."""

import os
import random
import resource
import shutil
import signal
import subprocess
import unittest

from support.programs import DONE, INCOMPLETE, STORE_FAULT, ProgramTest, fdt_line, path_of, receive_words
from support.traces import MOMENT, described, files_session, session, symbol

HELLO = {5: b"hello"}
LINES = fdt_line(1) + f"stored 5 5 file5\nend ended {MOMENT} datagrams 2\n"
# Under the name of a file that is still written.
PART = ".5.part"
NOBODY = 65_534


class StoredFiles(ProgramTest):
    def stores(self, files):
        lines = [fdt_line(len(files))]
        lines += [f"stored {toi} {len(data)} file{toi}\n" for toi, data in files.items()]
        lines += [f"end ended {MOMENT} datagrams {len(files) + 1}\n"]
        self.is_ended(self.called(receive_words(), files_session(files)), DONE, "".join(lines))
        self.has_files(files)

    def test_a_file_has_its_bytes_and_the_name_of_its_toi(self):
        self.stores(HELLO)

    def test_tois_above_64_bits_have_names_of_their_own(self):
        self.stores({toi: str(toi).encode() for toi in (5, 2**32 + 5, 2**64 + 5, 2**96 + 5, 2**112 - 1)})

    def test_the_largest_payload_is_stored_whole(self):
        """A datagram of 65,535 bytes, and payloads at the edges of a buffer of 64 KiB less its header."""
        chance = random.Random(5)
        self.stores({length: chance.randbytes(length) for length in (1, 1000, 1001, 4096, 65_514, 65_515)})

    def test_an_earlier_file_is_replaced_and_not_written_over(self):
        """A hard link to it keeps its bytes."""
        self.stores(HELLO)
        os.link(os.path.join(self.folder, "5"), os.path.join(self.room, "kept"))
        self.stores({5: b"another"})
        with open(os.path.join(self.room, "kept"), "rb") as kept:
            self.assertEqual(kept.read(), b"hello")

    def test_files_go_into_the_current_folder_alone(self):
        others = [os.path.join(self.room, name) for name in ("home", "temporary", "old")]
        for other in others:
            os.mkdir(other)
        places = dict(zip(("HOME", "TMPDIR", "PWD"), others))
        ended = self.called(receive_words(), files_session(HELLO), env={**os.environ, **places})
        self.is_ended(ended, DONE, LINES)
        self.has_files(HELLO)
        self.assertEqual([os.listdir(other) for other in others], [[], [], []])

    def test_a_location_is_no_path(self):
        for location in ("../../escaped", "/escaped", "6"):
            with self.subTest(location):
                ended = self.called(receive_words(), files_session(HELLO, {5: location}))
                self.is_ended(ended, DONE, LINES.replace("file5", location))
                self.has_files(HELLO)
                self.assertEqual(os.listdir(self.room), ["files"])


class Hindrances(ProgramTest):
    def is_stored(self):
        self.is_ended(self.called(receive_words(), files_session(HELLO)), DONE, LINES)

    def is_refused(self, **how):
        """The file isn't stored, and no line says that it is."""
        ended = self.called(how.pop("words", receive_words()), files_session(HELLO), **how)
        self.is_ended(ended, STORE_FAULT, fdt_line(1))

    def at(self, name):
        return os.path.join(self.folder, name)

    def test_a_link_under_the_temporary_name_is_not_followed(self):
        target = os.path.join(self.room, "target")
        with open(target, "wb") as file:
            file.write(b"untouched")
        os.symlink(target, self.at(PART))
        self.is_stored()
        self.has_files(HELLO)
        self.assertFalse(os.path.islink(self.at("5")))
        with open(target, "rb") as file:
            self.assertEqual(file.read(), b"untouched")

    def test_a_link_to_nothing_under_the_temporary_name_makes_nothing(self):
        os.symlink(os.path.join(self.room, "target"), self.at(PART))
        self.is_stored()
        self.has_files(HELLO)
        self.assertEqual(os.listdir(self.room), ["files"])

    def test_a_fifo_under_the_temporary_name_does_not_hold_the_program(self):
        os.mkfifo(self.at(PART))
        self.is_stored()
        self.has_files(HELLO)

    def test_a_part_of_a_file_that_an_earlier_run_left_is_replaced(self):
        with open(self.at(PART), "wb") as file:
            file.write(b"a longer beginning")
        os.link(self.at(PART), os.path.join(self.room, "kept"))
        self.is_stored()
        self.has_files(HELLO)
        with open(os.path.join(self.room, "kept"), "rb") as kept:
            self.assertEqual(kept.read(), b"a longer beginning")

    def test_a_folder_under_the_temporary_name(self):
        os.mkdir(self.at(PART))
        self.is_refused()
        self.assertEqual(os.listdir(self.folder), [PART])

    def test_a_folder_under_the_name(self):
        os.mkdir(self.at("5"))
        self.is_refused()
        self.assertEqual(os.listdir(self.folder), ["5"])

    def test_a_link_under_the_name_is_replaced(self):
        os.symlink("target", self.at("5"))
        self.is_stored()
        self.has_files(HELLO)
        self.assertFalse(os.path.islink(self.at("5")))

    def test_what_was_stored_before_stays(self):
        os.mkdir(self.at("6"))
        ended = self.called(receive_words(), files_session({5: b"hello", 6: b"lost", 7: b"unheard"}))
        self.is_ended(ended, STORE_FAULT, fdt_line(3) + "stored 5 5 file5\n")
        self.assertEqual(sorted(os.listdir(self.folder)), ["5", "6"])

    @unittest.skipUnless(os.path.isdir("/proc"), "there is no /proc")
    def test_a_folder_that_takes_no_files(self):
        self.is_refused(cwd="/proc")

    def test_a_folder_that_is_gone(self):
        child = self.started(receive_words())
        os.rmdir(self.folder)
        lines, told = child.communicate(files_session(HELLO), timeout=60)
        self.assertEqual((told, child.returncode, lines.decode()), (b"", STORE_FAULT, fdt_line(1)))

    def test_a_folder_without_write_permission(self):
        # A user who may write everywhere would test nothing, so root runs a copy of the program as another.
        program = os.path.join(self.room, "mbms_rx")
        shutil.copy(path_of("mbms_rx"), program)
        for path, mode in ((self.room, 0o755), (program, 0o755), (self.folder, 0o555)):
            os.chmod(path, mode)
        how = {"preexec_fn": become_nobody} if os.geteuid() == 0 else {}
        try:
            self.is_refused(words=[program, "--tsi", "1"], **how)
        except (subprocess.SubprocessError, PermissionError):
            self.skipTest("no other user than root can run a program here")
        self.has_files({})


def become_nobody():
    os.setgroups([])
    os.setgid(NOBODY)
    os.setuid(NOBODY)


class FileSizes(ProgramTest):
    """A limit on the sizes of files, which is met in the middle of a file."""

    FILES = {5: b"hello", 6: bytes(2000), 7: b"unheard"}

    def limited(self):
        resource.setrlimit(resource.RLIMIT_FSIZE, (1000, 1000))
        resource.setrlimit(resource.RLIMIT_CORE, (0, 0))

    def test_where_the_signal_is_ignored_the_store_fails(self):
        how = {"preexec_fn": self.limited, "restore_signals": False}
        ended = self.called(receive_words(), files_session(self.FILES), **how)
        self.is_ended(ended, STORE_FAULT, fdt_line(3) + "stored 5 5 file5\n")
        self.has_files({5: b"hello"})

    def test_else_the_system_ends_the_program(self):
        """What was written stays under the temporary name, and the next run replaces it."""
        ended = self.called(receive_words(), files_session(self.FILES), preexec_fn=self.limited)
        self.is_ended(ended, -signal.SIGXFSZ, fdt_line(3) + "stored 5 5 file5\n")
        self.has_files({5: b"hello", ".6.part": bytes(1000)})
        self.called(receive_words(), files_session(self.FILES))
        self.has_files(self.FILES)


class MissingFiles(ProgramTest):
    def test_a_payload_that_is_too_short_is_not_stored(self):
        """The symbol length is above the length of the file, so its one symbol has as many bytes as the file."""
        for payload in (b"", b"hell"):
            with self.subTest(payload):
                ended = self.called(receive_words(), session(described(HELLO), symbol(5, payload)))
                end = f"end ended {MOMENT} datagrams 2\ndropped length 1\nincomplete 5 1\n"
                self.is_ended(ended, INCOMPLETE, fdt_line(1) + end)
                self.has_files({})

    def test_bytes_behind_the_end_of_a_file_are_not_stored(self):
        """They may fill its last symbol up."""
        ended = self.called(receive_words(), session(described(HELLO), symbol(5, b"hello!")))
        self.is_ended(ended, DONE, LINES)
        self.has_files(HELLO)


if __name__ == "__main__":
    unittest.main()
