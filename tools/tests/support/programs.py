"""The built programs, as they are called.

They are those of `crates/NAME/out`, where `rt ci` and `rt run` leave them, or those in the folder that the variable
MBMS_BIN names.
"""

import os
import subprocess
import tempfile
import unittest
from collections import namedtuple

ROOT = os.path.dirname(os.path.dirname(os.path.dirname(os.path.dirname(os.path.abspath(__file__)))))
# In seconds. Nothing that is called here takes one.
PATIENCE = 60
DONE, INCOMPLETE, USAGE, TABLES, BROKEN, READ_FAULT, AIR_FAULT, STORE_FAULT, OUT_FAULT, MEMORY = range(10)

Ended = namedtuple("Ended", "status lines told")


def path_of(name):
    """The built program of that name."""
    folder = os.environ.get("MBMS_BIN") or os.path.join(ROOT, "crates", name, "out")
    path = os.path.join(os.path.abspath(folder), name)
    if not os.path.isfile(path):
        raise AssertionError(f"{path} isn't there: `rt ci` builds it, and so does `rt run` in crates/{name}")
    return path


def receive_words(tsi=1, tables=None, *others):
    named = [] if tables is None else ["--tables", tables]
    return [path_of("mbms_rx"), "--tsi", str(tsi), *named, *others]


def show_words():
    return [path_of("mbms_tab"), "show"]


def check_words():
    return [path_of("mbms_tab"), "check"]


def make_words(*ks):
    return [path_of("mbms_tab"), "make", *map(str, ks)]


def fdt_line(started, number=1, prolonged=0, conflicting=0, refused=0, norow=0, full=0):
    counts = f"prolonged {prolonged} conflicting {conflicting} refused {refused} norow {norow} full {full}"
    return f"fdt {number} started {started} {counts}\n"


class ProgramTest(unittest.TestCase):
    """Each test has an empty folder, in which the programs run."""

    def setUp(self):
        room = tempfile.TemporaryDirectory()
        self.addCleanup(room.cleanup)
        self.room = room.name
        self.folder = os.path.join(room.name, "files")
        os.mkdir(self.folder)

    def started(self, words, **how):
        """The program, which runs in the test's folder where no other is given."""
        streams = {"stdin": subprocess.PIPE, "stdout": subprocess.PIPE, "stderr": subprocess.PIPE}
        child = subprocess.Popen(words, **{**streams, "cwd": self.folder, **how})
        self.addCleanup(self.ended_by_force, child)
        return child

    def ended_by_force(self, child):
        """Ends a program that a test which failed has left."""
        if child.poll() is None:
            child.kill()
        for stream in (child.stdin, child.stdout, child.stderr):
            if stream:
                try:
                    stream.close()
                except BrokenPipeError:
                    pass
        child.wait()

    def written(self, words, given=b"", **how):
        """The status of the program over the bytes that are given, and what it wrote to both outputs."""
        child = self.started(words, **how)
        try:
            lines, told = child.communicate(given, timeout=PATIENCE)
        except subprocess.TimeoutExpired:
            self.fail(f"{words} had not ended after {PATIENCE} seconds")
        return Ended(child.returncode, lines or b"", (told or b"").decode(errors="replace"))

    def called(self, words, given=b"", **how):
        """The same, where it printed lines."""
        ended = self.written(words, given, **how)
        return ended._replace(lines=ended.lines.decode())

    def is_ended(self, ended, status, lines):
        """The program ended with the status, printed these lines, and told nothing else, as of a panic."""
        self.assertEqual((ended.told, ended.status, ended.lines), ("", status, lines))

    def is_refused(self, ended, why):
        """The receiver refused its arguments: it printed `usage`, and told why it did and which options there are."""
        self.assertEqual((ended.status, ended.lines), (USAGE, "usage\n"))
        self.assertTrue(ended.told.startswith("error: "), ended.told)
        self.assertIn(why, ended.told.partition("\n\n")[0])
        self.assertIn("--workers <workers>    threads, 1 to 64, else 1\n", ended.told)

    def has_files(self, files, folder=None):
        """The folder has these files and nothing else, each of them the bytes of its name."""
        folder = folder or self.folder
        self.assertEqual(sorted(os.listdir(folder)), sorted(str(name) for name in files))
        for name, wanted in files.items():
            with open(os.path.join(folder, str(name)), "rb") as file:
                found = file.read()
            if found != wanted:
                self.fail(f"{name} has {len(found)} bytes {found!r:.200}, and not {len(wanted)} bytes {wanted!r:.200}")
