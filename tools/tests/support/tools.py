"""The tools: in a process without a new start of Python, and as they are called."""

import importlib.machinery
import importlib.util
import os
import subprocess
import sys
import tempfile
import traceback
import unittest

FOLDER = os.path.dirname(os.path.dirname(os.path.dirname(os.path.abspath(__file__))))


def loaded(name):
    """The tool as a module."""
    loader = importlib.machinery.SourceFileLoader(name, os.path.join(FOLDER, name))
    module = importlib.util.module_from_spec(importlib.util.spec_from_loader(name, loader))
    loader.exec_module(module)
    return module


sys.dont_write_bytecode = True
sys.path.append(FOLDER)
READER, WRITER = loaded("pcap2trace"), loaded("trace2pcap")
# Small, so that results go the ways of large ones too.
READER.outside.PIECE = READER.outside.HELD_IN_MEMORY = 10_000


def child_main(module, words, files):
    """What the child process does: the whole tool, over FILES as its three streams. Doesn't return."""
    status = 70
    try:
        for number, file in enumerate(files):
            os.dup2(file.fileno(), number)
        sys.stdin, sys.stdout, sys.stderr = (open(number, mode, closefd=False) for number, mode in enumerate("rww"))
        sys.argv = [module.__name__, *words]
        status = module.main()
    except BaseException:
        os.write(2, traceback.format_exc().encode())
    finally:
        os._exit(status)


def forked(module, words, given):
    """The status, the result and the lines of the tool over the bytes that are GIVEN."""
    with tempfile.TemporaryFile() as source, tempfile.TemporaryFile() as result, tempfile.TemporaryFile() as lines:
        source.write(given)
        source.seek(0)
        child = os.fork()
        if child == 0:
            child_main(module, words, (source, result, lines))
        _, ended = os.waitpid(child, 0)
        result.seek(0)
        lines.seek(0)
        return os.waitstatus_to_exitcode(ended), result.read(), lines.read().decode()


def script(name, *words, given=b"", **streams):
    """The status, the result and the lines of the tool as a user calls it."""
    streams = {"stdout": subprocess.PIPE, "stderr": subprocess.PIPE, **streams}
    # Without this variable, whether bytecode is written is the tool's own choice.
    streams["env"] = {name: value for name, value in os.environ.items() if name != "PYTHONDONTWRITEBYTECODE"}
    ended = subprocess.run([os.path.join(FOLDER, name), *words], input=given, timeout=60, **streams)
    return ended.returncode, ended.stdout, ended.stderr.decode()


class ToolTest(unittest.TestCase):
    """Each comparison is a part of its own, so that one that doesn't hold ends no other."""

    def same(self, name, found, wanted):
        with self.subTest(name):
            if found != wanted:
                self.fail(f"found {found!r:.2000}, wanted {wanted!r:.2000}")

    def refused(self, name, outcome, *words):
        """Status 1, nothing on standard output, and one line with each of the words on standard error."""
        status, result, lines = outcome
        self.same(f"{name}: status and result", (status, result), (1, b""))
        self.same(f"{name}: one line in {lines!r}", (lines.count("\n"), lines[-1:]), (1, "\n"))
        for word in words:
            self.same(f"{name}: {word!r} in {lines!r}", word in lines, True)

    def read(self, name, capture, wanted, words=()):
        """What `pcap2trace` makes of the capture is the wanted status, trace and lines."""
        self.same(name, forked(READER, words, capture), wanted)
