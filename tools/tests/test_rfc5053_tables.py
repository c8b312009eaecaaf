"""`rfc5053tables`: over texts that are made in the layout of RFC 5053, and over the RFC itself where it lies.

The RFC is that of Debian's package `doc-rfc-std-proposed`, or the file that the variable MBMS_RFC5053 names.
"""

import contextlib
import gzip
import os
import re
import resource
import stat
import tempfile
import unittest
from unittest import mock

from support import raptor
from support.tools import ToolTest, forked, loaded, script

TOOL = loaded("rfc5053tables")
FOLDER = "/usr/share/doc/RFC"
PLACES = (f"{FOLDER}/links/rfc5053.txt.gz", f"{FOLDER}/proposed-standard/rfc5053.txt.gz")
RFC = os.environ.get("MBMS_RFC5053") or next(filter(os.path.isfile, PLACES), None)

NUMBERS = raptor.random_numbers()
TEXT = raptor.text_of(NUMBERS)
DONE = (0, b"", "")


def changed(**lists):
    """The text with other lines of lists."""
    lines = {name: raptor.listed(part) for name, part in NUMBERS._asdict().items()}
    return raptor.bytes_of(raptor.paged(raptor.lines_of(**{**lines, **lists})))


def edited(lines, old, new):
    """The lines with a change in the one in their middle."""
    middle = len(lines) // 2
    return [*lines[:middle], lines[middle].replace(old, new, 1), *lines[middle + 1 :]]


def other_lists():
    """Texts with a list that isn't the RFC's, and words of the line that refuses them."""
    for name, part, label in zip(NUMBERS._fields, NUMBERS, ("V0", "V1", "J(K)")):
        count = len(part)
        lines = raptor.listed(part)
        middle = len(lines) // 2
        above = 1 << (16 if label == "J(K)" else 32)
        for wanted, numbers in (
            (f"{label} has {count - 1} numbers, and not {count}", part[:-1]),
            (f"{label} has {count - 1} numbers", part[1:]),
            (f"{label} has {count + 1} numbers", part + [1]),
            (f"{label} has the number {above}\n", [above, *part[1:]]),
            (f"{label} has the number {above}\n", [*part[:-1], above]),
            (f"{label} has other numbers", [part[0] + 1, *part[1:]]),
            (f"{label} has other numbers", [*part[:-1], part[-1] - 1]),
            (f"{label} has other numbers", [part[1], part[0], *part[2:]]),
            (f"{label} isn't a list", [*part[:-1], "1" * 5000]),
        ):
            yield wanted, changed(**{name: raptor.listed(numbers)})
        for wanted, others in (
            (f"{label} isn't a list", []),
            (f"{label} isn't a list", edited(lines, ", ", " ")),
            (f"{label} isn't a list", edited(lines, ", ", ",, ")),
            (f"{label} isn't a list", edited(lines, ", ", ", -")),
            (f"{label} isn't a list", edited(lines, ", ", ", x")),
            (f"{label} isn't a list", edited(lines, ", ", ", \u0661")),
            (f"{label} isn't a list", [*lines[:-1], lines[-1] + ","]),
            (f"{label} isn't a list", [*lines[:middle], "   A word", *lines[middle:]]),
            (f"{label} has ", [*lines[:middle], *lines[middle + 1 :]]),
            (f"{label} has ", [*lines[:middle], lines[middle], *lines[middle:]]),
        ):
            yield wanted, changed(**{name: others})


def other_texts():
    """Texts that aren't the RFC, and words of the line that refuses them."""
    yield "no line begins with 'Request for Comments: 5053 '", b""
    yield "no line begins", TEXT.replace(b"Comments: 5053", b"Comments: 5052")
    yield "no line begins", TEXT.replace(b"Comments: 5053", b"Comments: 50530")
    yield "no line begins", TEXT.decode().encode("utf-16")
    yield "no line begins", raptor.file_of(NUMBERS)
    for heading in raptor.HEADINGS:
        short = repr(" ".join(heading.split()))
        yield f"no section {short}", TEXT.replace(b"\n" + heading.encode(), b"\n" + heading[:-1].encode())
    first, second = (f"\n{heading}\n".encode() for heading in raptor.HEADINGS[:2])
    yield "V0 isn't a list", TEXT.replace(first, b"\n\0").replace(second, first).replace(b"\n\0", second)
    yield "V0 isn't a list", TEXT.replace(b"[Page 1]", b"[Page x]")
    yield "V1 isn't a list", TEXT.replace(b"[Page 2]", b"[Page 2")
    yield "J(K) isn't a list", TEXT.replace(b"[Page 9]", b"[Page 9] 9")
    yield "V0 isn't a list", TEXT.replace(b"Standards Track", b"Other Track")
    pages = TEXT.split(b"\f\n")
    yield "J(K) has ", b"\f\n".join(pages[:5] + pages[6:])
    yield "J(K) has ", b"\f\n".join(pages[:5] + pages[4:])
    yield "has more than 1048576 bytes", TEXT + bytes((1 << 20) + 1 - len(TEXT))
    yield "has more than 1048576 bytes", gzip.compress(TEXT + bytes(1 << 20))
    packed = gzip.compress(TEXT)
    for end in (2, 3, 10, 11, 1000, len(packed) - 9, len(packed) - 1):
        yield "cut or damaged", packed[:end]
    yield "cut or damaged", packed[:-8] + bytes(4) + packed[-4:]
    yield "cut or damaged", packed + b"more"
    yield "cut or damaged", packed[:1000] + bytes(100) + packed[1100:]
    yield "no line begins", gzip.compress(packed)


class TableTest(ToolTest):
    """Each test has a folder with a text, and with room for the tables."""

    def setUp(self):
        folder = tempfile.TemporaryDirectory()
        self.addCleanup(folder.cleanup)
        self.folder = folder.name
        self.text = self.file("text", TEXT)
        self.tables = os.path.join(self.folder, "tables")

    def file(self, name, content):
        path = os.path.join(self.folder, name)
        with open(path, "wb") as file:
            file.write(content)
        return path

    def content(self, path):
        with open(path, "rb") as file:
            return file.read()

    def makes(self, name, outcome, wanted):
        """The tool said nothing, and wrote the wanted file."""
        self.same(name, outcome, DONE)
        self.same(f"{name}: the file", os.path.exists(self.tables) and self.content(self.tables), wanted)
        with contextlib.suppress(FileNotFoundError):
            os.remove(self.tables)


class TakenTest(TableTest):
    """The tool takes the numbers of the made text for those of the RFC."""

    def setUp(self):
        super().setUp()
        lists = [known._replace(digest=raptor.digest_of(part)) for known, part in zip(TOOL.LISTS, NUMBERS)]
        patch = mock.patch.object(TOOL, "LISTS", lists)
        patch.start()
        self.addCleanup(patch.stop)

    def called(self, *words):
        return forked(TOOL, words, b"")


class MadeTexts(TakenTest):
    """What is made of a text."""

    def test_all_rows(self):
        wanted = raptor.file_of(NUMBERS)
        self.same("rows", [row.k for row in raptor.read(wanted).rows], list(raptor.ALL_K))
        self.makes("all", self.called(self.text, self.tables), wanted)
        self.makes("all named", self.called(self.text, self.tables, *map(str, raptor.ALL_K)), wanted)

    def test_named_rows(self):
        for named in ((4,), (8192,), (4, 8192), (64, 5, 1000, 64), tuple(range(8000, 4, -7))):
            wanted = raptor.file_of(NUMBERS, sorted(set(named)))
            self.makes(named[:9], self.called(self.text, self.tables, *map(str, named)), wanted)
        self.makes("zeros", self.called(self.text, self.tables, "0064"), raptor.file_of(NUMBERS, [64]))

    def good_texts(self):
        """Texts with the same numbers."""
        lines = raptor.lines_of(*(raptor.listed(part) for part in NUMBERS))
        yield "gzipped", gzip.compress(TEXT)
        yield "gzipped in two parts", gzip.compress(TEXT[:9999]) + gzip.compress(TEXT[9999:])
        yield "lines that end with two characters", raptor.bytes_of(raptor.paged(lines), "\r\n")
        yield "no pages", raptor.bytes_of(lines)
        yield "form feeds before the heads of pages", TEXT.replace(b"\f\n", b"\f")
        yield "bytes of other characters", raptor.bytes_of(["\ufeff", *raptor.paged(lines), "\u00e9"])
        yield "as long as can be", TEXT + b"\n" * ((1 << 20) - len(TEXT))
        for length in (1, 2, 7, 20, 47, 49, 1000):
            yield f"pages of {length} lines", raptor.bytes_of(raptor.paged(lines, length))

    def test_other_layouts(self):
        wanted = raptor.file_of(NUMBERS, [4, 8192])
        for name, text in self.good_texts():
            self.makes(name, self.called(self.file("other", text), self.tables, "4", "8192"), wanted)

    def is_refused(self, name, text, words):
        """The text is refused with one line that has the words, and what lay in the folder stays as it was."""
        path = self.file("text", text)
        self.file("tables", b"old")
        self.refused(name, self.called(path, self.tables), f"rfc5053tables: {path}: ", *words)
        self.same(f"{name}: the folder", sorted(os.listdir(self.folder)), ["tables", "text"])
        self.makes(name, DONE, b"old")

    def test_other_numbers(self):
        for words, text in other_lists():
            self.is_refused(words, text, [words])

    def test_other_texts(self):
        for words, text in other_texts():
            self.is_refused(words, text, [words])

    def test_cut_texts(self):
        """Up to the heading behind the last list, a text can be cut nowhere."""
        end = TEXT.rindex(raptor.HEADINGS[-1].encode()) + len(raptor.HEADINGS[-1])
        headings = [TEXT.rindex(heading.encode()) for heading in raptor.HEADINGS]
        near = {place for heading in headings for place in range(heading - 12, heading + 3)}
        for cut in sorted({*near, *range(0, end, end // 60), *range(end - 30, end)}):
            self.is_refused(f"cut at {cut}", TEXT[:cut], [])
        self.makes("cut behind", self.called(self.file("text", TEXT[:end]), self.tables), raptor.file_of(NUMBERS))


class Calls(TableTest):
    """The tool as a user calls it. It knows the RFC's numbers, so that a made text isn't the RFC."""

    def test_a_made_text(self):
        self.refused("a made text", script("rfc5053tables", self.text, self.tables), "V0 has other numbers")
        self.same("the folder", os.listdir(self.folder), ["text"])

    def test_texts_that_cannot_be_read(self):
        missing = os.path.join(self.folder, "a\nb")
        self.refused("none", script("rfc5053tables", missing, self.tables), repr(missing), "can't be opened")
        self.refused("a folder", script("rfc5053tables", self.folder, self.tables), self.folder)
        self.refused("no end", script("rfc5053tables", "/dev/zero", self.tables), "/dev/zero: ", "more than")
        self.same("the folder", os.listdir(self.folder), ["text"])

    def test_wrong_arguments_print_the_usage(self):
        usage = TOOL.__doc__.strip() + "\n"
        files = (self.text, self.tables)
        wrong = [(), ("-h",), ("--help",), files[:1], ("-", self.tables), (self.text, "-"), (*files, "--all")]
        for k in ("", "3", "8193", "0", "-4", "+4", " 4", "4.0", "4-8", "4,5", "0x4", "\u0664", "1" * 5000):
            wrong += [(*files, k), (*files, "4", k), (*files, k, "4")]
        for words in wrong:
            self.same(words, forked(TOOL, words, b""), (2, b"", usage))
        self.same("the folder", os.listdir(self.folder), ["text"])


class Writing(TakenTest):
    """Where the tables go."""

    def setUp(self):
        super().setUp()
        self.wanted = raptor.file_of(NUMBERS, [4])

    def written(self, path):
        return self.called(self.text, path, "4")

    def test_files_and_links(self):
        self.addCleanup(os.umask, os.umask(0o027))
        self.same("a new file", self.written(self.tables), DONE)
        self.same("its permissions", stat.S_IMODE(os.stat(self.tables).st_mode), 0o640)
        link = os.path.join(self.folder, "link")
        os.symlink("tables", link)
        self.file("tables", b"old")
        self.same("a link to a file", self.written(link), DONE)
        self.same("the link", os.readlink(link), "tables")
        self.makes("the file behind it", DONE, self.wanted)
        self.same("a link to nothing", self.written(link), DONE)
        self.makes("the file behind it", DONE, self.wanted)
        self.same("the folder", sorted(os.listdir(self.folder)), ["link", "text"])

    def test_a_name_in_the_current_folder(self):
        self.addCleanup(os.chdir, os.getcwd())
        os.chdir(self.folder)
        self.makes("tables", self.called("text", "tables", "4"), self.wanted)

    def test_what_is_no_file(self):
        pipe = os.path.join(self.folder, "pipe")
        os.mkfifo(pipe)
        for path in (self.folder, pipe, "/dev/null", ""):
            self.refused(path, self.written(path), f"{path}: ", "no regular file")
        self.same("the pipe", stat.S_ISFIFO(os.stat(pipe).st_mode), True)
        self.refused("no folder", self.written(self.tables + "/x"), self.tables, "can't be written")
        self.same("the folder", sorted(os.listdir(self.folder)), ["pipe", "text"])

    def test_no_room(self):
        whole = TOOL.main

        def narrow():
            resource.setrlimit(resource.RLIMIT_FSIZE, (1000, 1000))
            return whole()

        self.file("tables", b"old")
        with mock.patch.object(TOOL, "main", narrow):
            self.refused("no room", self.written(self.tables), f"{self.tables}: can't be written: ")
        self.makes("the old file", DONE, b"old")
        self.same("the folder", os.listdir(self.folder), ["text"])

    @unittest.skipIf(os.geteuid() == 0, "root may write everywhere")
    def test_a_folder_that_takes_no_file(self):
        os.chmod(self.folder, 0o500)
        self.addCleanup(os.chmod, self.folder, 0o700)
        self.refused("no permission", self.written(self.tables), "can't be written")


@unittest.skipUnless(RFC, f"{PLACES[0]} isn't there: RFC 5053 is in Debian's package doc-rfc-std-proposed")
class TheRfc(TableTest):
    """Its numbers are found here by another way: in its lines that are indented and have nothing but numbers."""

    def setUp(self):
        super().setUp()
        text = self.content(RFC)
        self.plain = gzip.decompress(text) if RFC.endswith(".gz") else text
        parts = re.split("\n(?:5[.]6[.]1|5[.]6[.]2|5[.]7|6)[.]  ", self.plain.decode())
        lists = [re.findall("^   [0-9][0-9, ]*$", part, re.MULTILINE) for part in parts[1:4]]
        self.numbers = raptor.Numbers(*([int(n) for n in re.findall("[0-9]+", " ".join(part))] for part in lists))

    def test_the_rfc(self):
        self.same("counts", [len(part) for part in self.numbers], [256, 256, len(raptor.ALL_K)])
        wanted = raptor.file_of(self.numbers)
        self.makes("all", script("rfc5053tables", RFC, self.tables), wanted)
        self.makes("plain", script("rfc5053tables", self.file("text", self.plain), self.tables), wanted)
        named = raptor.file_of(self.numbers, [4, 64, 8192])
        self.makes("named", script("rfc5053tables", RFC, self.tables, "8192", "64", "4"), named)

    def test_blocks_are_usable(self):
        """What section 5.7 says of J(K). About one number of five would do too, so it takes many K to tell."""
        self.same("status", script("rfc5053tables", RFC, self.tables), DONE)
        tables = raptor.read(self.content(self.tables))
        for row in tables.rows:
            if row.k < 64 or row.k in (256, 1000):
                self.same(row, raptor.is_usable(tables, row), True)


if __name__ == "__main__":
    unittest.main()
