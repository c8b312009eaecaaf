"""`pcap2trace` and `trace2pcap` as a user calls them: arguments, files and streams."""

import os
import subprocess
import tempfile
import unittest

from support.captures import counts, pcap, pcap_header, pcap_record
from support.frames import DATAGRAM, ethernet_4, udp
from support.tools import FOLDER, READER, WRITER, ToolTest, forked, script
from support.traces import trace_of


def wrong_words():
    for port in ("", "0", "65536", "-1", "+1", " 1", "\u0661", "1" * 5000):
        yield "--port", port
    for address in ("", "group", "1.2.3", "10.0.0.0/8", "fe80::1%eth0", "1.2.3.4%eth0", "[::1]"):
        yield "--address", address
    yield from (("--nothing",), ("-h",), ("-",), ("one", "two"), ("--port",), ("--address",), ("--port=1",))
    yield "--port", "1", "--port", "1"
    yield "--address", "1.2.3.4", "--address", "1.2.3.4"


def wrong_calls():
    yield from ((module, words) for module in (READER, WRITER) for words in wrong_words())
    yield READER, ("--from", "1.2.3.4")
    yield WRITER, ("--from", "x")
    yield WRITER, ("--from", "1.2.3.4", "--address", "ff15::1")
    yield WRITER, ("--from", "::1", "--address", "1.2.3.4")


class Calls(ToolTest):
    def setUp(self):
        folder = tempfile.TemporaryDirectory()
        self.addCleanup(folder.cleanup)
        self.folder = folder.name

    def file(self, name, content):
        path = os.path.join(self.folder, name)
        with open(path, "wb") as file:
            file.write(content)
        return path

    def test_wrong_arguments_print_the_usage(self):
        for module, words in wrong_calls():
            usage = module.__doc__.strip() + "\n"
            self.same(f"{module.__name__} {words}", forked(module, words, trace_of(DATAGRAM)), (2, b"", usage))

    def test_captures_and_traces(self):
        bytecode = os.path.join(FOLDER, "captures", "__pycache__")
        before = os.path.exists(bytecode)
        missing = os.path.join(self.folder, "a\nb")
        capture = pcap_header() + pcap_record(ethernet_4(udp())) + pcap_record(ethernet_4(udp(), fragment=1))
        path = self.file("capture", capture)
        taken = (0, trace_of(DATAGRAM), counts(datagrams=1, fragments=1))
        self.same("a named file", script("pcap2trace", "--port", "4001", path), taken)
        self.same("standard input", script("pcap2trace", given=capture), taken)
        self.same("wrong words", script("pcap2trace", "--port")[:2], (2, b""))
        self.refused("a file that isn't there", script("pcap2trace", missing), repr(missing))
        self.refused("a folder", script("trace2pcap", self.folder), self.folder)
        self.refused("a cut capture", script("pcap2trace", given=capture[:-1]), "byte ")
        self.refused("a broken trace", script("trace2pcap", given=trace_of(b"first") + b"\0"), "record at byte 13\n")
        self.refused("a capture as a trace", script("trace2pcap", path), path)
        back = script("pcap2trace", given=script("trace2pcap", given=trace_of(DATAGRAM))[1])
        self.same("there and back", back, (0, trace_of(DATAGRAM), counts(datagrams=1)))
        self.same("bytecode", os.path.exists(bytecode), before)

    def each_tool(self):
        """Each tool with a file that it converts."""
        yield "pcap2trace", self.file("capture", pcap(ethernet_4(udp())))
        yield "trace2pcap", self.file("trace", trace_of(DATAGRAM))

    def test_a_pipe_whose_reader_went_away(self):
        for name, path in self.each_tool():
            end, start = os.pipe()
            os.close(end)
            self.same(name, script(name, path, stdout=start), (1, None, ""))
            os.close(start)

    def test_closed_streams(self):
        for name, path in self.each_tool():
            for streams, files in (("<&-", []), (">&-", [path])):
                call = ["sh", "-c", f'exec "$@" {streams}', "sh", os.path.join(FOLDER, name), *files]
                ended = subprocess.run(call, stdout=subprocess.PIPE, stderr=subprocess.PIPE, timeout=60)
                outcome = (ended.returncode, ended.stdout, ended.stderr.decode())
                self.refused(f"{name} {streams}", outcome, "closed")

    @unittest.skipUnless(os.path.exists("/dev/full"), "there is no /dev/full")
    def test_no_room_for_the_result(self):
        for name, path in self.each_tool():
            with open("/dev/full", "wb") as full:
                status, _, lines = script(name, path, stdout=full)
            self.refused(name, (status, b"", lines), f"{name}: can't write: ")


if __name__ == "__main__":
    unittest.main()
