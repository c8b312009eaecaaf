"""A long session for the benchmarks, and how long programs take over it."""

import os
import subprocess
import time
from collections import namedtuple

FILES = 250
SYMBOL = 1380
MOMENT = 3_899_999_000
TSI = 1
ROOT = os.path.dirname(os.path.dirname(os.path.abspath(__file__)))
TIME = "/usr/bin/time"

# The peak memory is in kB. The work is the processor time of the program and of the system for it, in seconds.
Run = namedtuple("Run", "seconds memory status work")


def program(name):
    """The built program of that name."""
    path = os.path.join(ROOT, "crates", name, "out", name)
    if not os.path.exists(path):
        raise SystemExit(f"there is no crates/{name}/out/{name}: build it by `rt run` in crates/{name}")
    return path


def record(datagram):
    return MOMENT.to_bytes(6, "big") + len(datagram).to_bytes(2, "big") + datagram


def numbers(*values):
    return b"".join(value.to_bytes(4, "big") for value in values)


def description():
    lines = ['<?xml version="1.0" encoding="UTF-8"?>\n', '<FDT-Instance Expires="3900000000">\n']
    for toi in range(1, FILES + 1):
        lines.append(
            f'<File Content-Location="file{toi}" TOI="{toi}" Content-Length="{SYMBOL}"'
            f' Transfer-Length="{SYMBOL}" FEC-OTI-FEC-Encoding-ID="0"'
            ' FEC-OTI-Maximum-Source-Block-Length="64" FEC-OTI-Encoding-Symbol-Length="1400"/>\n'
        )
    lines.append("</FDT-Instance>\n")
    return text_packet("".join(lines).encode())


def text_packet(text):
    """The packet of an FDT Instance, with the whole of its text."""
    # The text is one symbol, so the symbol length of its packet is at least its length.
    size = len(text).to_bytes(6, "big") + b"\0\0" + (0xFFFF).to_bytes(2, "big")
    head = numbers(0x10A00900, 0, TSI, 0, 0xC0100001) + b"\x40\x04" + size + numbers(64, 0)
    return record(head + text)


def text_packets(text, symbol=1400):
    """The packets of an FDT Instance whose text is cut into symbols of so many bytes, in one block."""
    size = len(text).to_bytes(6, "big") + b"\0\0" + symbol.to_bytes(2, "big")
    block = -(-len(text) // symbol)
    head = numbers(0x10A00900, 0, TSI, 0, 0xC0100001) + b"\x40\x04" + size + numbers(block)
    pieces = [text[place : place + symbol] for place in range(0, len(text), symbol)]
    return b"".join(record(head + numbers(esi) + piece) for esi, piece in enumerate(pieces))


def packet(toi):
    payload = bytes((toi + place) % 256 for place in range(SYMBOL))
    return record(numbers(0x10A00400, 0, TSI, toi, 0) + payload)


def round_of_packets():
    """Every described file twice, and after every two packets one of a file that is not described."""
    tois = []
    others = iter(range(1_000_001, 1_000_001 + FILES))
    for place in range(2 * FILES):
        tois.append(place % FILES + 1)
        if place % 2 == 1:
            tois.append(next(others))
    return tois, [packet(toi) for toi in tois]


def write_trace(path, datagrams):
    """The description, and then rounds of packets. Answers the trace's size, and the TOI of its last packet."""
    tois, packets = round_of_packets()
    whole = b"".join(packets)
    left = datagrams - 1
    with open(path, "wb") as trace:
        trace.write(description())
        for _ in range(left // len(packets)):
            trace.write(whole)
        trace.write(b"".join(packets[: left % len(packets)]))
    return os.path.getsize(path), tois[(left - 1) % len(tois)] if left else 0


def stored(datagrams):
    """How many files a receiver stores of the session."""
    return min(FILES, datagrams - 1 - (datagrams - 1) // 3)


def timed(words, trace_path, folder, out_path):
    """Runs a program over a trace."""
    peak = os.path.join(folder, "peak")
    if os.path.exists(TIME):
        words = [TIME, "-q", "-f", "%M", "-o", peak] + words
    with open(trace_path, "rb") as trace, open(out_path, "wb") as out:
        start = time.monotonic()
        child = subprocess.Popen(words, stdin=trace, stdout=out, cwd=folder)
        _, ended, usage = os.wait4(child.pid, 0)
        seconds = time.monotonic() - start
        child.returncode = os.waitstatus_to_exitcode(ended)
    # Without the tool this is no less than what this script had when it started the program.
    memory = usage.ru_maxrss
    if os.path.exists(peak):
        with open(peak) as text:
            memory = int(text.read().split()[-1])
        os.remove(peak)
    return Run(seconds, memory, child.returncode, usage.ru_utime + usage.ru_stime)


def copy(path):
    """The seconds that `cat | wc -c` takes."""
    start = time.monotonic()
    subprocess.run(["sh", "-c", 'cat "$1" | wc -c', "sh", path], stdout=subprocess.DEVNULL, check=True)
    return time.monotonic() - start
