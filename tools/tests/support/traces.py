"""Packet traces, and the datagrams of a FLUTE session, written field by field."""

import base64
import struct

# The Unix second 0 in NTP seconds.
UNIX_START = 2_208_988_800
SECOND = 1_690_000_000
MOMENT = 3_899_999_000
TSI = 1


def record(moment, datagram):
    return moment.to_bytes(6, "big") + len(datagram).to_bytes(2, "big") + datagram


def trace_of(*datagrams, second=SECOND):
    return b"".join(record(second + UNIX_START, datagram) for datagram in datagrams)


def session(*datagrams):
    """A trace of the datagrams, all at one moment."""
    return b"".join(record(MOMENT, datagram) for datagram in datagrams)


def is_trace(data):
    """Whether the bytes are a trace that isn't broken."""
    place = 0
    while place + 8 <= len(data):
        place += 8 + int.from_bytes(data[place + 6 : place + 8], "big")
    return place == len(data)


# Datagrams (RFC 3451 section 5.1, RFC 3926 sections 3.4.1 and 5.1.1).


def header(toi, extensions=b"", short=False, cp=0):
    """An LCT header. Its TSI and TOI have 4 bytes each, or 2 in a short one, or 6 and 14 for a TOI that is longer."""
    if short:
        widths, fields = 0x10, struct.pack(">HH", TSI, toi)
    elif toi < 1 << 32:
        widths, fields = 0xA0, struct.pack(">LL", TSI, toi)
    else:
        widths, fields = 0xF0, TSI.to_bytes(6, "big") + toi.to_bytes(14, "big")
    words = (8 + len(fields) + len(extensions)) // 4
    return struct.pack(">BBBBL", 0x10, widths, words, cp, 0) + fields + extensions


def symbol(toi, payload, sbn=0, esi=0, extensions=b"", cp=0):
    """A packet of a file."""
    return header(toi, extensions, cp=cp) + struct.pack(">HH", sbn, esi) + payload


def pieces(data, size):
    return [data[place : place + size] for place in range(0, len(data), size)]


def symbols(toi, data, size, most):
    """The packets of a file of so many bytes a symbol and so many symbols a block at most, one symbol in each."""
    source = pieces(data, size)
    blocks = -(-len(source) // most)
    small, larger = divmod(len(source), blocks)
    packets = []
    for sbn in range(blocks):
        block, source = source[: small + (sbn < larger)], source[small + (sbn < larger) :]
        packets += [symbol(toi, piece, sbn, esi) for esi, piece in enumerate(block)]
    return packets


def fdt_extension(number):
    return struct.pack(">L", 0xC010_0000 | number)


def fti_extension(length, size, most):
    return b"\x40\x04" + length.to_bytes(6, "big") + struct.pack(">HHL", 0, size, most)


def instance_packets(text, size, number=1):
    """The packets of an FDT Instance whose text is cut into symbols of so many bytes, in one block."""
    source = pieces(text, size)
    extensions = fdt_extension(number) + fti_extension(len(text), size, len(source))
    return [symbol(0, piece, 0, esi, extensions) for esi, piece in enumerate(source)]


def instance(text, number=1, short=False):
    """A packet with the whole text of an FDT Instance."""
    sizes = len(text).to_bytes(6, "big") + struct.pack(">HHL", 0, 65_535, 64)
    extensions = struct.pack(">L", 0xC010_0000 | number) + b"\x40\x04" + sizes
    return header(0, extensions, short) + bytes(4) + text


def file_element(toi, length, location, symbol_length=65_535, most=64, md5=None):
    digest = f' Content-MD5="{base64.b64encode(md5).decode()}"' if md5 else ""
    return (
        f'<File Content-Location="{location}" TOI="{toi}" Content-Length="{length}"{digest}'
        f' FEC-OTI-FEC-Encoding-ID="0" FEC-OTI-Maximum-Source-Block-Length="{most}"'
        f' FEC-OTI-Encoding-Symbol-Length="{symbol_length}"/>'
    )


def text(*elements, expires=3_900_000_000):
    """The text of an FDT Instance with these File elements."""
    return f'<FDT-Instance Expires="{expires}">{"".join(elements)}</FDT-Instance>'.encode()


def described(files, locations=None):
    """The packet that describes the files, each the bytes of its TOI, at locations that are named after the TOIs."""
    locations = locations or {toi: f"file{toi}" for toi in files}
    return instance(text(*(file_element(toi, len(data), locations[toi]) for toi, data in files.items())))


def files_session(files, locations=None):
    """The trace of a session of these files."""
    return session(described(files, locations), *(symbol(toi, data) for toi, data in files.items()))
