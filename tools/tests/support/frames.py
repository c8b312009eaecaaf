"""Captured frames, written field by field without the code of the tools."""

import ipaddress
import struct

PORT = 4001
DATAGRAM = b"datagram"
GROUP, OTHER_GROUP, SENDER = (ipaddress.ip_address(word) for word in ("239.1.2.3", "239.1.2.4", "192.0.2.7"))
GROUP_6, OTHER_GROUP_6, SENDER_6 = (ipaddress.ip_address(word) for word in ("ff0e::1:2", "ff0e::1:3", "2001:db8::7"))


def udp(payload=DATAGRAM, port=PORT, length=None):
    return struct.pack(">HHHH", 5000, port, 8 + len(payload) if length is None else length, 0) + payload


def internet_4(payload, destination=GROUP, protocol=17, options=b"", fragment=0, total=None, first=0x40):
    words = 5 + len(options) // 4
    total = 4 * words + len(payload) if total is None else total
    head = struct.pack(">BBHHHBBH", first | words, 0, total, 7, fragment, 9, protocol, 0)
    return head + SENDER.packed + destination.packed + options + payload


def internet_6(payload, destination=GROUP_6, protocol=17, length=None, first=0x60):
    length = len(payload) if length is None else length
    return struct.pack(">BxxxHBB", first, length, protocol, 9) + SENDER_6.packed + destination.packed + payload


def extension(following, words=0):
    return bytes([following, words]) + bytes(6 + 8 * words)


def fragment_header(following, place_and_more):
    return struct.pack(">BBHL", following, 0, place_and_more, 99)


def ethernet(kind, payload):
    return bytes(12) + struct.pack(">H", kind) + payload


def ethernet_4(*words, **options):
    return ethernet(0x0800, internet_4(*words, **options))


def ethernet_6(*words, **options):
    return ethernet(0x86DD, internet_6(*words, **options))


def tagged(*kinds):
    """A frame with a tag of each of the kinds, in the order of the wire."""
    payload = internet_4(udp())
    kind = 0x0800
    for outer in reversed(kinds):
        kind, payload = outer, struct.pack(">HH", 100, kind) + payload
    return ethernet(kind, payload)


def cooked_1(kind, payload):
    return struct.pack(">HHH8sH", 0, 1, 6, bytes(8), kind) + payload


def cooked_2(kind, payload):
    return struct.pack(">HHLHBB8s", kind, 0, 1, 1, 0, 6, bytes(8)) + payload
