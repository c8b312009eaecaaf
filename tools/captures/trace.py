"""Packet traces: records of a moment, a length and a datagram."""

from collections import namedtuple

from captures.outside import Fault

# The Unix second 0 in NTP seconds.
UNIX_START = 2_208_988_800

Record = namedtuple("Record", "place moment datagram")


def records(source):
    """Each record of the trace, with the place of its first byte."""
    while True:
        place = source.place
        head = source.front(8, "record")
        if not head:
            return
        length = int.from_bytes(head[6:], "big")
        yield Record(place, int.from_bytes(head[:6], "big"), source.exactly(length, "record", place))


def record_of(seconds, datagram, place):
    """The record of a datagram that a packet at PLACE of the capture brought at a Unix second."""
    moment = seconds + UNIX_START
    if not 0 <= moment < 1 << 48:
        raise Fault(f"the packet at byte {place} has the NTP second {moment}, which no record can hold")
    return moment.to_bytes(6, "big") + len(datagram).to_bytes(2, "big") + datagram
