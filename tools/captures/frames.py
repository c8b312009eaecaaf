"""The UDP datagram in a captured frame."""

from collections import namedtuple

from captures.outside import Fault

# The destination's address as bytes and its port, each None where any is wanted.
Wanted = namedtuple("Wanted", "address port")

# Why a packet is passed over.
ELSEWHERE = "elsewhere"
FRAGMENT = "fragments"
OTHER = "other"
MALFORMED = "malformed"
CUT = "cut"
TIMELESS = "timeless"
REASONS = (ELSEWHERE, FRAGMENT, OTHER, MALFORMED, CUT, TIMELESS)

# EtherTypes.
INTERNET_4 = 0x0800
INTERNET_6 = 0x86DD
TAGS = (0x8100, 0x88A8, 0x9100)

# Protocols, and IPv6 headers that stand before them.
UDP = 17
HOP_BY_HOP, ROUTING, FRAGMENT_HEADER, DESTINATION = 0, 43, 44, 60


class PassedOver(Exception):
    """A packet that brings no wanted datagram, and the reason."""

    def __init__(self, reason):
        super().__init__(reason)
        self.reason = reason


class Frame:
    """What was captured of a packet, and how many bytes of it count."""

    def __init__(self, data, wire):
        self.data = data
        self.wire = wire

    def part(self, start, length):
        """LENGTH bytes from START on."""
        end = start + length
        if end > self.wire:
            raise PassedOver(MALFORMED)
        if end > len(self.data):
            raise PassedOver(CUT)
        return self.data[start:end]

    def number(self, start):
        """The number in the two bytes from START on."""
        return int.from_bytes(self.part(start, 2), "big")

    def end_at(self, end):
        """Ends the packet where the IP packet ends. What stands behind is padding."""
        if end > self.wire:
            raise PassedOver(MALFORMED)
        self.wire = end


def datagram_of(packet, wanted):
    """The datagram of a packet to the wanted destination."""
    if packet.seconds is None:
        raise PassedOver(TIMELESS)
    if packet.link not in LINKS:
        raise Fault(f"the packet at byte {packet.place} has the link type {packet.link}, which isn't read")
    frame = Frame(packet.data, packet.wire)
    kind, start = LINKS[packet.link](frame)
    while kind in TAGS:
        kind, start = frame.number(start + 2), start + 4
    if kind == INTERNET_4:
        protocol, start = inside_internet_4(frame, start, wanted)
    elif kind == INTERNET_6:
        protocol, start = inside_internet_6(frame, start, wanted)
    else:
        raise PassedOver(OTHER)
    if protocol != UDP:
        raise PassedOver(OTHER)
    return inside_udp(frame, start, wanted)


def inside_ethernet(frame):
    return frame.number(12), 14


def inside_cooked_1(frame):
    return frame.number(14), 16


def inside_cooked_2(frame):
    return frame.number(0), 20


def inside_raw(frame):
    # A version that is neither is found where the IP header is read.
    version = frame.part(0, 1)[0] >> 4
    return (INTERNET_4 if version == 4 else INTERNET_6), 0


# For each link type a function that gives the EtherType of what is inside, and its start.
LINKS = {
    1: inside_ethernet,
    12: inside_raw,
    14: inside_raw,
    101: inside_raw,
    113: inside_cooked_1,
    228: lambda frame: (INTERNET_4, 0),
    229: lambda frame: (INTERNET_6, 0),
    276: inside_cooked_2,
}


def inside_internet_4(frame, start, wanted):
    """The protocol of an IPv4 packet, and the start of what is inside."""
    head = frame.part(start, 20)
    length = 4 * (head[0] & 0x0F)
    total = int.from_bytes(head[2:4], "big")
    if head[0] >> 4 != 4:
        raise PassedOver(MALFORMED)
    if wanted.address not in (None, head[16:20]):
        raise PassedOver(ELSEWHERE)
    if not 20 <= length <= total:
        raise PassedOver(MALFORMED)
    frame.end_at(start + total)
    # All but the upper two bits: 'more fragments', and the place of this one.
    if int.from_bytes(head[6:8], "big") & 0x3FFF:
        raise PassedOver(FRAGMENT)
    return head[9], start + length


def inside_internet_6(frame, start, wanted):
    """The protocol behind the extension headers of an IPv6 packet, and the start of what is inside."""
    head = frame.part(start, 40)
    if head[0] >> 4 != 6:
        raise PassedOver(MALFORMED)
    if wanted.address not in (None, head[24:40]):
        raise PassedOver(ELSEWHERE)
    protocol = head[6]
    start += 40
    frame.end_at(start + int.from_bytes(head[4:6], "big"))
    # This header stands only as the first.
    if protocol == HOP_BY_HOP:
        protocol, start = behind_extension(frame, start)
    while protocol in (ROUTING, FRAGMENT_HEADER, DESTINATION):
        if protocol == FRAGMENT_HEADER:
            protocol, start = behind_fragment_header(frame, start)
        else:
            protocol, start = behind_extension(frame, start)
    if protocol == HOP_BY_HOP:
        raise PassedOver(MALFORMED)
    return protocol, start


def behind_extension(frame, start):
    kind, length = frame.part(start, 2)
    return kind, start + 8 * (length + 1)


def behind_fragment_header(frame, start):
    head = frame.part(start, 8)
    # A packet whose one fragment is the whole has neither a place nor 'more fragments'.
    if int.from_bytes(head[2:4], "big") & 0xFFF9:
        raise PassedOver(FRAGMENT)
    return head[0], start + 8


def inside_udp(frame, start, wanted):
    """The datagram of a UDP packet."""
    port = frame.number(start + 2)
    length = frame.number(start + 4)
    if wanted.port not in (None, port):
        raise PassedOver(ELSEWHERE)
    if length < 8:
        raise PassedOver(MALFORMED)
    return frame.part(start + 8, length - 8)
