"""Captures, read and written for other tools of this folder: pcap and pcapng in, pcapng out."""
import struct
import zlib

IEEE802_11 = 105
NAMES = {0: "BSD loopback", 1: "Ethernet", 101: "raw IP", 105: "IEEE 802.11", 108: "OpenBSD loopback", 113: "Linux cooked", 119: "Prism header",
         127: "radiotap", 163: "AVS header", 192: "PPI", 228: "raw IPv4", 276: "Linux cooked 2"}


class Unreadable(Exception):
    """Octets that are no capture, or one of a kind that is not read."""


class Packet:
    """A packet as it was captured: its number in the capture from 1, link type, octets, and how many it had before it was cut."""

    def __init__(self, number, link, octets, length, time=0):
        self.number, self.link, self.octets, self.length, self.time = number, link, octets, length, time


# ---- reading

def packets(octets):
    """The packets of a capture."""
    if octets[:4] == b"\x0a\x0d\x0d\x0a":
        return of_pcapng(octets)
    for order in "<>":
        magic = int.from_bytes(octets[:4], "little" if order == "<" else "big")
        if magic in (0xa1b2c3d4, 0xa1b23c4d):
            return of_pcap(octets, order, 1 if magic == 0xa1b2c3d4 else 1000)
    raise Unreadable("neither a pcap nor a pcapng file")


def of_pcap(octets, order, part):
    found, place = [], 24
    if len(octets) < 24:
        raise Unreadable("a pcap file cut in its header")
    link = struct.unpack(order + "I", octets[20:24])[0] & 0x03ffffff
    while place < len(octets):
        if place + 16 > len(octets):
            raise Unreadable("packet %d is cut in its header" % (len(found) + 1))
        seconds, parts, kept, length = struct.unpack(order + "4I", octets[place:place + 16])
        place += 16
        if place + kept > len(octets):
            raise Unreadable("packet %d is cut at the end of the file" % (len(found) + 1))
        found.append(Packet(len(found) + 1, link, octets[place:place + kept], length, seconds * 1000000 + parts // part))
        place += kept
    return found


def of_pcapng(octets):
    found, links, place, order = [], [], 0, "<"
    while place < len(octets):
        kind = octets[place:place + 4]
        if kind == b"\x0a\x0d\x0d\x0a":  # a section: its octet order, and its interfaces anew
            order, links = "<" if octets[place + 8:place + 12] == b"\x4d\x3c\x2b\x1a" else ">", []
        if place + 12 > len(octets):
            raise Unreadable("a block is cut at the end of the file")
        kind, size = struct.unpack(order + "2I", octets[place:place + 8])
        body = octets[place + 8:place + size - 4]
        if size < 12 or size % 4 or place + size > len(octets):
            raise Unreadable("a block of %d octets at octet %d" % (size, place))
        place += size
        if kind == 1:
            links.append(struct.unpack(order + "H", body[:2])[0])
        elif kind in (2, 3, 6):  # packet blocks: obsolete, simple, enhanced
            if kind == 3:
                which, time, length, start = 0, 0, struct.unpack(order + "I", body[:4])[0], 4
                kept = min(length, len(body) - 4)
            else:
                which = struct.unpack(order + ("H" if kind == 2 else "I"), body[:2 if kind == 2 else 4])[0]
                high, low, kept, length = struct.unpack(order + "4I", body[4:20])
                time, start = high << 32 | low, 20
            if which >= len(links):
                raise Unreadable("packet %d is of no interface that the file lists" % (len(found) + 1))
            found.append(Packet(len(found) + 1, links[which], body[start:start + kept], length, time))
    return found


def air_frame(packet):
    """The octets of the 802.11 frame of a packet without FCS, or None where the link type has none; and what is to be told of it."""
    octets, has_fcs = packet.octets, None
    if packet.link == 127 and len(octets) >= 8:
        size, present = struct.unpack("<HI", octets[2:8])
        fields = 8
        while fields + 4 <= size and int.from_bytes(octets[fields - 4:fields], "little") >> 31:
            fields += 4
        if present & 2:  # flags, after the 8 octets of a time where there is one
            flags = fields if not present & 1 else (fields + 7) // 8 * 8 + 8
            has_fcs = bool(octets[flags] & 0x10) if flags < len(octets) else None
        octets = octets[size:]
    elif packet.link == 192 and len(octets) >= 8:
        octets = octets[int.from_bytes(octets[2:4], "little"):]
    elif packet.link in (119, 163) and len(octets) >= 8:
        orders = [order for order in ("big", "little") if int.from_bytes(octets[4:8], order) <= len(octets)]
        octets = octets[int.from_bytes(octets[4:8], orders[0]):] if orders else b""
    elif packet.link != IEEE802_11:
        return None, "link type %d (%s) has no 802.11 frames" % (packet.link, NAMES.get(packet.link, "another"))
    if packet.length > len(packet.octets):
        return octets, "cut by the capture: %d octets of %d" % (len(packet.octets), packet.length)
    is_fcs = len(octets) >= 14 and zlib.crc32(octets[:-4]).to_bytes(4, "little") == octets[-4:]
    if has_fcs or is_fcs:
        return octets[:-4], "" if is_fcs else "its FCS is wrong"
    return octets, ""


def datagram(packet):
    """The ports and octets of a UDP datagram over IPv4, or None."""
    octets = packet.octets
    ethernet = {1: (12, 14), 113: (14, 16), 276: (0, 20)}
    if packet.link in ethernet:
        kind, size = ethernet[packet.link]
        octets = octets[size:] if octets[kind:kind + 2] == b"\x08\x00" else b""
    elif packet.link in (0, 108):
        octets = octets[4:]
    elif packet.link not in (101, 228):
        return None
    if len(octets) < 20 or octets[0] >> 4 != 4 or octets[9] != 17:
        return None
    udp = octets[(octets[0] & 15) * 4:int.from_bytes(octets[2:4], "big")]
    if len(udp) < 8:
        return None
    source, to, size = struct.unpack(">3H", udp[:6])
    return source, to, udp[8:size]


# ---- writing

def padded(octets):
    return octets + bytes(-len(octets) % 4)


def block(kind, body):
    size = struct.pack("<I", len(body) + 12)
    return struct.pack("<I", kind) + size + body + size


def option(code, text):
    octets = text.encode()
    return struct.pack("<2H", code, len(octets)) + padded(octets)


def pcapng(application, comment, frames):
    """A capture of link type IEEE 802.11 without FCS: frames are times in microseconds, octets and a comment each."""
    section = struct.pack("<IHHq", 0x1a2b3c4d, 1, 0, -1) + option(1, comment) + option(4, application) + bytes(4)
    parts = [block(0x0a0d0d0a, section), block(1, struct.pack("<HHI", IEEE802_11, 0, 0) + option(2, "air") + bytes(4))]
    for time, octets, text in frames:
        body = struct.pack("<5I", 0, time >> 32, time & 0xffffffff, len(octets), len(octets)) + padded(octets)
        parts.append(block(6, body + option(1, text) + bytes(4)))
    return b"".join(parts)
