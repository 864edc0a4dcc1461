#!/usr/bin/env python3
"""The frames of a capture as a script, so that a report says of each whether a node would take it at that point, and why not.

    tools/from_pcap.py CAPTURE .. > from_air.txt
    kehtrop replay < from_air.txt > from_air.report
    tools/from_pcap.py --told from_air.txt from_air.report

Captures are pcap or pcapng files of 802.11 frames, with or without radiotap (or Prism, AVS, PPI) and FCS; several are read one after the
other. Access points and stations that the frames name are the nodes of the script, with SSID, suite and mobility domain as the frames have
them. Each frame is a line `inject` at the node that its address 1 names, after a comment with its number in the capture; frames to a group
come to each station but the sender. Lines `connect`, `roam`, `retry` and `rekey` stand where a frame would find no node that awaits it. Where
a capture begins after an association, request and response are made by this tool, as a comment says. Left out are beacons, probes, control
frames and data without a body, but for `--all`, and what no listed node is to take.

Nothing is decrypted, and the nodes draw nonces of their own, so the nonces and keys of the capture are not theirs. From message 2 on a frame
is judged up to its MIC, its seal or what stands before them; what cannot be judged so, the table of `--told` says. (Where the capture is of
a run of this program, its seed and passphrase make the nonces and keys the same: `--seed`, `--passphrase`.)

As message 2 of the capture is not taken, what comes after it finds no node that awaits it. `--with PROGRAM` (the program `kehtrop`) brings the
nodes on by frames of their own: after each frame of the capture that was not taken, lines `deliver` let them take their own in its place.
The program is asked for the numbers of these frames; the script that is printed needs it no more than another.

It needs Python's library alone. It ends with 1 and one line where a capture cannot be read.
"""
import argparse
import hashlib
import os
import re
import subprocess
import sys

sys.dont_write_bytecode = True
import captures  # noqa: E402
import chart  # noqa: E402
import fields  # noqa: E402

SEED = "000102030405060708090a0b0c0d0e0f101112131415161718191a1b1c1d1e1f"
POINTS, STATIONS, OCTETS, LINES = 64, 1024, 2400, 65536  # limits of a script
ALL, SPARE = b"\xff" * 6, bytes.fromhex("0200000000ff")
AKMS = {2: "psk", 4: "ft-psk", 6: "psk-sha256"}
BY_AKM = {"psk": 2, "ft-psk": 4, "psk-sha256": 6}
PASSED_OVER = {(0, 4), (0, 5), (0, 8), (0, 9), (2, 4), (2, 12)}  # probes, beacons, ATIM; data and QoS data without a body

# Why a refusal of a frame whose keys are the capture's own says nothing, by the first word of the reason.
NOT_JUDGED = {
    "mic": "a MIC under nonces of the capture", "nonce": "nonces of the capture", "counter": "a counter of the capture", "unawaited": "what it answers was not taken",
    "no-key": "no session of the capture began", "seal": "a seal under a key of the capture", "wrap": "wrapped under a key of the capture",
    "name": "the name of a key of the capture", "no-holder": "a key holder of the capture", "replayed": "a packet number of the capture",
    "key-data": "key data under a key of the capture",
}
JUDGED = ("assoc-req", "assoc-resp", "m1", "ignored", "unread", "eapol")


class Frame:
    """A frame of a capture, with the addresses that say who takes part in it."""

    def __init__(self, capture, number, octets, note):
        self.capture, self.number, self.octets, self.note = capture, number, octets, note
        self.kind, self.point, self.stations = fields.kind_of(octets), None, []
        self.type = (octets[0] >> 2 & 3, octets[0] >> 4) if octets else (1, 0)
        self.receiver, self.sender, third = (octets[place:place + 6] for place in (4, 10, 16))
        if len(octets) < 24:
            return
        flags = octets[1] & 3 if self.type[0] == 2 else None
        if self.type[0] == 0:
            self.point = third
        elif self.type[0] == 2 and flags < 3:
            self.point = {0: third, 1: self.receiver, 2: self.sender}[flags]
        if self.point is not None:
            self.stations = [address for address in (self.sender, self.receiver) if address != self.point and is_node(address)]

    def is_again(self):
        return len(self.octets) > 1 and bool(self.octets[1] & 8)

    def elements(self):
        """What its elements say: names of fields with octets."""
        return [(field.name, field.octets) for field in fields.of_frame(self.octets, {})]

    def part(self, name):
        return next((octets for found, octets in self.elements() if found == name), b"")

    def counter(self):
        return int.from_bytes(self.part("replay counter"), "big")


def is_node(address):
    return len(address) == 6 and not address[0] & 1 and any(address)


def frames_of(paths):
    """The frames of the captures."""
    found = []
    for path in paths:
        with open(path, "rb") as file:
            octets = file.read()
        name = os.path.basename(path)
        for packet in captures.packets(octets):
            frame, note = captures.air_frame(packet)
            if frame is None:
                more = "; for the datagrams of a live run see tools/pcap.py --live" if captures.datagram(packet) else ""
                raise captures.Unreadable("packet %d: %s%s" % (packet.number, note, more))
            found.append(Frame(name, packet.number, frame, note))
    return found


class Air:
    """Nodes and network that the frames of captures name."""

    def __init__(self, frames, words):
        self.frames, self.is_of_many = frames, len(words.files) > 1
        ssids = {}
        for frame in frames:
            if frame.type in ((0, 0), (0, 2), (0, 5), (0, 8)) and frame.point is not None:
                ssid = frame.part("SSID")
                if any(ssid) and len(ssid) <= 32:
                    ssids.setdefault(frame.point, ssid)
        asking = [frame.point for frame in frames if frame.kind in ("assoc-req", "m1", "m2", "m3", "ft-req") and frame.point in ssids]
        named = [ssids[point] for point in asking] + list(ssids.values())
        self.ssid = words.ssid.encode("latin-1", "replace") if words.ssid else named[0] if named else b"unknown"
        self.points, self.stations = [], []
        for frame in frames:
            if frame.point is None or ssids.get(frame.point, self.ssid) != self.ssid or not frame.stations or frame.type in PASSED_OVER:
                continue
            self.list(frame)
        if not self.stations and any(is_group(frame) for frame in frames):
            self.stations.append(SPARE)
        elif len(self.stations) == 1 and any(is_group(frame) and frame.sender == self.stations[0] for frame in frames):
            self.stations.append(SPARE)
        self.akm, self.mdid, self.r0kh_ids = words.akm or self.suite(), "", {}
        self.read_transition()
        self.names = {address: "a%d" % (place + 1) for place, address in enumerate(self.points)}
        self.names.update({address: "s%d" % (place + 1) for place, address in enumerate(self.stations)})

    def list(self, frame):
        if is_node(frame.point) and frame.point not in self.points and frame.point not in self.stations and len(self.points) < POINTS:
            self.points.append(frame.point)
        for station in frame.stations:
            if station not in self.stations and station not in self.points and len(self.stations) < STATIONS:
                self.stations.append(station)

    def of_network(self):
        return [frame for frame in self.frames if frame.point in self.points]

    def suite(self):
        """The suite of the first frame that tells one: an RSNE, or the descriptor version of an EAPOL-Key frame."""
        found = self.of_network()
        for kinds in (("assoc-req", "re-req", "m2"), ("other",)):
            for frame in found:
                if frame.kind in kinds:
                    suites = [octets for name, octets in frame.elements() if name == "RSNE: AKM suite"]
                    known = [octets[3] for octets in suites if len(octets) == 4 and octets[:3] == b"\0\x0f\xac" and octets[3] in AKMS]
                    if known:
                        return AKMS[known[0]]
        versions = [frame.part("key information") for frame in found if frame.kind in ("m1", "m2", "m3", "m4")]
        return "psk-sha256" if versions and versions[0][1] & 7 == 3 else "psk"

    def read_transition(self):
        """The mobility domain and the R0KH-IDs that the frames tell."""
        for frame in self.of_network():
            domain, holder = frame.part("MDE: mobility domain"), frame.part("FTE: R0KH-ID")
            self.mdid = self.mdid or (domain.hex() if len(domain) == 2 else "")
            if frame.kind == "assoc-resp" and can_be_word(holder) and holder not in self.r0kh_ids.values():
                self.r0kh_ids.setdefault(frame.point, holder)

    def holder(self, point):
        """The R0KH-ID of an access point: that of the capture, or one of its own."""
        made = b"r0kh-%d" % (self.points.index(point) + 1)
        return self.r0kh_ids.get(point, b"of-" + point.hex().encode() if made in self.r0kh_ids.values() else made)

    def header(self, words):
        """The lines of the header; the comments say what is not of the capture."""
        key = "passphrase " + words.passphrase if words.passphrase else "psk " + (words.psk or "00" * 32)
        lines = ["domain 1"]
        if not words.passphrase and not words.psk:
            lines.append("# The pre-shared key is zeros: the keys of the capture are not known.")
        ssid = "".join(chr(octet) if 32 <= octet < 127 else "?" for octet in self.ssid)
        if "?" in ssid and b"?" not in self.ssid:
            lines.append("# An octet of the SSID that no script can have stands as ?.")
        lines += ["seed " + (words.seed or SEED), "ssid " + ssid, key, "akm " + self.akm]
        if self.akm == "ft-psk":
            lines.append("mdid " + (self.mdid or "0000"))
        lines += ["ap %s %s" % (address.hex(), self.holder(address).decode("latin-1")) for address in self.points]
        for address in self.stations:
            if address == SPARE:
                lines.append("# This station is of no frame: it hears those to a group.")
            lines.append("sta " + address.hex())
        return lines


def can_be_word(octets):
    return 1 <= len(octets) <= 48 and all(33 <= octet < 127 for octet in octets)


def group_name(address):
    """How an address is told that no listed node has."""
    return "all" if address == ALL else ("the group " if address[:1] and address[0] & 1 else "") + address.hex()


def is_group(frame):
    return len(frame.receiver) == 6 and bool(frame.receiver[0] & 1) and frame.type not in PASSED_OVER and frame.type[0] != 1


class Nodes:
    """The program, asked what came of the lines so far."""

    def __init__(self, program, header, ssid):
        self.program = program
        # A passphrase takes a moment in each run, and its key does not.
        self.header = [psk_line(line, ssid) for line in header]

    def report(self, lines):
        done = subprocess.run([self.program, "replay"], input="".join(line + "\n" for line in self.header + lines).encode("latin-1"), capture_output=True)
        if done.returncode != 0:
            raise captures.Unreadable("%s replay ends with %d: %s" % (self.program, done.returncode, done.stderr.decode().strip()))
        return [line.split(" ") for line in done.stdout.decode("latin-1").splitlines()]


def psk_line(line, ssid):
    word, _, rest = line.partition(" ")
    return "psk " + hashlib.pbkdf2_hmac("sha1", rest.encode("latin-1"), ssid, 4096, 32).hex() if word == "passphrase" else line


# Which frames of the nodes stand for one of the capture that was not taken, each with the end to which it comes.
OWN = {
    "assoc-req": [("assoc-req", 0)], "assoc-resp": [("assoc-resp", 1)], "m1": [("m1", 1)], "m2": [("m1", 1), ("m2", 0)], "m3": [("m1", 1), ("m3", 1)],
    "m4": [("m4", 0)], "g1": [("g1", 1)], "g2": [("g2", 0)], "ft-req": [("ft-req", 0)], "ft-resp": [("ft-req", 0), ("ft-resp", 1)], "re-req": [("re-req", 0)],
    "re-resp": [("re-resp", 1)],
}


class Script:
    """The lines of events, and what was seen of each pair so far."""

    def __init__(self, air, words, nodes=None):
        self.air, self.is_all, self.nodes, self.lines, self.counts = air, words.all, nodes, [], {}
        self.answered, self.asked, self.sent, self.owed, self.gone, self.first = set(), set(), {}, {}, set(), {}

    def skip(self, why):
        self.counts[why] = self.counts.get(why, 0) + 1

    def pair(self, frame):
        """The names of access point and station, or None."""
        station = frame.stations[0] if frame.stations else None
        if frame.point in self.air.points and station in self.air.stations:
            return self.air.names[frame.point], self.air.names[station]
        return None

    def add(self, frame):
        if len(frame.octets) > OCTETS or not frame.octets:
            return self.skip("of no octets, or of more than %d" % OCTETS)
        if (frame.type in PASSED_OVER or frame.type[0] == 1) and not self.is_all:
            return self.skip("beacons, probes, control frames and data without a body")
        if is_group(frame):
            nodes = [self.air.names[address] for address in self.air.stations if address != frame.sender]
        else:
            nodes = [self.air.names[frame.receiver]] if frame.receiver in self.air.names else []
        if not nodes:
            return self.skip("for no listed node")
        if len(self.lines) + 8 + len(nodes) > LINES - 200:
            return self.skip("past the last line that a script may have")
        self.prepare(frame)
        where = "frame %d%s" % (frame.number, " of " + frame.capture if self.air.is_of_many else "")
        self.lines.append("# %s: %s%s" % (where, self.what(frame), ("; " + frame.note) if frame.note else ""))
        self.lines += ["inject %s %s" % (node, frame.octets.hex()) for node in nodes]
        if self.nodes and frame.kind in OWN and self.pair(frame):
            self.go_on(frame.kind, self.pair(frame))
        return None

    def go_on(self, kind, pair):
        """Lets the nodes take frames of their own, where that of the capture was not taken; once for each kind in an attempt."""
        told = [line for line in self.nodes.report(self.lines) if line[0] == "took"]
        if kind == "m1":
            self.first[pair] = self.lines[-1]
        if told and told[-1][3] in ("accepted", "answered"):
            return
        if (pair, kind) in self.gone:
            return
        self.gone.add((pair, kind))
        self.lines.append("# not taken: the nodes go on by their own")
        for own, end in OWN[kind]:
            numbers = [line[1] for line in self.nodes.report(self.lines) if line[0] == "sent" and line[2:5] == [pair[1 - end], pair[end], own]]
            if numbers:
                self.lines.append("deliver %s to %s" % (numbers[-1], pair[end]))
        if kind == "m2" and pair in self.first:
            self.lines += ["# message 1 of the capture again, so that the station has its nonce", self.first[pair]]

    def what(self, frame):
        names = self.air.names
        sender, receiver = (names.get(address, group_name(address)) for address in (frame.sender, frame.receiver))
        kind = frame.kind if frame.kind != "other" else fields.control(frame.octets[:2]) if len(frame.octets) > 1 else "a frame cut short"
        return "%s, %s to %s%s" % (kind, sender, receiver, ", sent again" if frame.is_again() else "")

    def prepare(self, frame):
        """Events of the nodes by which the frame is awaited, as far as that can be."""
        pair = self.pair(frame)
        if pair is None:
            return
        point, station = pair
        if frame.kind == "assoc-req" and (not frame.is_again() or pair in self.answered or pair not in self.asked):
            self.begin(pair)
        elif frame.kind == "assoc-resp":
            self.begin(pair, pair not in self.asked)
            self.answered.add(pair)
        elif frame.kind in ("m1", "m2") and pair not in self.answered:
            self.make_association(frame, pair)
        elif frame.kind == "ft-req" and self.air.akm == "ft-psk" and not frame.is_again():
            self.lines.append("roam %s %s" % (station, point))
        if frame.kind in ("m1", "m3"):
            before = self.sent.get((pair, frame.kind))
            if before is not None and frame.counter() > before:
                self.lines.append("retry %s %s" % pair)
            self.sent[pair, frame.kind] = frame.counter()
        elif frame.kind == "g1":
            owed = self.owed.setdefault(point, set())
            if station in owed:
                self.lines.append("retry %s %s" % pair)
            elif not owed or station in self.sent.get((point, "g1"), set()):
                self.lines.append("rekey " + point)
                self.sent[point, "g1"] = set()
            owed.add(station)
            self.sent.setdefault((point, "g1"), set()).add(station)
        elif frame.kind == "g2":
            self.owed.setdefault(point, set()).discard(station)

    def begin(self, pair, is_new=True):
        """The station begins an attempt, in which nothing was seen so far."""
        if is_new:
            self.lines.append("connect %s %s" % pair[::-1])
            self.asked.add(pair)
            self.answered.discard(pair)
            self.gone = {one for one in self.gone if one[0] != pair}
            for kind in ("m1", "m3"):
                self.sent.pop((pair, kind), None)

    def make_association(self, frame, pair):
        """Request and response, where the capture has none; the RSNE is that of the capture's message 2, where there is one."""
        air = self.air
        point, station = frame.point, frame.stations[0]
        rsne = bytes.fromhex("30140100000fac040100000fac040100000fac0%d0c00" % BY_AKM[air.akm])
        replies = [one for one in air.frames if one.kind == "m2" and one.point == point and one.sender == station and len(one.octets) > 133]
        if replies and air.akm != "ft-psk":
            start = 131 + 2 * (replies[0].type[1] == 8)
            rsne = replies[0].octets[start:start + 2 + replies[0].octets[start + 1]]
        rates, mde, fte = bytes.fromhex("010482848b96"), b"", b""
        if air.akm == "ft-psk":
            mde = b"\x36\x03" + bytes.fromhex(air.mdid or "0000") + b"\0"
            holder = air.holder(point)
            fte = bytes(82) + b"\1\6" + point + b"\3" + bytes([len(holder)]) + holder
            fte = b"\x37" + bytes([len(fte)]) + fte
        request = b"\0\0\0\0" + point + station + point + bytes.fromhex("000011000a00") + b"\0" + bytes([len(air.ssid)]) + air.ssid + rates + rsne + mde
        response = b"\x10\0\0\0" + station + point + point + bytes.fromhex("00001100000001c0") + rates + mde + fte
        self.begin(pair, pair not in self.asked)
        self.lines += ["# made by tools/from_pcap.py: the capture has no association of %s and %s" % pair,
                       "inject %s %s" % (pair[0], request.hex()), "inject %s %s" % (pair[1], response.hex())]
        self.answered.add(pair)


def script_of(frames, words):
    air = Air(frames, words)
    header = air.header(words)
    script = Script(air, words, Nodes(words.program, header, air.ssid) if words.program else None)
    for frame in frames:
        script.add(frame)
    lines = header + script.lines
    lines += ["# left out: %d frames (%s)" % (count, why) for why, count in script.counts.items()]
    return lines


# ---- what a report says of it

def judged(kind, outcome):
    """Whether the outcome is one of the frame's own, and why it is not."""
    if outcome[0] != "refused" or kind in JUDGED or outcome[1] in ("malformed", "out-of-profile", "not-for-me", "unknown-peer", "status"):
        return ""
    return "not judged: " + NOT_JUDGED.get(outcome[1], "keys of the capture")


def table(script, report):
    """A line for each frame of the capture, with what came of it."""
    lines, rows = script.split("\n"), []
    for event in chart.pair(script, report)[0]:
        if event.words[0] != "inject" or not event.acts:
            continue
        comment = next((line for line in lines[event.line - 2::-1] if line.startswith("#")), "# ")
        if not re.match(r"# frame \d+", comment):
            continue  # made by this tool, or once more
        node, kind, outcome = event.took()
        rows.append((comment[2:], node, kind, " ".join(outcome), judged(kind, outcome)))
    wide = [max([len(row[place]) for row in rows] + [1]) for place in range(4)]
    return [("%-*s  %-*s  %-*s  %-*s  %s" % (wide[0], row[0], wide[1], row[1], wide[2], row[2], wide[3], row[3], row[4])).rstrip() for row in rows]


def main(words):
    reader = argparse.ArgumentParser(prog="from_pcap.py", description="The frames of a capture as a script.")
    reader.add_argument("--told", action="store_true", help="SCRIPT and REPORT: what came of each frame")
    reader.add_argument("--all", action="store_true", help="also frames that nodes pass over")
    for name in ("ssid", "passphrase", "psk", "seed"):
        reader.add_argument("--" + name)
    reader.add_argument("--akm", choices=list(BY_AKM))
    reader.add_argument("--with", dest="program", metavar="PROGRAM", help="the nodes go on by their own frames")
    reader.add_argument("files", nargs="+", metavar="CAPTURE")
    asked = reader.parse_args(words)
    name = asked.files[0]
    try:
        if asked.told:
            if len(asked.files) != 2:
                reader.error("--told takes a script and its report")
            told = table(*(chart.read(path) for path in asked.files))
        else:
            told = script_of(frames_of(asked.files), asked)
    except (OSError, captures.Unreadable, chart.Mismatch) as why:
        print("%s: %s" % (getattr(why, "filename", None) or name, getattr(why, "strerror", None) or why), file=sys.stderr)
        return 1
    print("\n".join(told))
    return 0


if __name__ == "__main__":
    sys.exit(main(sys.argv[1:]))
