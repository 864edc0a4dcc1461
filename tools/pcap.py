#!/usr/bin/env python3
"""The frames of a run as a capture for Wireshark (pcapng, link type 105: IEEE 802.11 without FCS).

    tools/pcap.py [--beacons] FILE > run.pcapng
    tools/pcap.py [--beacons] --live PORT CAPTURE [SCRIPT REPORT] > run.pcapng

FILE is what `kehtrop journal` writes: each frame that a node sent is a packet, in order. Its comment has the number that the frame has in
the report, who sent it to whom, and what it is. A run has no clock: the seconds of a packet are the round in which it was sent, and its
microseconds count the frames of that round.

With `--live` the frames are those of a live run from that PORT on. CAPTURE is of the loopback interface (tcpdump, dumpcap; pcap or pcapng).
The datagrams to ports PORT to PORT + 79 are packets then, with their times, and the comment has the ports. Datagrams of one frame to several
stations are one packet. With the script and the report of the run the comment has the number of the report and the nodes; where the
datagrams are not those that the report says, in their order and of their lengths, nothing is written.

No node sends beacons. Wireshark needs none, as it takes the SSID from an association request too. For programs that look for one,
`--beacons` puts a beacon of each access point of the script in front, with a comment that no node sent it.

It needs Python's library alone. It ends with 1 and one line where a file cannot be read. docs/user/SEEING.md shows what a reader sees.
"""
import sys

sys.dont_write_bytecode = True
import captures  # noqa: E402
import entries  # noqa: E402

MOST_NODES = 1088  # 64 access points and 1024 stations
AKMS = {"psk": "02", "ft-psk": "04", "psk-sha256": "06"}


class Mismatch(Exception):
    """Datagrams and report do not fit together."""


def beacon(network, point):
    """A beacon of the access point (9.3.3.2): timestamp, interval and capability, SSID, rates, RSNE and MDE."""
    address = network.addresses[point]
    mde = b"\x36\x03" + network.mdid + b"\0" if network.akm == "ft-psk" else b""
    elements = b"\0" + bytes([len(network.ssid)]) + network.ssid + bytes.fromhex("010482848b96")
    elements += bytes.fromhex("30140100000fac040100000fac040100000fac" + AKMS[network.akm] + "0c00") + mde
    return bytes.fromhex("80000000ffffffffffff") + address + address + bytes(2) + bytes(8) + bytes.fromhex("64001100") + elements


def beacons(network, time):
    return [(time, beacon(network, point), "a beacon of %s, made by tools/pcap.py: no node sent it" % point) for point in network.points()]


def of_journal(journal):
    """The frames sent in a journal."""
    found, round_of, count = [], None, 0
    for entry in journal.sent():
        count = count + 1 if entry.round == round_of else 0
        round_of = entry.round
        text = "frame %d: %s to %s, %s (round %d)" % (entry.number, entry.node, entry.peer, entry.frame, entry.round)
        found.append((entry.round * 1000000 + count, entry.octets, text))
    return found


class Datagram:
    def __init__(self, time, source, to, octets):
        self.time, self.source, self.ports, self.octets = time, source, [to], octets

    def goes_on(self, source, to, octets):
        """Whether a datagram has the same group frame for the next station."""
        return self.source == source and self.octets == octets and to == self.ports[-1] + 1 and len(octets) > 4 and octets[4] & 1


def datagrams(packets, first):
    """The datagrams to the ports of nodes; one for each group frame."""
    found = []
    for packet in packets:
        told = captures.datagram(packet)
        if told is None or not first <= told[1] < first + MOST_NODES:
            continue
        if found and found[-1].goes_on(*told):
            found[-1].ports.append(told[1])
        else:
            found.append(Datagram(packet.time, *told))
    return found


def sent_lines(report):
    return [line.split(" ") for line in report.splitlines() if line.startswith("sent ")]


def of_live(packets, first, network=None, report=None):
    """The frames of a live run."""
    seen = datagrams(packets, first)
    nodes = network.points() + network.stations() if network else []
    lines, found = sent_lines(report) if network else [], []
    ports = {first + place: node for place, node in enumerate(nodes)}
    for one in seen:
        ways = "port %d to %s" % (one.source, ", ".join(map(str, one.ports)))
        if not network:
            text = "a datagram from %s" % ways
        elif one.source not in ports:
            text = "from outside, to %s (%s)" % (", ".join(ports.get(port, "no node") for port in one.ports), ways)
        else:
            if not lines:
                raise Mismatch("the report has no line of a datagram of %d octets from %s" % (len(one.octets), ports[one.source]))
            number, node, peer, kind, octets = lines.pop(0)[1:]
            to = network.stations() if peer == "all" else [peer]
            if (node, to, int(octets)) != (ports[one.source], [ports.get(port) for port in one.ports], len(one.octets)):
                raise Mismatch("frame %s is of %s octets from %s to %s, and the datagram in its place of %d octets from %s" % (
                    number, octets, node, peer, len(one.octets), ways))
            text = "frame %s: %s to %s, %s (%s)" % (number, node, peer, kind, ways)
        found.append((one.time, one.octets, text))
    if lines:
        raise Mismatch("no datagram is frame %s of the report" % lines[0][1])
    return found


def text_of(path):
    with open(path, encoding="latin-1", newline="") as file:
        return file.read()


def octets_of(path):
    with open(path, "rb") as file:
        return file.read()


def frames(words):
    """The network, where it is told, and the frames."""
    if words[:1] != ["--live"]:
        journal = entries.read(words[0])
        return journal.network, of_journal(journal)
    script, report = (text_of(path) for path in words[3:]) if len(words) == 5 else (None, None)
    network = entries.Network(script.split("\n")) if script else None
    return network, of_live(captures.packets(octets_of(words[2])), int(words[1]), network, report)


def main(words):
    has_beacons, words = "--beacons" in words, [word for word in words if word != "--beacons"]
    is_live = words[:1] == ["--live"] and len(words) in (3, 5) and words[1].isdigit()
    is_right = is_live and (len(words) == 5 or not has_beacons) or len(words) == 1 and not words[0].startswith("-")
    if not is_right:
        print("usage: pcap.py [--beacons] FILE, or pcap.py [--beacons] --live PORT CAPTURE [SCRIPT REPORT]; beacons need the script", file=sys.stderr)
        return 2
    try:
        network, found = frames(words)
    except (OSError, entries.Unreadable, captures.Unreadable, Mismatch, KeyError, ValueError) as why:
        print("%s: %s" % (words[2 if is_live else 0], getattr(why, "strerror", None) or why), file=sys.stderr)
        return 1
    if has_beacons:
        start = found[0][0] if found and is_live else 0
        found = beacons(network, start) + found
    what = "a live run of kehtrop" if is_live else "a run of kehtrop; the seconds are rounds"
    sys.stdout.buffer.write(captures.pcapng("tools/pcap.py of kehtrop", "frames of " + what, found))
    return 0


if __name__ == "__main__":
    sys.exit(main(sys.argv[1:]))
