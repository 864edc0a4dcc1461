#!/usr/bin/env python3
"""A holder and an asker, two processes of the program, over UDP sockets of this machine. `tools/link.sh` calls it.

    tools/link.py [PROGRAM]

Each process is told its script line by line through a pipe (`tools/live.py`), so it is known what waits at which port. Between the
lines foreign datagrams come to both ports, parts and changed copies of true ones, and true ones again. The lines that each process
has to write stand here in full, and its report is wrong where it has others; or where the process does not end with 0 and nothing on
standard error, or a port is still taken after its end. What is asked and answered is spelled by `tools/link_asker.py`, which is of no
code of the program; where this machine lets the process listen on its loopback, the datagrams of both processes have to be those.
That asker then asks a holder by itself. Last, two scripts are refused at a line after the header, each with its number and its text on
standard error. The last line has counts; the status is 0 where nothing is wrong.
"""
import os
import subprocess
import sys

sys.dont_write_bytecode = True
import live  # noqa: E402  how a process is told its lines, and its datagrams are seen
import link_asker  # noqa: E402
from live import Wrong  # noqa: E402

KEY = "404142434445464748494a4b4c4d4e4f505152535455565758595a5b5c5d5e5f"
OTHER = "604142434445464748494a4b4c4d4e4f505152535455565758595a5b5c5d5e5f"
STATION, STRANGER, R1KH = "020000000011", "020000000012", "020000000002"
A1, A2 = 0, 1  # the ports of the holder and of the asker, from the first on


def header(key=KEY, seed=live.SEED):
    return ["link 1", "key " + key, "seed " + seed, "ssid IEEE", "psk " + live.PSK, "mdid a1b2", "holder r0kh-1"]


def changed(octets):
    return octets[:-1] + bytes([octets[-1] ^ 1])


class End(live.Run):
    """A process that is one end of a link."""

    def __init__(self, first, end, lines):
        place = A1 if end == "holder" else A2
        self.ports = {end: first + place}
        self.listener = live.Listener({first + place})
        self.outside = live.socket.socket(live.socket.AF_INET, live.socket.SOCK_DGRAM)
        self.process = subprocess.Popen([live.PROGRAM, "link", str(first), end], stdin=subprocess.PIPE, stdout=subprocess.PIPE, stderr=subprocess.PIPE)
        try:
            self.tell(lines)
        except (Wrong, OSError):
            self.close()
            raise

    def foreign(self, octets):
        """A datagram from outside."""
        for port in self.ports.values():
            self.outside.sendto(octets, ("127.0.0.1", port))

    def finish(self, wanted):
        """Ends the process, which has to have written these lines, and answers the datagrams that it was seen to send, or None."""
        lines = self.end().splitlines()
        if lines != wanted:
            place = next((place for place, (one, two) in enumerate(zip(lines, wanted)) if one != two), min(len(lines), len(wanted)))
            raise Wrong("line %d of the report of the %s is %s, and not %s" % (place + 1, list(self.ports)[0], lines[place:place + 1], wanted[place:place + 1]))
        return [octets for _, _, octets in self.listener.seen] if self.listener.socket else None


class Pair:
    """A holder and an asker."""

    def __init__(self, holder, asker):
        self.first, self.asker = live.free_ports(2), None
        self.holder = End(self.first, "holder", holder)
        try:
            self.asker = End(self.first, "asker", asker)
        except (Wrong, OSError):
            self.close()
            raise

    def close(self):
        self.holder.close()
        if self.asker:
            self.asker.close()


def expect(seen, wanted, whose):
    """The datagrams were these, where any were seen."""
    if seen is not None and seen != wanted:
        raise Wrong("the datagrams of the %s are not those of its lines" % whose)


# ---- the cases

def exchange():
    """Questions and answers, with foreign datagrams, parts, changed copies and repeats among them."""
    told = link_asker.header_of("\n".join(header()) + "\n")
    station, stranger, r1kh = (bytes.fromhex(word) for word in (STATION, STRANGER, R1KH))
    asked = [told.question(station, r1kh, 0), told.question(stranger, r1kh, 1), told.question(station, r1kh, 2), told.question(station, r1kh, 3)]
    pair = Pair(header() + ["row " + STATION], header())
    yield pair
    holder, asker = pair.holder, pair.asker
    # To both before anything was asked: noise, nothing, a part of a question, one under no key.
    for octets in (b"\x05\x06", b"", asked[0][:20], changed(asked[0])):
        holder.foreign(octets)
        asker.foreign(octets)
    asker.tell(["ask %s %s" % (STATION, R1KH)])
    # The question comes three times.
    holder.foreign(asked[0])
    holder.foreign(asked[0])
    holder.tell(["turn"])
    asker.tell(["turn"])
    # One for which there is no row, and one that is forgotten before its answer comes.
    asker.tell(["ask %s %s" % (STRANGER, R1KH), "ask %s %s" % (STATION, R1KH), "forget 2"])
    holder.tell(["turn"])
    asker.tell(["turn", "forget 0", "turn"])
    # After the row was revoked; 20 datagrams wait, of which a turn takes 16.
    holder.tell(["revoke " + STATION])
    asker.tell(["ask %s %s" % (STATION, R1KH)])
    for _ in range(19):
        holder.foreign(b"\x01")
    holder.tell(["turn"])
    asker.tell(["turn"])
    holder.tell(["turn"])
    seen = holder.finish(
        ["link-refused a1 form 0", "link-refused a1 form 0", "link-refused a1 form 20", "link-refused a1 mac"] + ["told a1 found 74"] * 3
        + ["told a1 absent 34", "told a1 found 74", "revoke a1 %s revoked" % STATION, "told a1 absent 34"] + ["link-refused a1 form 1"] * 19)
    if seen is not None:
        answers = [told.answered(octets, told.nonce(r1kh, number)) for octets, number in zip(seen, (0, 0, 0, 1, 2, 3))]
        found = ("found", told.pmk_r1(station, r1kh))
        if len(seen) != 6 or answers != [found, found, found, ("absent", None), found, ("absent", None)]:
            raise Wrong("the answers of the holder are not those of its lines")
    expect(asker.finish(
        ["ask a2 0 68", "link-refused a2 form 0", "link-refused a2 form 0", "link-refused a2 form 0", "link-refused a2 form 0", "learn a2 0 found",
         "link-refused a2 unasked", "link-refused a2 unasked", "ask a2 1 68", "ask a2 2 68", "learn a2 1 absent", "link-refused a2 unasked",
         "idle a2 nothing", "ask a2 3 68", "learn a2 3 absent"]), asked, "asker")


def changed_answer():
    """The true answer comes first with its last octet changed, then in part, and then as it is, twice."""
    told = link_asker.header_of("\n".join(header()) + "\n")
    station, r1kh = bytes.fromhex(STATION), bytes.fromhex(R1KH)
    pair = Pair(header(), header())
    yield pair
    answer = told.sealed(b"\x02" + told.nonce(r1kh, 0) + b"\x02")
    pair.asker.tell(["ask %s %s" % (STATION, R1KH)])
    for octets in (changed(answer), answer[:10], answer, answer):
        pair.asker.foreign(octets)
    pair.asker.tell(["turn"])
    pair.holder.tell(["turn"])
    expect(pair.holder.finish(["told a1 absent 34"]), [answer], "holder")
    expect(pair.asker.finish(["ask a2 0 68", "link-refused a2 mac", "link-refused a2 form 10", "learn a2 0 absent", "link-refused a2 unasked"]),
           [told.question(station, r1kh, 0)], "asker")


def other_key():
    """Two ends with different link keys."""
    pair = Pair(header(OTHER) + ["row " + STATION], header())
    yield pair
    pair.asker.tell(["ask %s %s" % (STATION, R1KH)])
    pair.holder.tell(["turn"])
    pair.asker.tell(["turn"])
    expect(pair.holder.finish(["link-refused a1 mac"]), [], "holder")
    pair.asker.finish(["ask a2 0 68"])


def drawn():
    """Two askers that draw their seeds, at one holder."""
    seen = []
    for _ in range(2):
        pair = Pair(header() + ["row " + STATION], header(seed="draw"))
        yield pair
        pair.asker.tell(["ask %s %s" % (STATION, R1KH)])
        pair.holder.tell(["turn"])
        pair.asker.tell(["turn"])
        pair.holder.finish(["told a1 found 74"])
        seen += pair.asker.finish(["ask a2 0 68", "learn a2 0 found"]) or []
    if len(set(seen)) != len(seen):
        raise Wrong("two askers drew one seed")


def foreign_asker():
    """An asker that is not of this project."""
    told = link_asker.header_of("\n".join(header()) + "\n")
    station, r1kh = bytes.fromhex(STATION), bytes.fromhex(R1KH)
    first = live.free_ports(2)
    holder = End(first, "holder", header() + ["row " + STATION])
    yield holder
    answer = link_asker.told(told, first, station, r1kh, lambda: holder.tell(["turn"]))
    if answer != ("found", told.pmk_r1(station, r1kh)):
        raise Wrong("it was told %s" % (answer,))
    holder.finish(["told a1 found 74"])


def port_in_use():
    """An asker whose port somebody has."""
    first = live.free_ports(2)
    with live.socket.socket(live.socket.AF_INET, live.socket.SOCK_DGRAM) as one:
        one.bind(("127.0.0.1", first + A2))
        run = subprocess.run([live.PROGRAM, "link", str(first), "asker"], input="\n".join(header()).encode(), capture_output=True, timeout=live.SECONDS)
    yield None
    if run.returncode != 6 or run.stdout or b"port %d" % (first + A2) not in run.stderr:
        raise Wrong("it ended with %d: %s" % (run.returncode, run.stderr.decode()))


def refused():
    """Lines after the header that are refused, and what was written before them."""
    rows = ["row %012x" % (int(STATION, 16) + place) for place in range(65)]
    for end, lines, status, said, wanted in (
            ("asker", ["ask %s %s" % (STATION, R1KH), "forget 1"], 2,
             "line 9: no such question was asked (word 2: questions asked before: 1); the form is forget <n>", "ask a2 0 68"),
            ("holder", rows, 8, "more than 64 rows", "")):
        script = "".join(line + "\n" for line in header() + lines)
        run = subprocess.run([live.PROGRAM, "link", str(live.free_ports(2)), end], input=script.encode(), capture_output=True, timeout=live.SECONDS)
        yield None
        told = (run.returncode, run.stderr.decode().splitlines(), run.stdout.decode().splitlines())
        if told != (status, [said], wanted.splitlines()):
            raise Wrong("the %s ended with %d: %s, and wrote %s" % ((end,) + told))


CASES = (exchange, changed_answer, other_key, drawn, foreign_asker, port_in_use, refused)


def main():
    live.may_listen()
    runs, wrong = live.tried(CASES)
    print("%d links, %d wrong" % (runs, wrong))
    return 1 if wrong else 0


if __name__ == "__main__":
    sys.exit(main())
