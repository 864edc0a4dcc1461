#!/usr/bin/env python3
"""Live runs of the program over UDP sockets of this machine, with foreign datagrams among its own. `tools/live.sh` calls it.

    tools/live.py [PROGRAM]

A script goes to `PROGRAM live PORT` through a pipe, line by line: the next line is written when the last one was run, so it is known
what each node's socket holds as a datagram from outside comes. Beside it the same run is told as a replay: what a turn takes is
spelled by `deliver` lines, and by `inject` lines where it came from outside. The run is wrong where its report is not, octet for
octet, that of the replay; where a line is not in it that the case names; where the program does not end with 0 and nothing on standard
error, or not within a minute; or where a port of a node is still taken behind its end.

Where this machine lets the process listen on its loopback, all datagrams of the program are looked at too: each frame of the report
has to be one datagram of its length, from the port of its node to that of its peer, or to each station's; octets that were sent are
then sent again by the other process; and two runs that draw their seeds have to send different nonces. Where it does not, a line says
so. The last line has counts; the status is 0 where nothing is wrong.
"""
import array
import fcntl
import os
import random
import socket
import subprocess
import sys
import termios
import time

PROGRAM = sys.argv[1] if len(sys.argv) > 1 else os.path.join("crates", "kehtrop", "out", "kehtrop")
SEED = "000102030405060708090a0b0c0d0e0f101112131415161718191a1b1c1d1e1f"
PSK = "f42c6fc52df0ebef9ebb4b90b38a5f902e83fe1b135a70e23aed762e9710a12e"
HOLDS = "premises fresh yes no-collision yes unforged yes"
SECONDS = 60  # of one line or the end; a turn takes a twentieth of a second for each node
CUT, POLLS = 2400, 16
OUTGOING = 4  # of a packet as it leaves; the same comes in then


class Wrong(Exception):
    pass


def free_ports(count):
    """The first of so many ports one behind the other that nobody has."""
    for _ in range(200):
        first = random.randint(20000, 30000)
        if all(is_free(first + place) for place in range(count)):
            return first
    raise Wrong("no free ports")


def is_free(port):
    with socket.socket(socket.AF_INET, socket.SOCK_DGRAM) as one:
        try:
            one.bind(("127.0.0.1", port))
        except OSError:
            return False
    return True


class Listener:
    """The datagrams that leave some ports of this machine, where this process may listen."""

    def __init__(self, ports):
        self.ports, self.seen, self.socket = ports, [], None
        try:
            self.socket = socket.socket(socket.AF_PACKET, socket.SOCK_DGRAM, socket.ntohs(0x0800))
            self.socket.setsockopt(socket.SOL_SOCKET, socket.SO_RCVBUF, 1 << 22)
            self.socket.bind(("lo", 0))
            self.socket.setblocking(False)
        except (OSError, AttributeError):
            self.socket = None

    def look(self):
        """Takes what was sent since, each as its ports and octets."""
        while self.socket:
            try:
                packet, origin = self.socket.recvfrom(65535)
            except BlockingIOError:
                return
            header = (packet[0] & 15) * 4
            if packet[9] != 17 or origin[2] == OUTGOING:
                continue
            source, to, size = (int.from_bytes(packet[header + place:header + place + 2], "big") for place in (0, 2, 4))
            if source in self.ports:
                self.seen.append((source, to, packet[header + 8:header + size]))

    def close(self):
        if self.socket:
            self.socket.close()


def replayed(lines):
    """The report of a replay of these lines."""
    run = subprocess.run([PROGRAM, "replay"], input="".join(line + "\n" for line in lines).encode(), capture_output=True, timeout=SECONDS)
    if run.returncode != 0:
        raise Wrong("the replay beside it ends with %d: %s" % (run.returncode, run.stderr.decode()))
    return run.stdout.decode()


class Run:
    """A live run, the replay that tells the same, and what waits at each node's socket."""

    def __init__(self, suite, points, stations, seed=SEED, version=1):
        self.points = ["a%d" % (place + 1) for place in range(points)]
        self.stations = ["s%d" % (place + 1) for place in range(stations)]
        self.nodes = self.points + self.stations
        self.waiting = {node: [] for node in self.nodes}
        self.sent = 0
        self.first = free_ports(len(self.nodes))
        self.ports = {node: self.first + place for place, node in enumerate(self.nodes)}
        self.listener = Listener(set(self.ports.values()))
        self.outside = socket.socket(socket.AF_INET, socket.SOCK_DGRAM)
        self.process = subprocess.Popen([PROGRAM, "live", str(self.first)], stdin=subprocess.PIPE, stdout=subprocess.PIPE, stderr=subprocess.PIPE)
        header = ["ssid IEEE", "psk " + PSK, "akm " + suite] + ["mdid a1b2"] * (suite == "ft-psk")
        header += ["ap 02000000000%d r0kh-%d" % (place + 1, place + 1) for place in range(points)]
        header += ["sta 02000000001%d" % (place + 1) for place in range(stations)]
        self.lines = ["domain %d" % version, "seed " + SEED] + header
        try:
            self.tell(["domain %d" % version, "seed " + seed] + header)
        except (Wrong, OSError):
            self.close()
            raise

    # ---- the program

    def write(self, text):
        """Writes to the program, and waits until it took that."""
        unread = array.array("i", [1])
        try:
            self.process.stdin.write(text.encode())
            self.process.stdin.flush()
        except BrokenPipeError:
            raise Wrong(self.why_it_stopped())
        end = time.monotonic() + SECONDS
        while True:
            fcntl.ioctl(self.process.stdin, termios.FIONREAD, unread)
            if unread[0] == 0:
                return
            if self.process.poll() is not None or time.monotonic() > end:
                raise Wrong(self.why_it_stopped())
            time.sleep(0.001)

    def why_it_stopped(self):
        """How the program ended that reads no further, where it did end."""
        try:
            self.process.wait(1)
        except subprocess.TimeoutExpired:
            return "the program does not read on"
        return "ended with %d before its script did: %s" % (self.process.returncode, self.process.stderr.read().decode())

    def tell(self, lines):
        """Lets the program run these lines: as it reads on it has run what it read before."""
        for line in lines:
            self.write(line + "\n")
        self.write("#\n")
        self.listener.look()

    def end(self):
        try:
            out, err = self.process.communicate(timeout=SECONDS)
        except subprocess.TimeoutExpired:
            raise Wrong("the program does not end")
        self.listener.look()
        if self.process.returncode != 0 or err:
            raise Wrong("ended with %d: %s" % (self.process.returncode, err.decode()))
        taken = [port for port in self.ports.values() if not is_free(port)]
        if taken:
            raise Wrong("ports are taken behind the end: %s" % taken)
        return out.decode()

    def close(self):
        if self.process.poll() is None:
            self.process.kill()
            self.process.communicate()
        self.outside.close()
        self.listener.close()

    # ---- the replay beside it

    def told(self, lines):
        """More lines of the replay; what they send waits at the nodes to which it goes."""
        self.lines += lines
        for said in replayed(self.lines).splitlines():
            words = said.split()
            if words[0] == "sent" and int(words[1]) > self.sent:
                self.sent = int(words[1])
                for node in self.stations if words[3] == "all" else [words[3]]:
                    self.waiting[node].append("deliver %d to %s" % (self.sent, node))

    # ---- what a case asks for

    def event(self, line):
        self.tell([line])
        self.told([line])

    def turn(self, times=1):
        for _ in range(times):
            self.tell(["turn"])
            for node in self.nodes:  # none sends to itself, so what it takes is what waits now
                taken, self.waiting[node] = self.waiting[node][:POLLS], self.waiting[node][POLLS:]
                if taken:
                    self.told(taken)

    def foreign(self, node, octets):
        """A datagram from outside."""
        self.outside.sendto(octets, ("127.0.0.1", self.ports[node]))
        if octets:
            self.waiting[node].append("inject %s %s" % (node, octets[:CUT].hex()))
        else:
            self.waiting[node].append("cut 1 0 to %s" % node)

    def elsewhere(self, node, octets):
        """A datagram to the node's port at another address of the loopback, where it does not listen."""
        self.outside.sendto(octets, ("127.0.0.2", self.ports[node]))

    def again(self, number, node):
        """The octets of a frame that was sent, once more and from outside, where they were seen."""
        octets = next((octets for told, _, _, octets in self.frames(replayed(self.lines)) if told == number), None)
        if octets is None:
            raise Wrong("frame %d was not seen" % number)
        self.outside.sendto(octets, ("127.0.0.1", self.ports[node]))
        self.waiting[node].append("deliver %d to %s" % (number, node))

    # ---- what was seen

    def frames(self, report):
        """The datagrams that the report says, in order, each with the octets that were seen in its place."""
        self.listener.look()
        said = []
        for line in report.splitlines():
            words = line.split()
            if words[0] == "sent":
                for to in self.stations if words[3] == "all" else [words[3]]:
                    said.append((int(words[1]), self.ports[words[2]], self.ports[to], int(words[5])))
        seen = self.listener.seen
        if len(said) != len(seen):
            raise Wrong("%d datagrams were seen, and %d are said" % (len(seen), len(said)))
        for (number, source, to, size), (seen_source, seen_to, octets) in zip(said, seen):
            if (source, to, size) != (seen_source, seen_to, len(octets)):
                raise Wrong("frame %d is %d octets from %d to %d, and seen were %d from %d to %d" % (number, size, source, to, len(octets), seen_source, seen_to))
        return [(number, source, to, octets) for (number, source, to, _), (_, _, octets) in zip(said, seen)]

    def finish(self, wanted, premises=HOLDS):
        """Ends the run and judges it. The lines have to be in the report in that order, and then that of the premises."""
        report = self.end()
        beside = replayed(self.lines)
        if report != beside:
            lines, other = report.splitlines(), beside.splitlines()
            place = next((place for place, (one, two) in enumerate(zip(lines, other)) if one != two), min(len(lines), len(other)))
            raise Wrong("line %d of its report is %s, and of the replay's %s" % (place + 1, lines[place:place + 1], other[place:place + 1]))
        rest = iter(report.splitlines())
        for line in wanted + [premises]:
            if line not in rest:
                raise Wrong("this is not in its report, or not in its order: %s" % line)
        return self.frames(report) if self.listener.socket else []


# ---- frames from outside. Addresses are those of the scripts: 02000000000N of access points, 02000000001N of stations.

AP, STA = bytes.fromhex("020000000001"), bytes.fromhex("020000000011")
RSNE = bytes.fromhex("30140100000fac040100000fac040100000fac020c00")


def header(control, one, two, three):
    return bytes.fromhex(control) + bytes(2) + one + two + three + bytes(2)


def message_1(information="008a"):
    """An M1 from the first access point to the first station, with a nonce of nobody."""
    body = bytes.fromhex("0203005f02" + information + "00100000000000000001") + b"\x5a" * 32 + bytes(50)
    return header("0802", STA, AP, AP) + bytes.fromhex("aaaa03000000888e") + body


def association_request(more=b""):
    """Of the first station, which it never sent."""
    elements = b"\x00\x04IEEE" + bytes.fromhex("01080c1218243048606c") + RSNE
    return header("0000", AP, STA, AP) + bytes.fromhex("11000a00") + elements + more


def association_response(status):
    """From the first access point, which never sent it."""
    return header("1000", STA, AP, AP) + bytes.fromhex("1100") + status.to_bytes(2, "little") + bytes.fromhex("01c0") + bytes.fromhex("01080c1218243048606c")


DEAUTHENTICATION = header("c000", STA, AP, AP) + b"\x07\x00"
FORGED_DATA = header("0841", AP, STA, AP) + bytes.fromhex("0900002000000000") + b"\xa5" * 30
# 2,636 octets. Of the last but one of its elements, from octet 2,351 of them on, 21 are left where 2,400 octets are taken.
LONG = association_request((b"\xdd\xff" + b"\xa5" * 255) * 10)


# ---- the cases

def psk():
    run = Run("psk", 1, 2)
    yield run
    run.elsewhere("a1", b"\x00")
    # Before anything was sent: of 20 frames without sense a turn takes 16, and the next one 4.
    for place in range(20):
        run.foreign("a1", bytes([place]))
    run.turn(2)
    # A frame of no octets, and a forged M1 behind that of the access point, which spoils the attempt; the next one is done.
    run.event("connect s1 a1")
    run.foreign("s1", b"")
    run.turn()
    run.foreign("s1", message_1())
    run.turn(2)
    run.event("connect s1 a1")
    run.turn(3)
    # Forged frames while there is a session, and one that is too long.
    for octets in (association_response(0), message_1(), DEAUTHENTICATION):
        run.foreign("s1", octets)
    for octets in (FORGED_DATA, LONG, association_request()):
        run.foreign("a1", octets)
    run.turn(2)
    run.event("connect s2 a1")
    run.turn(3)
    # Data both ways and to all, a new group key, and data under it.
    run.event("send s1 a1 - 0102")
    run.event("send a1 s1 5 0304")
    run.event("send a1 all - 0506")
    run.turn()
    run.event("rekey a1")
    run.turn(3)
    run.event("send a1 all - 0708")
    run.turn()
    run.finish([
        "took a1 unread refused malformed 1 1 1", "took s1 unread refused malformed 1 0 1", "took s1 m3 refused nonce", "took a1 m2 refused unawaited",
        "finish s1 a1", "finish a1 s1", "took a1 data refused seal", "took a1 assoc-req refused malformed 3 2351 1", "took a1 assoc-req accepted",
        "took s1 assoc-resp refused unawaited", "took s1 m1 refused unawaited", "took s1 ignored ignored", "finish a1 s2",
        "up a1 s1 0 0 1 0102", "up s1 a1 0 5 1 0304", "up s2 a1 1 0 1 0506", "took s1 g1 accepted", "install a1 all gtk 2",
        "up s1 a1 2 0 1 0708", "up s2 a1 2 0 1 0708"])


def psk_sha256():
    run = Run("psk-sha256", 2, 1)
    yield run
    run.foreign("a2", association_request())
    run.event("connect s1 a1")
    run.turn(3)
    run.event("send s1 a1 7 00")
    run.event("send a1 s1 - ff")
    run.event("rekey a1")
    run.foreign("s1", b"\xff" * 40)
    run.turn(3)
    run.event("send a1 all - 01")
    run.turn()
    run.finish(["took a2 assoc-req refused not-for-me", "finish s1 a1", "finish a1 s1", "up a1 s1 0 7 1 00", "up s1 a1 0 0 1 ff",
                "took s1 unread refused malformed 1 0 2", "install a1 all gtk 2", "up s1 a1 2 0 1 01"])


def ft_psk():
    run = Run("ft-psk", 2, 1)
    yield run
    run.event("connect s1 a1")
    run.turn(3)
    run.event("send a1 all - 68656c6c6f")
    run.foreign("a1", association_request())
    run.turn()
    run.event("roam s1 a2")
    run.foreign("s1", association_response(0))
    run.turn(3)
    run.event("send s1 a2 - 01")
    run.event("send a2 s1 - 02")
    run.event("rekey a2")
    run.turn(3)
    run.event("send a2 all - 03")
    run.turn()
    run.event("roam s1 a1")
    run.turn(3)
    run.finish(["finish s1 a1", "finish a1 s1", "put a1 s1 held", "up s1 a1 1 0 1 68656c6c6f", "look a2 s1 found", "finish a2 s1",
                "finish s1 a2", "up a2 s1 0 0 1 01", "up s1 a2 0 0 1 02", "install a2 all gtk 2", "up s1 a2 2 0 1 03", "finish a1 s1"])


def drawn():
    """Two runs that draw their seeds. What they print has no nonce in it, so it is that of any seed."""
    nonces = []
    for _ in range(2):
        run = Run("psk", 1, 1, "draw")
        yield run
        run.event("connect s1 a1")
        run.foreign("s1", DEAUTHENTICATION)
        run.turn(3)
        run.event("send s1 a1 - 0102")
        run.turn()
        frames = run.finish(["took s1 ignored ignored", "finish s1 a1", "finish a1 s1", "up a1 s1 0 0 1 0102"])
        nonces += [octets[49:81] for number, _, _, octets in frames if number == 3]
    if len(set(nonces)) != len(nonces):
        raise Wrong("two runs drew one seed")


def sent_again():
    """Octets of the nodes themselves come again from outside."""
    run = Run("psk", 1, 1)
    yield run
    run.event("connect s1 a1")
    run.turn(3)
    run.event("send s1 a1 - 0102")
    run.turn()
    for number, node in ((3, "s1"), (5, "s1"), (4, "a1"), (6, "a1"), (7, "a1")):
        run.again(number, node)
    run.turn(2)
    run.finish(["finish a1 s1", "up a1 s1 0 0 1 0102", "took a1 m2 refused unawaited", "took a1 m4 refused unawaited", "took a1 data refused replayed 1",
                "took s1 m1 refused unawaited", "took s1 m3 refused counter 2"])


def may_listen():
    """whether this process may see the datagrams of the loopback; where not, it says so"""
    listens = Listener(set())
    may = bool(listens.socket)
    if not may:
        print("skipped: this process may not listen on the loopback, so no datagram of the program was looked at")
    listens.close()
    return may


def tried(cases):
    """how many runs the cases made, and how many cases failed: of those it says why"""
    runs = wrong = 0
    for case in cases:
        run = None
        try:
            for run in case():
                runs += 1
        except (Wrong, OSError, subprocess.TimeoutExpired) as error:
            wrong += 1
            print("%s: %s" % (case.__name__, error))
            if getattr(run, "lines", None):
                print("  its replay:\n    " + "\n    ".join(run.lines))
        finally:
            if run is not None:
                run.close()
    return runs, wrong


def main():
    cases = [psk, psk_sha256, ft_psk, drawn]
    if may_listen():
        cases.append(sent_again)
    runs, wrong = tried(cases)
    print("live runs %d wrong %d" % (runs, wrong))
    return 1 if wrong or runs < len(cases) else 0


if __name__ == "__main__":
    sys.exit(main())
