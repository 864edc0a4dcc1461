"""Scripts of a large network for bench/large.sh: 64 access points and 1,024 stations, the most that a script may list.

    large.py FOLDER mixed              `quarter`, `half` and `whole`: of 65,536 lines, the most that a script may have, with counts
    large.py FOLDER one                one handshake, roam or payload more or less, where one station is listed or all, and a new group key
    large.py FOLDER rounds ROUNDS      rounds of sixteen events at each access point, and the same events one by one
"""
import os
import sys

LINES, POINTS, STATIONS = 65536, 64, 1024


class Script:
    """The lines of a script, and where its stations are."""

    def __init__(self, akm, points, stations):
        self.out = ["domain 1", "seed %064x" % 7, "ssid bench", "psk %064x" % 11, "akm " + akm]
        self.out += ["mdid a1b2"] if akm == "ft-psk" else []
        self.out += ["ap 0200000000%02x r0kh-%d" % (k + 1, k + 1) for k in range(points)]
        self.out += ["sta 02000001%04x" % (k + 1) for k in range(stations)]
        self.points, self.frame, self.sessions, self.payloads, self.roams, self.keys = points, 0, 0, 0, 0, 0
        self.at = {}  # of each station that has a session, its access point

    def deliver(self, *receivers):
        for receiver in receivers:
            self.frame += 1
            self.out.append("deliver %d to %s" % (self.frame, receiver))

    def leaves(self, station):
        """The access point of the session that the station leaves ends it too."""
        if station in self.at:
            self.out.append("expire a%d s%d" % (self.at[station], station))

    def connect(self, station, point):
        """A whole handshake with its association."""
        sta, ap = "s%d" % station, "a%d" % point
        self.out.append("connect %s %s" % (sta, ap))
        self.deliver(ap, sta, sta, ap, sta, ap)
        if self.at.get(station) != point:
            self.leaves(station)
        self.at[station] = point
        self.sessions += 1

    def roam(self, station, point):
        """A whole fast transition."""
        sta, ap = "s%d" % station, "a%d" % point
        self.out.append("roam %s %s" % (sta, ap))
        self.deliver(ap, sta, ap, sta)
        self.leaves(station)
        self.at[station] = point
        self.sessions += 1
        self.roams += 1

    def send(self, sender, receiver):
        """A payload of one octet, which is taken."""
        self.payloads += 1
        self.out.append("send %s %s - %02x" % (sender, receiver, self.payloads % 256))
        self.deliver(receiver)

    def rekey(self, point):
        """A new group key, which goes to all stations with a session, and which each answers."""
        there = sorted(station for station, at in self.at.items() if at == point)
        self.out.append("rekey a%d" % point)
        self.deliver(*["s%d" % station for station in there])
        self.deliver(*["a%d" % point] * len(there))
        self.keys += 1

    def next_point(self, station):
        return self.at[station] % self.points + 1

    def home(self, station):
        return (station - 1) % self.points + 1

    def connect_all(self):
        for station in range(1, STATIONS + 1):
            self.connect(station, self.home(station))


def write(folder, name, lines):
    with open(os.path.join(folder, name), "w") as file:
        file.write("\n".join(lines) + "\n")


# Each quarter of the lines behind the nodes is alike: every station is associated with its own access point, and then as many lines as
# are left for stations that roam to the next access point and exchange a payload with it each way; between them new group keys are drawn.
def mixed(folder):
    for name, quarters in (("quarter", 1), ("half", 2), ("whole", 4)):
        script = Script("ft-psk", POINTS, STATIONS)
        nodes, turn = len(script.out), 0
        for quarter in range(1, quarters + 1):
            most = nodes + (LINES - nodes) * quarter // 4
            script.connect_all()
            while len(script.out) + 60 <= most:
                station = turn * 5 % STATIONS + 1
                script.roam(station, script.next_point(station))
                point = "a%d" % script.at[station]
                script.send("s%d" % station, point)
                script.send(point, "s%d" % station)
                turn += 1
                if turn % 40 == 0:
                    script.rekey(script.at[station])
            script.out += ["# one more line"] * (most - len(script.out))
        write(folder, name, script.out)
        write(folder, name + ".count", ["%d %d %d %d" % (script.sessions, script.payloads, script.roams, script.keys)])


# What one of each costs beside many stations and beside one: ten of them, and sixty. With many all have a session, for a handshake and a
# payload at one access point; for a roam sixteen at each, whose key holders have a row for each of them. And a new group key at an access
# point at which all stations have a session, by itself and with its messages.
def one(folder):
    for stations in (1, STATIONS):
        for piece, akm, points in (("handshake", "psk", 1), ("payload", "psk", 1), ("roam", "ft-psk", POINTS)):
            for many in (10, 60):
                script = Script(akm, points, stations)
                for station in range(1, stations + 1):
                    script.connect(station, script.home(station))
                last = stations
                for k in range(many):
                    if piece == "handshake":
                        script.connect(last, 1)
                    if piece == "payload":
                        script.send("s%d" % last, "a1")
                    if piece == "roam":
                        script.roam(last, script.next_point(last))
                write(folder, "%s.%d.%d" % (piece, stations, many), script.out)
    script = Script("psk", 1, STATIONS)
    script.connect_all()
    write(folder, "none", script.out)
    write(folder, "drawn", script.out + ["rekey a1"])
    script.rekey(1)
    write(folder, "rekeyed", script.out)


# At each access point sixteen events: a payload to each of its stations, of so many octets, or an authentication request of each, for
# which it pulls a key from the key holder of another. So many rounds of these, the same events one by one, and what stands before them.
def rounds(folder, many):
    for name, octets in (("1", 1), ("256", 256), ("1500", 1500), ("pulls", None)):
        for way in ("neither", "alone", "round"):
            script = Script("ft-psk", POINTS, STATIONS)
            script.connect_all()
            for turn in range(many):
                events = []
                for station in range(1, STATIONS + 1):
                    if octets is None:
                        point = (script.home(station) + turn) % POINTS + 1
                        script.frame += 1
                        script.out.append("roam s%d a%d" % (station, point))
                        events.append("deliver %d to a%d" % (script.frame, point))
                    else:
                        events.append("send a%d s%d - %s" % (script.home(station), station, "5a" * octets))
                if way == "round":
                    script.out += ["round"] + events + ["end"]
                if way == "alone":
                    script.out += events
                if way != "neither":
                    script.frame += len(events)
            write(folder, "%s.%s" % (name, way), script.out)


if __name__ == "__main__":
    to, what = sys.argv[1:3]
    if what == "mixed":
        mixed(to)
    elif what == "one":
        one(to)
    else:
        rounds(to, int(sys.argv[3]))
