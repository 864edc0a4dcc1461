#!/usr/bin/env bash
# Fast transition over the air (IEEE Std 802.11-2020, clause 13). How long a replay takes, and how much memory, at a quarter, a half and
# the whole of the largest script: 64 stations are associated at 16 access points, four at each, and from then on each roams to the next
# access point over and over, and between two roams sends a payload to its access point and is sent one. And what one fast transition
# costs, in instructions, at both ends, with its place in the journal, the judging of the premises and the lines of the report: five lines
# of a script, by which a station roams and the two authentication frames and the two reassociation frames are delivered; two scripts, of
# 10 and of 60 roams of one station between two access points, the one less the other, over 50. There each access point has pulled the key
# before, and takes it from its cache. So also with a new association before each roam, at one of 16 access points by turns, and each roam
# to another that has not pulled that key; less the same associations alone. Instructions are counted by callgrind of valgrind, and where
# that is missing seconds of one processor are measured.
# Prints one figure a line, and what it means. It runs the program that `rt ci` proved and built, and says so and ends with 1 where there
# is none. Run it from anywhere in the repository. With --profile it also prints which functions the instructions of the longer script
# are spent in.
source "$(dirname "$0")/common.sh"
built kehtrop

# The scripts of the replay, with how many sessions, payloads and roams each has: a session begins by an association or a roam.
python3 - "$work" <<'PY'
import sys
LINES, STATIONS, POINTS = 65536, 64, 16
header = ["domain 1", "seed %064x" % 7, "ssid bench", "psk %064x" % 11, "akm ft-psk", "mdid a1b2"]
header += ["ap 0200000000%02x r0kh-%d" % (1 + k, 1 + k) for k in range(POINTS)]
header += ["sta 0200000001%02x" % (1 + k) for k in range(STATIONS)]


class Script:
    def __init__(self, lines):
        self.out, self.lines, self.frame, self.sessions, self.payloads = list(header), lines, 0, 0, 0
        self.at = {"s%d" % (k + 1): k % POINTS for k in range(STATIONS)}

    def has_room(self, more):
        return len(self.out) + more <= self.lines

    def deliver(self, *receivers):
        for receiver in receivers:
            self.frame += 1
            self.out.append("deliver %d to %s" % (self.frame, receiver))

    def point(self, station):
        return "a%d" % (self.at[station] + 1)

    # A whole handshake with the first access point of the station.
    def connect(self, station):
        point = self.point(station)
        self.out.append("connect %s %s" % (station, point))
        self.deliver(point, station, station, point, station, point)
        self.sessions += 1

    # A whole fast transition to the next access point.
    def roam(self, station):
        self.at[station] = (self.at[station] + 1) % POINTS
        point = self.point(station)
        self.out.append("roam %s %s" % (station, point))
        self.deliver(point, station, point, station)
        self.sessions += 1

    # A payload of the sender, which the receiver takes.
    def send(self, sender, receiver):
        self.payloads += 1
        self.out.append("send %s %s - %08x" % (sender, receiver, self.payloads))
        self.deliver(receiver)


for name, lines in (("quarter", LINES // 4), ("half", LINES // 2), ("whole", LINES)):
    script = Script(lines)
    stations = list(script.at)
    for station in stations:
        script.connect(station)
    turn = 0
    while script.has_room(9):
        station = stations[turn % STATIONS]
        script.roam(station)
        script.send(station, script.point(station))
        script.send(script.point(station), station)
        turn += 1
    script.out += ["# one more line"] * (lines - len(script.out))
    open("%s/%s" % (sys.argv[1], name), "w").write("\n".join(script.out) + "\n")
    open("%s/%s.count" % (sys.argv[1], name), "w").write("%d %d %d\n" % (script.sessions, script.payloads, turn))
PY

# It ends where one of the sessions did not begin at both ends, or one of the payloads was not handed up.
went_well() { # REPORT SESSIONS PAYLOADS
    if [ "$(grep -c '^finish ' "$1")" != $((2 * $2)) ] || [ "$(grep -c '^up ' "$1")" != "$3" ]; then
        echo "an association, a roam or a payload did not come to its end" >&2
        exit 1
    fi
}

# It says what was replayed.
roamed() { # REPORT SESSIONS PAYLOADS ROAMS
    went_well "$1" "$2" "$3"
    echo "$4 roams and $3 payloads"
}

replays roamed

# A script of an association and that many roams behind it, there and back.
script() { # ROAMS
    python3 - "$1" <<'PY'
import sys
roams = int(sys.argv[1])
lines = ["domain 1", "seed %064x" % 7, "ssid bench", "psk %064x" % 11, "akm ft-psk", "mdid a1b2"]
lines += ["ap 020000000001 r0kh-1", "ap 020000000002 r0kh-2", "sta 020000000101", "connect s1 a1"]
lines += ["deliver %d to %s" % (n + 1, receiver) for n, receiver in enumerate(("a1", "s1", "s1", "a1", "s1", "a1"))]
for k in range(roams):
    point = "a%d" % (2 - k % 2)
    lines.append("roam s1 %s" % point)
    lines += ["deliver %d to %s" % (7 + 4 * k + n, receiver) for n, receiver in enumerate((point, "s1", point, "s1"))]
print("\n".join(lines))
PY
}

# A script of that many associations of a station, each with the next of 16 access points, and where it is asked for behind each a roam
# to another, which has not pulled a key of that one for it before.
anew() { # ASSOCIATIONS alone|roams
    python3 - "$@" <<'PY'
import sys
many, has_roams, points = int(sys.argv[1]), sys.argv[2] == "roams", 16
lines = ["domain 1", "seed %064x" % 7, "ssid bench", "psk %064x" % 11, "akm ft-psk", "mdid a1b2"]
lines += ["ap 0200000000%02x r0kh-%d" % (1 + k, 1 + k) for k in range(points)]
lines += ["sta 020000000101"]
frame = 0


def deliver(*receivers):
    global frame
    for receiver in receivers:
        frame += 1
        lines.append("deliver %d to %s" % (frame, receiver))


for k in range(many):
    first = k % points
    point = "a%d" % (first + 1)
    lines.append("connect s1 %s" % point)
    deliver(point, "s1", "s1", point, "s1", point)
    if has_roams:
        point = "a%d" % ((first + 2 + k // points) % points + 1)
        lines.append("roam s1 %s" % point)
        deliver(point, "s1", point, "s1")
print("\n".join(lines))
PY
}

# The instructions, or else the seconds, of a replay of a script by that name with so many sessions.
of_script() { # NAME SESSIONS
    "$program" replay < "$work/$1.script" > "$work/$1.report"
    went_well "$work/$1.report" "$2" 0
    counted "$work/$1" "$work/$1.script" 200 replay
}

for roams in 10 60; do
    script "$roams" > "$work/roams.$roams.script"
    anew "$roams" roams > "$work/anew.$roams.script"
    anew "$roams" alone > "$work/alone.$roams.script"
done

few=$(of_script roams.10 11)
more=$(of_script roams.60 61)
of_one "one fast transition" "$few" "$more" 50
few=$(of_script anew.10 20)
more=$(of_script anew.60 120)
few_alone=$(of_script alone.10 10)
more_alone=$(of_script alone.60 60)
of_one "one fast transition after a new association" "($few - $few_alone)" "($more - $more_alone)" 50
profile "${1:-}" "$work/roams.60" 30 "60 fast transitions"
profile "${1:-}" "$work/anew.60" 30 "60 fast transitions, each after a new association"
