#!/usr/bin/env bash
# Protected data (IEEE Std 802.11-2020, 12.5.3). How long a replay takes, and how much memory, at a quarter, a half and the whole of the
# largest script: 64 stations are connected at one access point, and from then on half of the lines send a payload of 1,500 octets and
# deliver the frame, from a station, to one and to all; between them stations are connected anew. And what one such frame costs, in
# instructions, at both ends, with its place in the journal, the judging of the premises and the lines of the report: two lines of a
# script; two scripts, of 10 and of 60 frames from one station, the one less the other, over 50. The same of announcements (12.5.4), each an
# Action frame of the access point to all with a payload of 1,500 octets, and of data to all. Instructions are counted by callgrind of
# valgrind, and where that is missing seconds of one processor are measured.
# Prints one figure a line, and what it means. It runs the program that `rt ci` proved and built, and says so and ends with 1 where there
# is none. Run it from anywhere in the repository. With --profile it also prints which functions the instructions of the longer script
# are spent in.
source "$(dirname "$0")/common.sh"
built kehtrop

# The scripts of the replay, with how many payloads are sent and taken in each.
python3 - "$work" <<'PY'
import sys
LINES, STATIONS, OCTETS = 65536, 64, 1500
header = ["domain 1", "seed %064x" % 7, "ssid bench", "psk %064x" % 11, "akm psk", "ap 020000000001 r0kh-1"]
header += ["sta 0200000001%02x" % (1 + k) for k in range(STATIONS)]


class Script:
    def __init__(self, lines):
        self.out, self.lines, self.frame, self.next, self.payloads = list(header), lines, 0, 0, 0

    def has_room(self, more):
        return len(self.out) + more <= self.lines

    def station(self):
        self.next += 1
        return "s%d" % (self.next % STATIONS + 1)

    def deliver(self, *receivers):
        for receiver in receivers:
            self.frame += 1
            self.out.append("deliver %d to %s" % (self.frame, receiver))

    # A whole handshake of the next station.
    def connect(self):
        station = self.station()
        self.out.append("connect %s a1" % station)
        self.deliver("a1", station, station, "a1", station, "a1")

    # A payload, each with other octets, which its receiver takes, or one of its receivers.
    def send(self, sender, to, receiver):
        self.payloads += 1
        self.out.append("send %s %s - %s" % (sender, to, ("%08x" % self.payloads) * (OCTETS // 4)))
        self.deliver(receiver)


for name, lines in (("quarter", LINES // 4), ("half", LINES // 2), ("whole", LINES)):
    script = Script(lines)
    for _ in range(STATIONS):
        script.connect()
    while script.has_room(28):
        script.connect()
        script.connect()
        for _ in range(3):
            one, other = script.station(), script.station()
            script.send(one, "a1", "a1")
            script.send("a1", other, other)
        script.send("a1", "all", script.station())
    script.out += ["# one more line"] * (lines - len(script.out))
    open("%s/%s" % (sys.argv[1], name), "w").write("\n".join(script.out) + "\n")
    open("%s/%s.count" % (sys.argv[1], name), "w").write("%d\n" % script.payloads)
PY

# It ends where one of the payloads was not handed up.
handed_up() { # REPORT PAYLOADS
    if [ "$(grep -c '^up ' "$1")" != "$2" ]; then
        echo "a payload was not handed up" >&2
        exit 1
    fi
}

# It says what was replayed.
sent() { # REPORT PAYLOADS
    handed_up "$1" "$2"
    echo "$2 payloads of 1500 octets"
}

replays sent

# A script of a handshake and that many payloads behind it.
script() { # SUITE PAYLOADS
    python3 - "$1" "$2" <<'PY'
import sys
suite, payloads = sys.argv[1], int(sys.argv[2])
lines = ["domain 1", "seed %064x" % 7, "ssid bench", "psk %064x" % 11, "akm " + suite]
lines += ["ap 020000000001 r0kh-1", "sta 020000000101", "connect s1 a1"]
lines += ["deliver %d to %s" % (n + 1, receiver) for n, receiver in enumerate(("a1", "s1", "s1", "a1", "s1", "a1"))]
for k in range(payloads):
    lines += ["send s1 a1 - " + ("%08x" % k) * 375, "deliver %d to a1" % (7 + k)]
print("\n".join(lines))
PY
}

# The instructions, or else the seconds, of a replay of that many payloads.
of_many() { # SUITE PAYLOADS
    local name=$1.$2
    script "$1" "$2" > "$work/$name.script"
    "$program" replay < "$work/$name.script" > "$work/$name.report"
    handed_up "$work/$name.report" "$2"
    counted "$work/$name" "$work/$name.script" 200 replay
}

# The same of payloads to all, as data or in announcements.
to_all() { # WORD PAYLOADS
    local name=$1.$2
    script psk-sha256 0 | sed -e 's/^domain 1$/domain 2/' -e 's/^ap /mfp\n&/' > "$work/$name.script"
    python3 - "$1" "$2" >> "$work/$name.script" <<'PY'
import sys
for k in range(int(sys.argv[2])):
    print("%s %s" % ({"send": "send a1 all -", "announce": "announce a1"}[sys.argv[1]], ("%08x" % k) * 375))
    print("deliver %d to s1" % (7 + k))
PY
    "$program" replay < "$work/$name.script" > "$work/$name.report"
    handed_up "$work/$name.report" "$2"
    counted "$work/$name" "$work/$name.script" 200 replay
}

few=$(of_many psk 10)
more=$(of_many psk 60)
of_one "one frame of 1500 octets sent and taken" "$few" "$more" 50
few=$(to_all send 10)
more=$(to_all send 60)
of_one "one group frame of 1500 octets sent and taken" "$few" "$more" 50
few=$(to_all announce 10)
more=$(to_all announce 60)
of_one "one announcement of 1500 octets sent and taken" "$few" "$more" 50
profile "${1:-}" "$work/psk.60" 30 "60 frames of 1500 octets"
