#!/usr/bin/env bash
# New group keys (IEEE Std 802.11-2020, 12.7.7). How long a replay takes, at a quarter, a half and the whole of the largest script: 64
# stations are connected at one access point, and from then on every 400 lines a new group key is drawn, which goes to all of them and is
# answered by all; between two of these stations are connected anew. And what one group-key handshake costs, in instructions, at both ends,
# with its place in the journal, the judging of the premises and the lines of the report: three lines of a script, by which a new group key
# is drawn and the two messages are delivered; two scripts, of 10 and of 60 such handshakes of one station, the one less the other, over
# 50. Instructions are counted by callgrind of valgrind, and where that is missing seconds of one processor are measured.
# Prints one figure a line, and what it means. It runs the program that `rt ci` proved and built, and says so and ends with 1 where there
# is none. Run it from anywhere in the repository. With --profile it also prints which functions the instructions of the longer script
# are spent in.
source "$(dirname "$0")/common.sh"
built kehtrop

# The scripts of the replay, with how many group keys each draws behind the first.
python3 - "$work" <<'PY'
import sys
LINES, STATIONS, EVERY = 65536, 64, 400
header = ["domain 1", "seed %064x" % 7, "ssid bench", "psk %064x" % 11, "akm psk", "ap 020000000001 r0kh-1"]
header += ["sta 0200000001%02x" % (1 + k) for k in range(STATIONS)]


class Script:
    def __init__(self, lines):
        self.out, self.lines, self.frame, self.next = list(header), lines, 0, 0

    def has_room(self, more):
        return len(self.out) + more <= self.lines

    def deliver(self, *receivers):
        for receiver in receivers:
            self.frame += 1
            self.out.append("deliver %d to %s" % (self.frame, receiver))

    # A whole handshake of the next station.
    def connect(self):
        station = "s%d" % (self.next % STATIONS + 1)
        self.next += 1
        self.out.append("connect %s a1" % station)
        self.deliver("a1", station, station, "a1", station, "a1")

    # Message 1 to each station, and message 2 of each.
    def rekey(self):
        self.out.append("rekey a1")
        self.deliver(*["s%d" % (k + 1) for k in range(STATIONS)])
        self.deliver(*["a1"] * STATIONS)


for name, lines in (("quarter", LINES // 4), ("half", LINES // 2), ("whole", LINES)):
    script, rekeys = Script(lines), 0
    for _ in range(STATIONS):
        script.connect()
    while script.has_room(EVERY):
        begun = len(script.out)
        script.rekey()
        rekeys += 1
        while len(script.out) + 7 <= begun + EVERY:
            script.connect()
        script.out += ["# one more line"] * (begun + EVERY - len(script.out))
    script.out += ["# one more line"] * (lines - len(script.out))
    open("%s/%s" % (sys.argv[1], name), "w").write("\n".join(script.out) + "\n")
    open("%s/%s.count" % (sys.argv[1], name), "w").write("%d\n" % rekeys)
PY

# It ends where one of the group keys did not come into use.
in_use() { # REPORT REKEYS
    if [ "$(grep -c '^install a1 all gtk' "$1")" != $(($2 + 1)) ]; then
        echo "a group key did not come into use" >&2
        exit 1
    fi
}

# It says what was replayed.
rekeyed() { # REPORT REKEYS
    in_use "$1" "$2"
    echo "$2 new group keys for 64 stations each"
}

replays rekeyed

# A script of a handshake and that many group-key handshakes behind it.
script() { # SUITE HANDSHAKES
    python3 - "$1" "$2" <<'PY'
import sys
suite, handshakes = sys.argv[1], int(sys.argv[2])
lines = ["domain 1", "seed %064x" % 7, "ssid bench", "psk %064x" % 11, "akm " + suite]
lines += ["ap 020000000001 r0kh-1", "sta 020000000101", "connect s1 a1"]
lines += ["deliver %d to %s" % (n + 1, receiver) for n, receiver in enumerate(("a1", "s1", "s1", "a1", "s1", "a1"))]
for k in range(handshakes):
    lines += ["rekey a1", "deliver %d to s1" % (7 + 2 * k), "deliver %d to a1" % (8 + 2 * k)]
print("\n".join(lines))
PY
}

# The instructions, or else the seconds, of a replay of that many group-key handshakes.
of_many() { # SUITE HANDSHAKES
    local name=$1.$2
    script "$1" "$2" > "$work/$name.script"
    "$program" replay < "$work/$name.script" > "$work/$name.report"
    in_use "$work/$name.report" "$2"
    counted "$work/$name" "$work/$name.script" 200 replay
}

for suite in psk psk-sha256; do
    few=$(of_many "$suite" 10)
    more=$(of_many "$suite" 60)
    of_one "one group-key handshake of the suite $suite" "$few" "$more" 50
done

for suite in psk psk-sha256; do
    profile "${1:-}" "$work/$suite.60" 30 "$suite, 60 group-key handshakes"
done
