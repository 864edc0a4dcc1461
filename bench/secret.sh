#!/usr/bin/env bash
# Changed keys. How long a replay takes, at a quarter, a half and the whole of the largest script: a network of one access point and 64
# stations in which nearly all lines change the key of one, each given as it is. What a changed key of all stations costs at 16 access
# points, in instructions a station, with suite 4, where each of them has a row for each station and a session with some: a script of 10
# such lines less one of 2. And what a passphrase in such a line costs more than a key, which is one PBKDF2.
# Instructions are counted by callgrind of valgrind, and where that is missing seconds of one processor are measured. Prints one figure
# a line, and what it means. It runs the program that `rt ci` proved and built, and says so and ends with 1 where there is none. Run it
# from anywhere in the repository.
source "$(dirname "$0")/common.sh"
built kehtrop

python3 - "$work" <<'PY'
import sys
LINES, STATIONS, POINTS = 65536, 64, 16
stations = ["sta 0200000001%02x" % (1 + k) for k in range(STATIONS)]


def write(name, lines):
    open("%s/%s" % (sys.argv[1], name), "w").write("\n".join(lines) + "\n")


head = ["domain 2", "seed %064x" % 7, "ssid bench", "psk %064x" % 11, "akm psk", "ap 020000000001 r0kh-1"] + stations
for name, lines in (("quarter", LINES // 4), ("half", LINES // 2), ("whole", LINES)):
    changes = lines - len(head)
    write(name, head + ["secret s%d psk %064x" % (k % STATIONS + 1, k) for k in range(changes)])
    write(name + ".count", [str(changes)])

# With suite 4: each station is connected at one of the access points, and all keys are changed so often.
head = ["domain 2", "seed %064x" % 7, "ssid bench", "psk %064x" % 11, "akm ft-psk", "mdid a1b2"]
head += ["ap 0200000000%02x r0kh-%d" % (1 + k, k) for k in range(POINTS)] + stations
frame = 0
for k in range(STATIONS):
    station, point = "s%d" % (k + 1), "a%d" % (k % POINTS + 1)
    head.append("connect %s %s" % (station, point))
    for receiver in (point, station, station, point, station, point):
        frame += 1
        head.append("deliver %d to %s" % (frame, receiver))
for name, changes in (("few", 2), ("more", 10)):
    write(name, head + ["secret all psk %064x" % (100 + k) for k in range(changes)])
write("phrase", head + ["secret all psk %064x" % 100, "secret all passphrase of the bench"])
PY

# It ends where a key was not changed at both ends, and says how many were.
changed() { # REPORT CHANGES
    if [ "$(grep -c '^secret ' "$1")" != $((2 * $2)) ]; then
        echo "a key was not changed at both ends" >&2
        exit 1
    fi
    echo "$2 changed keys"
}

replays changed
few=$(counted "$work/few.profile" "$work/few" 5 replay)
more=$(counted "$work/more.profile" "$work/more" 5 replay)
of_one "a changed key of one station at 16 access points and at itself" "$few" "$more" $((8 * 64))
phrase=$(counted "$work/phrase.profile" "$work/phrase" 5 replay)
of_one "a passphrase in place of a key" "$few" "$phrase" 1
