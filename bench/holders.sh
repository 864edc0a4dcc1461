#!/usr/bin/env bash
# The key holders of fast transition (IEEE Std 802.11-2020, 12.7.1.6), of 16 access points. How many keys a second threads side by
# side pull from the key holders that they share: 1, 2 and 4 threads, each with a pass of its own, which ask the access points by turns
# for one row after the other; at 4 rows an access point and at 64, where it is full, for names that are held, of which each pull derives
# a PMK-R1, and for names that are not, for which it only walks over all rows. And the names that are held by a cache of 64 keys for each
# thread: at 4 rows an access point it has each key after the first time, at 64 it has none. A small program does the pulls
# (crates/micro_bench).
# And what 256 events at 16 access points cost as one round, beside the same events one by one: 64 stations are associated, four at each
# access point, each asks four others to come over, and the 256 authentication requests are delivered, at which an access point pulls the
# key from another. A third script has all lines but these deliveries; what each of the two costs more is the cost of the deliveries.
# Instructions of one pull are counted by callgrind of valgrind, and where that is missing seconds of one processor are measured. Other
# seconds are by the clock, the least of three runs, and for the rounds also those of all processors together. Prints one figure a line,
# and what it means. It runs the programs that `rt ci` proved and built, and says so and ends with 1 where there is none. Run it from
# anywhere in the repository, with nothing else running.
source "$(dirname "$0")/common.sh"
built micro_bench
puller=$program
echo "processors: $(nproc)"

# What one pull of one thread costs: 2,200 less 200, over 2,000. By then a cache has all keys that it can have.
of_pull() { # ROWS KIND
    local few more
    few=$(counted "$work/few" /dev/null 20 pull 1 "$1" 200 "$2")
    more=$(counted "$work/more" /dev/null 20 pull 1 "$1" 2200 "$2")
    of_one "one pull, rows: $1, names $2" "$few" "$more" 2000
}

for rows in 4 64; do
    for kind in held cached absent; do of_pull "$rows" "$kind"; done
done
built kehtrop

# Pulls a second of that many threads, at access points of that many rows: the seconds of a run of many pulls less those of a run of
# none. Where the names are held, with a cache or without, it ends if not each pull found a key.
pulls() { # THREADS ROWS PULLS KIND
    local none many all=$(($1 * $3)) found
    read -r none _ < <(clocked "$work/none" /dev/null "$puller" pull "$1" "$2" 0 "$4")
    read -r many _ < <(clocked "$work/many" /dev/null "$puller" pull "$1" "$2" "$3" "$4")
    if [ "$4" = absent ]; then found=0; else found=$all; fi
    if ! grep -q ": found $found of $all," "$work/many"; then
        echo "not as many keys were found as were asked for: $(cat "$work/many")" >&2
        exit 1
    fi
    python3 -c "
seconds = max($many - $none, 1e-9)
print('pulls a second, threads: $1, rows: $2, names $4: %.4g (%.4g microseconds each)' % ($all / seconds, 1e6 * seconds / $all))"
}

for rows in 4 64; do
    for threads in 1 2 4; do pulls "$threads" "$rows" 400000 held; done
    for threads in 1 2 4; do pulls "$threads" "$rows" 400000 cached; done
    for threads in 1 2 4; do pulls "$threads" "$rows" 4000000 absent; done
done

# The scripts: what each asks for stands in three of them alike.
blocks=80
python3 - "$work" "$blocks" <<'PY'
import sys
STATIONS, POINTS, ASKED = 64, 16, 4
folder, blocks = sys.argv[1], int(sys.argv[2])


class Script:
    def __init__(self):
        self.out = ["domain 1", "seed %064x" % 7, "ssid bench", "psk %064x" % 11, "akm ft-psk", "mdid a1b2"]
        self.out += ["ap 0200000000%02x r0kh-%d" % (1 + k, 1 + k) for k in range(POINTS)]
        self.out += ["sta 0200000001%02x" % (1 + k) for k in range(STATIONS)]
        self.frame = 0

    # A whole handshake of a station with its access point.
    def connect(self, station, point):
        self.out.append("connect %s %s" % (station, point))
        for receiver in (point, station, station, point, station, point):
            self.frame += 1
            self.out.append("deliver %d to %s" % (self.frame, receiver))

    # Each station asks that many access points, never its own, one after the other, and keeps its session. The requests, as
    # deliveries: four of each station, sixteen at each access point. The answers to them are never delivered.
    def requests(self, block):
        deliveries = []
        for k in range(STATIONS):
            for j in range(ASKED):
                point = (k + 1 + (ASKED * block + j) % (POINTS - 1)) % POINTS
                self.frame += 1
                self.out.append("roam s%d a%d" % (k + 1, point + 1))
                deliveries.append("deliver %d to a%d" % (self.frame, point + 1))
        return deliveries


for name in ("alone", "round", "neither"):
    script = Script()
    for k in range(STATIONS):
        script.connect("s%d" % (k + 1), "a%d" % (k % POINTS + 1))
    for block in range(blocks):
        deliveries = script.requests(block)
        if name == "round":
            script.out += ["round"] + deliveries + ["end"]
        if name == "alone":
            script.out += deliveries
        # Each request is answered by one frame. In a round the answers are numbered by access point, but none is named.
        if name != "neither":
            script.frame += len(deliveries)
    open("%s/%s.script" % (folder, name), "w").write("\n".join(script.out) + "\n")
PY

# How many lines of a report begin so.
lines_of() { # SCRIPT BEGINNING
    grep -c "^$2" "$work/$1.report" || true
}

for script in alone round neither; do
    read -r clock processors < <(clocked "$work/$script.report" "$work/$script.script" "$program" replay)
    eval "clock_$script=$clock processors_$script=$processors"
done
for script in alone round; do
    if [ "$(lines_of "$script" 'look .* found$')" != $((256 * blocks)) ]; then
        echo "an authentication request was not answered by a key that was pulled" >&2
        exit 1
    fi
done
if [ "$(lines_of alone 'sent ')" != "$(lines_of round 'sent ')" ]; then
    echo "the rounds did not send what the single events sent" >&2
    exit 1
fi

# The cost of one block of 256 events, over all blocks.
of_block() { # TEXT CLOCK PROCESSORS
    python3 -c "
clock, processors = ($2 - $clock_neither) / $blocks, ($3 - $processors_neither) / $blocks
print('256 events at 16 access points, $1: %.4g ms by the clock, %.4g ms of all processors' % (1e3 * clock, 1e3 * processors))"
}
of_block "one by one" "$clock_alone" "$processors_alone"
of_block "as one round" "$clock_round" "$processors_round"
