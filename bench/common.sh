# What the scripts of this folder share; it is read by them, and does nothing by itself.
set -eu
cd "$(dirname "${BASH_SOURCE[0]}")/.."
work=$(mktemp -d)
trap 'rm -rf "$work"' EXIT

# The program that `rt ci` proved and built. Where there is none, it says so and ends.
built() { # CRATE
    program=crates/$1/out/$1
    if [ ! -x "$program" ]; then
        echo "no program was built: \`rt ci\` does" >&2
        exit 1
    fi
}

# What `counted` counts: instructions, by callgrind of valgrind, and seconds of one processor where that is missing.
if command -v valgrind > /dev/null; then unit=instructions; else unit=seconds; fi

# The instructions, or else the seconds, of the program on an input. The profile goes to a file. It ends where the program does not end with 0.
counted() { # PROFILE INPUT RUNS WORDS..
    local profile=$1 input=$2 runs=$3 ended=0 count
    shift 3
    if [ "$unit" = instructions ]; then
        valgrind --tool=callgrind --callgrind-out-file="$profile" "$program" "$@" < "$input" 2> "$work/collected" > /dev/null || ended=$?
        count=$(sed -n 's/.*Collected : //p' "$work/collected")
        if [ -z "$count" ] || [ "$ended" != 0 ]; then
            cat "$work/collected" >&2
            echo "$program $* ended with $ended under valgrind" >&2
            exit 1
        fi
        echo "$count"
    else
        python3 - "$input" "$runs" "$program" "$@" <<'PY'
import resource, subprocess, sys
source, runs, words = sys.argv[1], int(sys.argv[2]), sys.argv[3:]
for _ in range(runs):
    subprocess.run(words, stdin=open(source), stdout=subprocess.DEVNULL, check=True)
used = resource.getrusage(resource.RUSAGE_CHILDREN)
print((used.ru_utime + used.ru_stime) / runs)
PY
    fi
}

# Scripts of a quarter, a half and the whole of the most lines that one may have: 64 stations are connected at 16 access points over and
# over, each by a connect and the six deliveries of a whole handshake. Beside each stands how many handshakes it has.
handshakes() { # FOLDER
    python3 - "$1" <<'PY'
import sys
LINES = 65536
header = ["domain 1", "seed " + "%064x" % 7, "ssid bench", "passphrase of the bench", "akm psk"]
header += ["ap 0200000000%02x r0kh-%d" % (1 + k, k) for k in range(16)]
header += ["sta 0200000001%02x" % (1 + k) for k in range(64)]
for name, lines in (("quarter", LINES // 4), ("half", LINES // 2), ("whole", LINES)):
    out, frame, k = list(header), 0, 0
    while len(out) + 7 <= lines:
        s, a = k % 64 + 1, (k + k // 64) % 16 + 1
        out.append("connect s%d a%d" % (s, a))
        for receiver in ("a%d" % a, "s%d" % s, "s%d" % s, "a%d" % a, "s%d" % s, "a%d" % a):
            frame += 1
            out.append("deliver %d to %s" % (frame, receiver))
        k += 1
    out += ["# one more line"] * (lines - len(out))
    open("%s/%s" % (sys.argv[1], name), "w").write("\n".join(out) + "\n")
    open("%s/%s.count" % (sys.argv[1], name), "w").write("%d\n" % k)
PY
}

# The cost of one: more of them less a few, over the difference of the two numbers.
of_one() { # TEXT FEW MORE NUMBER
    python3 -c "print('%s: %.6g $unit' % ('$1', ($3 - $2) / $4))"
}

# A script of that many handshakes between one station and one access point.
handshakes() { # SUITE HANDSHAKES
    python3 - "$1" "$2" <<'PY'
import sys
suite, handshakes = sys.argv[1], int(sys.argv[2])
lines = ["domain 1", "seed %064x" % 7, "ssid bench", "psk %064x" % 11, "akm " + suite]
lines += ["mdid a1b2"] if suite == "ft-psk" else []
lines += ["ap 020000000001 r0kh-1", "sta 020000000101"]
for k in range(handshakes):
    lines.append("connect s1 a1")
    for n, receiver in enumerate(("a1", "s1", "s1", "a1", "s1", "a1")):
        lines.append("deliver %d to %s" % (6 * k + n + 1, receiver))
print("\n".join(lines))
PY
}

# The dearest functions of a profile, where there is callgrind and the word is --profile.
profile() { # WORD PROFILE ROWS TITLE
    if [ "$1" = --profile ] && command -v callgrind_annotate > /dev/null; then
        echo "== $4"
        callgrind_annotate --threshold=99 "$2" \
            | awk -v most="$3" '/ file:function/ { on = 1 } on { print } on && /%/ && ++rows == most { exit }'
    fi
}

# The processor seconds and the greatest resident memory (KiB) of a program, its output to a file. The memory of the Python that starts it
# counts too, so less than that (some ten MiB) is never told.
measure() { # OUTPUT INPUT WORDS..
    python3 - "$@" <<'PY'
import resource, subprocess, sys
out, source, words = sys.argv[1], sys.argv[2], sys.argv[3:]
done = subprocess.run(words, stdin=open(source), stdout=open(out, "w"))
used = resource.getrusage(resource.RUSAGE_CHILDREN)
print("%.2f %d %d" % (used.ru_utime + used.ru_stime, used.ru_maxrss, done.returncode))
PY
}

# The least seconds by the clock of three runs of a program, and the least seconds of all processors; its output to a file. It ends where
# the program ends with a status other than 0.
clocked() { # OUTPUT INPUT WORDS..
    python3 - "$@" <<'PY'
import resource, subprocess, sys, time
out, source, words = sys.argv[1], sys.argv[2], sys.argv[3:]


def used():
    children = resource.getrusage(resource.RUSAGE_CHILDREN)
    return children.ru_utime + children.ru_stime


runs = []
for _ in range(3):
    before, began = used(), time.monotonic()
    subprocess.run(words, stdin=open(source), stdout=open(out, "w"), check=True)
    runs.append((time.monotonic() - began, used() - before))
print("%.6f %.6f" % (min(clock for clock, _ in runs), min(processors for _, processors in runs)))
PY
}

# Replays a quarter, a half and the whole of the largest script, and prints how long each took and how much memory. CHECK gets the
# report and the counts that stand beside the script; it ends with a status other than 0 where the report is not as it should be,
# and else prints what was replayed. Of the whole script `report` and `seconds` stand from then on.
replays() { # CHECK
    local part memory status counts what lines
    report=$work/report
    echo "processors: $(nproc)"
    for part in quarter half whole; do
        read -r seconds memory status < <(measure "$report" "$work/$part" "$program" replay)
        [ "$status" = 0 ] || { echo "the replay of $part ended with status $status" >&2; exit 1; }
        read -r -a counts < "$work/$part.count"
        what=$("$1" "$report" "${counts[@]}")
        lines=$(wc -l < "$work/$part")
        echo "seconds, $lines lines: $seconds (whole replay with $what, processor time)"
        echo "memory, $lines lines: $((memory / 1024)) MiB (greatest resident size)"
    done
    tail -3 "$report"
}
