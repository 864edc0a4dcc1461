#!/usr/bin/env bash
# How long a replay takes, at a quarter, a half and the whole of the largest script: 64 stations are connected at 16 access
# points over and over, each by a connect and the six deliveries of a whole handshake. Prints one figure a line, and what it
# means. It runs the program that `rt ci` or `rt run` proved and built, and ends where there is none; run it from anywhere in the
# repository.
source "$(dirname "$0")/common.sh"
built kehtrop

handshakes "$work"

# It ends where one of the handshakes did not come to its end at both ends, and says what was replayed.
finished() { # REPORT HANDSHAKES
    if [ "$(grep -c '^finish ' "$1")" != $((2 * $2)) ]; then
        echo "a handshake did not come to its end" >&2
        exit 1
    fi
    echo "$2 handshakes"
}

replays finished
read -r handshakes < "$work/whole.count"
python3 -c "print('handshakes a second: %d (of the whole script)' % ($handshakes / $seconds))"

# The premises are answered from what the journal keeps as entries are added; this is the share of the whole replay that goes into it.
if command -v perf > /dev/null && perf record -q -o "$work/perf" "$program" replay < "$work/whole" > /dev/null 2>&1; then
    perf report -i "$work/perf" --stdio --sort symbol 2> /dev/null \
        | awk -v all="$seconds" '/run_journal::(index|judging|chains|mixing|premises|naming|journal)/ { share += $1 }
            END { printf "premises alone: %.3f seconds (%.1f %% of the samples of the whole replay, by perf)\n", all * share / 100, share }'
else
    echo "premises alone: skipped, as perf is missing or may not sample here"
fi

# PBKDF2: the program on a header with a passphrase, less the program on one with the key itself; and Python's, beside it.
python3 - "$program" <<'PY'
import hashlib, resource, subprocess, sys, time
RUNS = 50
def seconds(key):
    text = ("domain 1\nseed %064x\nssid bench\n%s\nakm psk\n" % (7, key)).encode()
    before = resource.getrusage(resource.RUSAGE_CHILDREN)
    for _ in range(RUNS):
        subprocess.run([sys.argv[1], "replay"], input=text, stdout=subprocess.DEVNULL, check=True)
    after = resource.getrusage(resource.RUSAGE_CHILDREN)
    return after.ru_utime + after.ru_stime - before.ru_utime - before.ru_stime
ours = seconds("passphrase of the bench") - seconds("psk %064x" % 7)
begun = time.process_time()
for _ in range(RUNS):
    hashlib.pbkdf2_hmac("sha1", b"of the bench", b"bench", 4096, 32)
theirs = time.process_time() - begun
print("PBKDF2 a second: %d (keys of 4096 iterations by the program); %d (by hashlib of Python)" % (RUNS / ours, RUNS / theirs))
PY
