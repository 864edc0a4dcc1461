#!/usr/bin/env bash
# What one handshake costs: instructions of a whole one, at both ends, with its place in the journal, the judging of the premises and the
# lines of the report. A handshake is seven lines of a script: a station is connected to an access point, and the association request, its
# response and the four messages are delivered, each once. Two scripts, of 10 handshakes and of 60 between one station and one access point,
# are replayed; the one less the other, over 50, is the cost of one. The suites are those of IEEE Std 802.11-2020, 9.4.2.24.3, with SHA-1
# (2), with SHA-256 (6), and of fast transition (4), with which the access point also puts the station's key with its key holder, which has
# it from the first time on. And what one renewal of a pairwise key inside its session costs, which the suites 2 and 6 have: `renew` and the
# deliveries of the four messages, by scripts of a handshake and 10, or 60, renewals after it. And what a handshake costs with management
# frame protection (`mfp`), with the suites 6 and 4, and how many times that of one without it is: its key data has an integrity group key
# besides. Instructions are counted by callgrind of valgrind, and where that is missing seconds of one processor are measured. It runs the
# program that `rt ci` proved and built, and says so and ends with 1 where there is none. Run it from anywhere in the repository. With
# --profile it also prints which functions the instructions of the longer script are spent in.
source "$(dirname "$0")/common.sh"
built kehtrop

# A script of one handshake, and of that many renewals of its pairwise key after it.
renewals() { # SUITE RENEWALS
    handshakes "$1" 1 | sed 's/^domain 1$/domain 2/'
    python3 - "$2" <<'PY'
import sys
for k in range(int(sys.argv[1])):
    print("renew a1 s1")
    for n, receiver in enumerate(("s1", "a1", "s1", "a1")):
        print("deliver %d to %s" % (6 + 4 * k + n + 1, receiver))
PY
}

# The instructions, or else the seconds, of a replay of a script. It ends with 1 where another count of final messages was accepted.
of_script() { # NAME FINISHES
    local name=$1
    "$program" replay < "$work/$name.script" > "$work/$name.report"
    if [ "$(grep -c '^finish ' "$work/$name.report")" != "$2" ]; then
        echo "a handshake or a renewal of $name did not come to its end" >&2
        exit 1
    fi
    counted "$work/$name" "$work/$name.script" 200 replay
}

# Of that many handshakes, and of a handshake with that many renewals after it.
of_many() { # SUITE HANDSHAKES
    handshakes "$1" "$2" > "$work/$1.$2.script"
    of_script "$1.$2" $((2 * $2))
}

of_renewals() { # SUITE RENEWALS
    renewals "$1" "$2" > "$work/renewed.$1.$2.script"
    of_script "renewed.$1.$2" $((2 * ($2 + 1)))
}

# The same, of networks with `mfp`.
of_protected() { # SUITE HANDSHAKES
    handshakes "$1" "$2" | sed -e 's/^domain 1$/domain 2/' -e '0,/^ap /s/^ap /mfp\n&/' > "$work/mfp.$1.$2.script"
    of_script "mfp.$1.$2" $((2 * $2))
}

declare -A plain
for suite in psk psk-sha256 ft-psk; do
    few=$(of_many "$suite" 10)
    more=$(of_many "$suite" 60)
    of_one "one handshake of the suite $suite" "$few" "$more" 50
    plain[$suite]="$few $more"
done

for suite in psk-sha256 ft-psk; do
    few=$(of_protected "$suite" 10)
    more=$(of_protected "$suite" 60)
    of_one "one handshake of the suite $suite with mfp" "$few" "$more" 50
    # shellcheck disable=SC2086
    python3 -c 'import sys; a, b, c, d = map(float, sys.argv[2:]); print("%.3f times one without mfp, of the suite %s" % ((b - a) / (d - c), sys.argv[1]))' \
        "$suite" "$few" "$more" ${plain[$suite]}
done

for suite in psk psk-sha256; do
    few=$(of_renewals "$suite" 10)
    more=$(of_renewals "$suite" 60)
    of_one "one renewal of the suite $suite" "$few" "$more" 50
done

for suite in psk psk-sha256 ft-psk; do
    profile "${1:-}" "$work/$suite.60" 30 "$suite, 60 handshakes"
done
