#!/usr/bin/env bash
# What the library for C costs, both ends in one process: instructions of an association with its four-way handshake by suite, and of a
# payload of 1,500 octets sent and taken, each as two runs of different numbers, one less the other. Beside each association stands the same
# handshake in a replay (`bench/handshake.sh`), without the functions that read the script, keep the journal, judge the premises and write
# the report (what they have the C library do is not left out): the library may not take more. And the octets of the archive, which are to
# be fewer than 400,000. The status is 1 where one of these is missed. It takes the archive as `tools/archive.sh` does, and the program that
# `rt ci` proved and built; it says so where there is none, or no valgrind, since only instructions can be compared so. Run it from anywhere
# in the repository.
source "$(dirname "$0")/../tools/archive.sh"
source bench/common.sh
[ "$unit" = instructions ] || skip "no valgrind, so no instructions were counted"
built kehtrop
replay=$program
program=$work/library
cc -std=c11 -O2 -Icrates/kehtrop_c bench/library.c "$archive" "$heap" -o "$program"
ended=0

# The instructions of a profile, of all its functions but those of these crates.
without() { # PROFILE CRATES
    callgrind_annotate --threshold=100 "$1" | python3 -c '
import re, sys
left = tuple(f"{crate}::" for crate in sys.argv[1].split())
rows = re.findall(r"^ *([\d,]+) +\([ \d.]+%\) +[^:\n]*:(.+?)(?: \[[^\]\n]*\])?$", sys.stdin.read(), re.M)
if not any(name.startswith(left) for _, name in rows):
    sys.exit("no function of these crates stands in the profile")
print(sum(int(count.replace(",", "")) for count, name in rows if not name.startswith(left)))
' "$2"
}
beside="frame_script script_words script_lines script_runs run_journal domain_world::journaling journal_report domain_cli"

suites=(psk psk-sha256 ft-psk) numbers=(2 6 4)
for k in 0 1 2; do
    few=$(counted "$work/few" /dev/null 5 "${numbers[k]}" 10 0)
    more=$(counted "$work/more" /dev/null 5 "${numbers[k]}" 60 0)
    of_one "association with suite ${numbers[k]}" "$few" "$more" 50
    program=$replay
    for n in 10 60; do
        handshakes "${suites[k]}" "$n" > "$work/script"
        counted "$work/replay.$n" "$work/script" 5 replay > /dev/null
    done
    program=$work/library
    less=$(without "$work/replay.10" "$beside")
    most=$(without "$work/replay.60" "$beside")
    of_one "    in a replay, without journal and report" "$less" "$most" 50
    [ $((more - few)) -le $((most - less)) ] || ended=1
done
few=$(counted "$work/few" /dev/null 5 2 1 10)
more=$(counted "$work/more" /dev/null 5 2 1 60)
of_one "payload of 1,500 octets, sent and taken" "$few" "$more" 50
size=$(stat -c %s "$archive")
echo "archive: $size octets"
[ "$size" -lt 400000 ] || ended=1
exit "$ended"
