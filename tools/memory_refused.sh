#!/usr/bin/env bash
# What the program does where memory is refused. Each script of `examples/` that is no live run is replayed once for each request for
# memory that its replay makes, and that request is refused; and once more for each, refused together with all that come after it. Each run has to
# end with status 5, the words for it and a front of the report that stands beside the script, or with 0, no word and the whole report, as
# with ample memory. Octets are compared. It prints what is wrong, and a line for each script; its status is 0 where nothing is wrong.
#
# Words choose scripts by their names, as `handshake`; without words all are taken.
#
# It runs the program that `rt ci` or `rt run` proved and built (or the one named by KEHTROP, as `tools/build_unproved.sh` leaves one), with the
# library of `tools/refusing.sh`, so it wants a C compiler; where either is missing it does nothing. Run it from anywhere in the
# repository. It takes some ten minutes. `tools/memory_calls.sh` does the same to single calls.
source "$(dirname "$0")/program.sh"
source tools/refusing.sh
if ! command -v cc > /dev/null; then
    echo "skipped: no C compiler"
    exit 0
fi
work=$(mktemp -d)
trap 'rm -rf "$work"' EXIT

make_refusing "$work"
find_places "$program"

# A replay that was refused requests. Reports have no NUL.
judge() { # RUN STATUS CALL FROM TO PRINTED
    local written said says=
    IFS= read -r -d '' written < "$work/runs/$1.written" || true
    IFS= read -r -d '' said < "$work/runs/$1.said" || true
    runs=$((runs + 1))
    [ "${report:$6:${#written}}" = "$written" ] || says="the report is no front of that with ample memory"
    case "$2" in
        5)
            refusals=$((refusals + 1))
            [ "$said" = $'out of memory\n' ] || says="${says:+$says, and }it says: $said"
            ;;
        0)
            [ "$written" = "${report:$6}" ] || says="${says:-the report is cut}"
            [ -z "$said" ] || says="${says:+$says, and }it says: $said"
            ;;
        *) says="${says:+$says, and }it ends with $2" ;;
    esac
    if [ -n "$says" ]; then
        wrong=$((wrong + 1))
        echo "$script, requests $4 to $5 refused: $says"
    fi
}

chosen="$*" wrong=0 all_runs=0 LC_ALL=C
echo "| script | octets | growths | refused | runs | out of memory | wrong |"
echo "|---|---|---|---|---|---|---|"
for script in examples/*.txt; do
    name=$(basename "$script" .txt)
    case "$name" in live_*) continue ;; esac
    if [ -n "$chosen" ] && ! grep -qw "$name" <<< "$chosen"; then continue; fi
    ample=0 requests=0
    rm -f "$work/count"
    LD_PRELOAD="$work/refuse.so" REQUESTS="$work/count" "$program" replay < "$script" > "$work/ample" 2> "$work/said" || ample=$?
    if [ "$ample" != 0 ] || [ -s "$work/said" ] || ! cmp -s "${script%txt}report" "$work/ample"; then
        echo "$script: ended with $ample with ample memory, or not with its report: $(cat "$work/said")"
        wrong=$((wrong + 1))
        continue
    fi
    IFS= read -r -d '' report < "$work/ample" || true
    if [ -e "$work/count" ]; then requests=$(cat "$work/count"); fi
    rm -rf "$work/runs"
    mkdir "$work/runs"
    : > "$work/runs/all"
    for ((number = 1; number <= requests; number++)); do printf '0 %d %d\n0 %d 1000000000\n' "$number" "$number" "$number"; done > "$work/jobs"
    echo '0 0 0' >> "$work/jobs"
    # Access points of a round are threads.
    if grep -q '^round$' "$script"; then export JOBS="$work/jobs"; fi
    LD_PRELOAD="$work/refuse.so" RUNS="$work/runs" SCRIPT="$script" "$program" replay < "$script" > "$work/itself" || ample=$?
    if [ "$ample" != 0 ] || { [ -z "${JOBS:-}" ] && ! cmp -s "$work/ample" "$work/itself"; }; then
        echo "$script: ended with $ample, or with another report, as it split"
        wrong=$((wrong + 1))
    fi
    unset JOBS
    runs=0 refusals=0 before=$wrong
    while read -r -a one; do judge "${one[@]}"; done < "$work/runs/all"
    all_runs=$((all_runs + runs))
    echo "| \`examples/$name\` | ${#report} | $requests | $((runs / 2)) | $runs | $refusals | $((wrong - before)) |"
    if [ "$requests" = 0 ] || [ "$refusals" = 0 ]; then
        echo "$script: no request was refused, so nothing was shown"
        wrong=$((wrong + 1))
    fi
done
echo "runs $all_runs wrong $wrong"
[ "$wrong" = 0 ]
