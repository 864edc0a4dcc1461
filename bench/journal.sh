#!/usr/bin/env bash
# How long the file of a journal takes, and how much memory, beside the replay of the same script: that of `bench/replay.sh`, at a
# quarter, a half and the whole. Each file has to have as many entries as the report has lines and more, and the whole has to take less
# than twice the time of its replay; else the status is not 0. It runs the program that `rt ci` or `rt run` proved and built, and ends
# where there is none; run it from anywhere in the repository.
source "$(dirname "$0")/common.sh"
built kehtrop
handshakes "$work"

echo "processors: $(nproc)"
for part in quarter half whole; do
    read -r replayed plain status < <(measure "$work/report" "$work/$part" "$program" replay)
    [ "$status" = 0 ] || { echo "the replay of $part ended with status $status" >&2; exit 1; }
    read -r seconds memory status < <(measure "$work/file" "$work/$part" "$program" journal)
    [ "$status" = 0 ] || { echo "the journal of $part ended with status $status" >&2; exit 1; }
    lines=$(wc -l < "$work/$part")
    entries=$(($(wc -l < "$work/file") - lines - 2))
    if [ "$(sed -n 2p "$work/file")" != "script $lines" ] || [ "$entries" -lt "$(wc -l < "$work/report")" ]; then
        echo "the file of $part is not whole" >&2
        exit 1
    fi
    echo "seconds, $lines lines: $seconds (the file, $entries entries, $(($(wc -c < "$work/file") / 1048576)) MiB) and $replayed (the replay), processor time"
    echo "memory, $lines lines: $((memory / 1024)) MiB and $((plain / 1024)) MiB (greatest resident size)"
done
python3 -c "import sys; ratio = $seconds / $replayed; print('the file by the replay: %.2f (below 2)' % ratio); sys.exit(ratio >= 2)"
