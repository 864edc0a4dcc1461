#!/usr/bin/env bash
# The tools over the file of `kehtrop journal` and over captures: what they show of runs of the program, and what Wireshark (tshark) makes of
# the captures and key logs that they write. What is done, and what has to come of it, stands in `tools/seen.py`. The status is 0 where
# nothing failed. Where tshark, text2pcap, or dumpcap and tcpdump are not there, a line says what was left out.
# It runs the program that `rt ci` or `rt run` proved and built (or the one named by KEHTROP, as `tools/build_unproved.sh` leaves one), and does nothing
# where there is none, or no Python. Run it from anywhere in the repository.
source "$(dirname "$0")/program.sh"
if ! command -v python3 > /dev/null; then
    echo "skipped: no Python, so nothing was shown of frames and captures"
    exit 0
fi
exec python3 tools/seen.py "$program"
