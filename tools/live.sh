#!/usr/bin/env bash
# The program over UDP sockets of this machine (`kehtrop live`): handshakes with each suite, new group keys, data both ways, a roam and
# a drawn seed, while another process sends foreign datagrams to the ports of the nodes. What is done, and what has to come of it,
# stands in `tools/live.py`. The status is 0 where nothing is wrong. It takes some ten seconds, most of which are polls that wait.
# It runs the program that `rt ci` or `rt run` proved and built (or the one named by KEHTROP, as `tools/build_unproved.sh` leaves one), and does nothing
# where there is none, or no Python. Run it from anywhere in the repository.
source "$(dirname "$0")/program.sh"
if ! command -v python3 > /dev/null; then
    echo "skipped: no Python, so nothing was sent over sockets"
    exit 0
fi
exec python3 tools/live.py "$program"
