#!/usr/bin/env bash
# A station that is not of this project, from association to message 4 and data, against the program's access point over UDP sockets of
# this machine (`kehtrop live`). What is done, and what has to come of it, stands in `tools/station.py`. The status is 0 where nothing
# failed. It takes some ten seconds, most of which are polls that wait, and sends to no other machine.
# It runs the program that `rt ci` or `rt run` proved and built (or the one named by KEHTROP, as `tools/build_unproved.sh` leaves one), and does nothing
# where there is none, or no Python. Run it from anywhere in the repository.
source "$(dirname "$0")/program.sh"
if ! command -v python3 > /dev/null; then
    echo "skipped: no Python, so no foreign station was played"
    exit 0
fi
exec python3 tools/station.py "$program"
