#!/usr/bin/env bash
# A holder and an asker, two processes of the program (`kehtrop link`), over UDP sockets of this machine: questions and answers with foreign
# datagrams and repeats among them, and an asker that is not of this project (`tools/link_asker.py`). What is done, and what both have to
# write, stands in `tools/link.py`. The status is 0 where nothing is wrong. It takes some seconds, most of which are polls that wait.
# It runs the program that `rt ci` or `rt run` proved and built (or the one named by KEHTROP, as `tools/build_unproved.sh` leaves one), and does nothing
# where there is none, or no Python. Run it from anywhere in the repository.
source "$(dirname "$0")/program.sh"
if ! command -v python3 > /dev/null; then
    echo "skipped: no Python, so no link was tried"
    exit 0
fi
exec python3 tools/link.py "$program"
