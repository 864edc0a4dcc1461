#!/usr/bin/env bash
# The files that `kehtrop journal` writes of the example scripts, each read back line by line by another reader, written again and compared
# with the report of the same script. What is looked at stands in `tools/journal.py`. The status is 0 where nothing is wrong.
# It runs the program that `rt ci` or `rt run` proved and built (or the one named by KEHTROP, as `tools/build_unproved.sh` leaves one), and does nothing
# where there is none, or no Python. Run it from anywhere in the repository.
source "$(dirname "$0")/program.sh"
if ! command -v python3 > /dev/null; then
    echo "skipped: no Python, so no file of a journal was read back"
    exit 0
fi
exec python3 tools/journal.py "$program"
