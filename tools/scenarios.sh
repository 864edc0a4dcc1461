#!/usr/bin/env bash
# The example scripts and their reports: each `examples/NAME.txt` is replayed, or where its name begins with `live_` run over sockets of
# this machine, and has to give exactly `examples/NAME.report`, with number 0 and nothing on standard error. Where Python is there,
# `tools/chart.py` has to make a chart of each one that is replayed, as text and as SVG that an XML parser reads, and the chart in `docs/`
# has to be the one that it makes. A report that differs is shown as a diff. The last line has counts; the status is 0 where nothing is
# wrong.
# It runs the program that `rt ci` or `rt run` proved and built (or the one named by KEHTROP, as `tools/build_unproved.sh` leaves one), and does nothing
# where there is none. Run it from anywhere in the repository.
source "$(dirname "$0")/program.sh"
work=$(mktemp -d)
trap 'rm -rf "$work"' EXIT

python=
if command -v python3 > /dev/null; then python=python3; fi

scenarios=0 wrong=0
says() { # TEXT
    wrong=$((wrong + 1))
    echo "$1"
}

# The first of four ports that nobody has, as far as this machine tells.
are_taken() { # PORT
    local some
    some=$(printf '%04X\|%04X\|%04X\|%04X' "$1" $(($1 + 1)) $(($1 + 2)) $(($1 + 3)))
    grep -qi "^ *[0-9]*: \(0100007F\|0\{8\}\|0\{32\}\):\($some\) " /proc/net/udp /proc/net/udp6 2> /dev/null
}
port=$((20000 + RANDOM % 10000))
while are_taken "$port"; do port=$((port + 4)); done

runs() { # NAME WORDS..
    local name=$1 ended=0
    shift
    "$program" "$@" < "examples/$name.txt" > "$work/written" 2> "$work/said" || ended=$?
    if [ "$ended" != 0 ] || [ -s "$work/said" ]; then
        says "examples/$name.txt: ended with $ended: $(cat "$work/said")"
    fi
    diff -u "examples/$name.report" "$work/written" || says "examples/$name.txt: the report differs"
}

charts() { # NAME
    tools/chart.py --text "examples/$1.txt" "examples/$1.report" > "$work/text" || says "examples/$1.txt: no chart as text"
    tools/chart.py "examples/$1.txt" "examples/$1.report" > "$work/chart" || says "examples/$1.txt: no chart as SVG"
    "$python" -c 'import sys, xml.dom.minidom; xml.dom.minidom.parse(sys.argv[1])' "$work/chart" || says "examples/$1.txt: the SVG is no XML"
    if [ -e "docs/$1.svg" ]; then
        cmp -s "docs/$1.svg" "$work/chart" || says "docs/$1.svg: not the chart of examples/$1.txt"
    fi
}

for script in examples/*.txt; do
    name=$(basename "$script" .txt)
    scenarios=$((scenarios + 1))
    if [ ! -e "examples/$name.report" ]; then
        says "examples/$name.txt: has no report"
        continue
    fi
    case "$name" in
        live_*) runs "$name" live "$port" ;;
        *)
            runs "$name" replay
            if [ -n "$python" ]; then charts "$name"; fi
            ;;
    esac
done
for report in examples/*.report; do
    [ -e "${report%.report}.txt" ] || says "$report: has no script"
done
for chart in docs/*.svg; do
    [ -e "examples/$(basename "$chart" .svg).txt" ] || says "$chart: the chart of no example"
done

# The script that docs/user/SCRIPTS.md explains is one of the examples.
awk '/^```/ { blocks++; next } blocks == 1' docs/user/SCRIPTS.md | cmp -s - examples/lost_message_4.txt \
    || says "docs/user/SCRIPTS.md: its script is not examples/lost_message_4.txt"
if [ -z "$python" ]; then echo "skipped: no Python, so no charts"; fi
echo "scenarios $scenarios wrong $wrong"
[ "$wrong" = 0 ]
