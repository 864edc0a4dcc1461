#!/usr/bin/env bash
# The library for C: that its header declares what it exports (`header.py`), and that the programs of `examples/c` end well with it: a
# station and two access points at socket pairs, what calls do not take, 100,000 random calls, and a station in Python. They run under
# valgrind where that is there, and then a leak is a failure too. Where there is no C compiler one line says so and nothing is tried. The
# last line has counts; the status is 0 where nothing failed. It makes the archive where that is not up to date (`archive.sh`), or takes the
# one that KEHTROP_C names. SEED has the random calls begin with another number. Run it from anywhere in the repository.
source "$(dirname "$0")/archive.sh"
command -v make > /dev/null || skip "no make, so the examples in C were not built"
work=$(mktemp -d)
trap 'rm -rf "$work"' EXIT
ended=0
if command -v python3 > /dev/null; then
    tools/header.py --check "$archive" || ended=1
else
    echo "skipped: no Python, so the header was not compared with the exports, and no station in Python was tried"
fi
if ! make -s -C examples/c TO="$work" LIBRARY="$archive" HEAP="$heap" > "$work/said" 2>&1; then
    cat "$work/said"
    exit 1
fi

under=()
if command -v valgrind > /dev/null; then
    under=(valgrind -q --error-exitcode=9 --leak-check=full --show-leak-kinds=all --errors-for-leak-kinds=all)
else
    echo "skipped: no valgrind, so leaks were not looked for"
fi
tried=0 failed=0
runs() { # WORDS..
    tried=$((tried + 1))
    if ! timeout 300 "$@" > "$work/wrote" 2>&1; then
        failed=$((failed + 1))
        echo "$*:"
        grep -v '^ok ' "$work/wrote" || true
    fi
}
runs "${under[@]}" "$work/nodes"
runs "${under[@]}" "$work/limits"
runs "${under[@]}" "$work/fuzz" 100000 "${SEED:-1}"
if command -v python3 > /dev/null; then runs python3 examples/c/station.py "$work/libkehtrop.so"; fi
echo "programs $tried failed $failed"
[ "$failed" = 0 ] && [ "$ended" = 0 ]
