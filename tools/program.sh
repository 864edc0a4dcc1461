# What the scripts of this folder share that run the program; it is read by them, and does nothing by itself. From then on they stand at the
# top of the repository, and `program` is what `rt ci` or `rt run` proved and built there, or what KEHTROP names, seen from where they were
# called. Where nothing was built they end here and say so, with 0; where KEHTROP names no program, with 1.
set -eu
program=${KEHTROP:-}
case "$program" in '' | /*) ;; *) program=$PWD/$program ;; esac
cd "$(dirname "${BASH_SOURCE[0]}")/.."
if [ -z "$program" ]; then
    program=crates/kehtrop/out/kehtrop
    if [ ! -x "$program" ]; then
        echo "skipped: no program was built"
        exit 0
    fi
elif [ ! -f "$program" ] || [ ! -x "$program" ]; then
    echo "KEHTROP names no program: $program" >&2
    exit 1
fi
