# What the scripts share that use the library for C; it is read by them, and does nothing by itself. From then on they stand at the top of
# the repository, `archive` is the library, and `heap` the part of the toolchain that it takes its memory by. Where there is no C compiler,
# or no library below the crate was proved and built, they end here and say so, with 0.
#
# KEHTROP_C names an archive, seen from where they were called. Where it names none, the archive of `crates/kehtrop_c/out` is taken, and
# made where it is not there or was made of another text. `rt ci` leaves no archive, and `rt lib` takes no library that `rt ci` built, but
# proves each anew. So it is made here as `rt lib` makes it, but over the libraries that stand in `crates/*/out`. For it the crate itself is
# proved once more: nothing that is not proved is compiled. BACKEND names the compiler, `llvm` or `rattle`.
set -eu
archive=${KEHTROP_C:-}
case "$archive" in '' | /*) ;; *) archive=$PWD/$archive ;; esac
cd "$(dirname "${BASH_SOURCE[0]}")/.."
skip() {
    echo "skipped: $1"
    exit 0
}
command -v cc > /dev/null || skip "no C compiler, so nothing was built with the library for C"
command -v rt > /dev/null || skip "no toolchain, so nothing was built with the library for C"
kit=$(dirname "$(rt doc | head -1)")
heap=$kit/c/liblibc_c.a

# Of what the archive is made: the compiler, the crate's text, and the libraries below it, whose `format` has the sum of their files.
made_of() {
    {
        echo "$backend"
        cat "$kit/KIT-ID"
        find src specs proofs -type f | sort | xargs cat
        cat ../*/out/rlib/*.rlib/format
    } | sha256sum
}

make_archive() {
    local backend=${BACKEND:-llvm} words=() name dir
    for dir in ../*/out/rlib; do words+=(-L "dependency=$dir"); done
    for name in std $(sed -n 's/^kehtrop_c staticlib: *//p' ../../crates.txt); do
        dir=$kit/rlibs
        [ ! -d "../$name" ] || dir=../$name/out/rlib
        [ -d "$dir/$name.rlib" ] || skip "no library stands in crates/$name/out (rt ci leaves it), so the one for C was not built"
        words+=(--extern "$name=$dir/$name.rlib")
    done
    mkdir -p out
    [ "$(cat out/made_of 2> /dev/null)" != "$(made_of)" ] || [ ! -f out/libkehtrop_c.a ] || return 0
    rm -f out/libkehtrop_c.a
    if ! "$kit/bin/rattle" build --crate-name kehtrop_c src/lib.rt --crate-type staticlib "${words[@]}" -L "dependency=$kit/rlibs" \
        --antt-project "$kit/rattle/logic/antt-project.json" --logic-built "$kit/logic_built" --incremental out/incremental --jobs "$(nproc)" \
        --toolchain "$kit/toolchain" --backend "$backend" -o out/libkehtrop_c.a > out/made_said 2>&1; then
        cat out/made_said
        echo "the library for C was not built"
        exit 1
    fi
    made_of > out/made_of
}

if [ -z "$archive" ]; then
    cd crates/kehtrop_c
    make_archive
    cd ../..
    archive=$PWD/crates/kehtrop_c/out/libkehtrop_c.a
elif [ ! -f "$archive" ]; then
    echo "KEHTROP_C names no archive: $archive" >&2
    exit 1
fi
