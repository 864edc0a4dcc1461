#!/usr/bin/env bash
# Tries the wrong bodies of wrong_bodies/CRATE/*.edit, the second tier of edits that a proof has to refuse. This is no part of the gate:
# it is run whenever a crate's code or contracts change, and docs/evidence/WRONG_BODIES.md keeps what came of it.
#
#   tools/wrong_bodies.sh [CRATE..]         those of these crates, or all
#   tools/wrong_bodies.sh --since COMMIT    those of each crate whose src, specs, proofs, wrong bodies or line of crates.txt are not as
#                                           at that commit, and of each crate above one of them but for changed wrong bodies alone
#
# The tree as it stands goes into a scratch copy, where wrong_bodies/CRATE takes the place of crates/CRATE/must-fail, and rt must-fail
# tries them there, one crate after the other. The libraries below it are those that were built in this checkout. It begins with what
# rt check kept of the same crate, here or in another checkout of this machine; where nothing is kept it proves the crate first, which is
# told. RT_JOBS=N has rt do N checks at a time.
#
# An edit may begin with a line '# let through: REASON'. It says that no contract refuses this body, and why: then it has to be proved.
#
# It prints of each body what came of it, and for a crate and for all how many were refused, by form alone (where a proof file names what
# the edit took away), by a limit alone (the prover gave no verdict), let through for a reason, let through, bad (it cannot be applied,
# compiled or read), and not tried. Its last line is 'N passed, M failed', and its status 1 where one failed: was let through, is bad or
# not tried, or has a reason and is refused.
set -u -o pipefail
cd "$(dirname "$0")/.." || exit

stop() {
    echo "tools/wrong_bodies.sh: $*" >&2
    exit 2
}

# The crates on one line of crates.txt, without its settings, as 'NAME DEP DEP ..'.
lists() {
    sed -e 's/#.*//' -e '/:/!d' -e 's/^ *\([a-z0-9_]*\)[^:]*:/\1/'
}

# The crates of which something changed since a commit: first 'code' or 'bodies', then the name.
changed_since() {
    { git diff --name-only "$1" -- crates wrong_bodies && git ls-files --others --exclude-standard -- crates wrong_bodies; } |
        sed -n -e 's,^crates/\([^/]*\)/\(src\|specs\|proofs\)/.*,code \1,p' -e 's,^wrong_bodies/\([^/]*\)/.*,bodies \1,p'
    comm -3 <(git show "$1:crates.txt" | lists | sort) <(lists < crates.txt | sort) | awk '{ print "code", $1 }'
}

# Of what changed, on standard input, all crates: of changed code those above it by crates.txt too.
with_those_above() {
    { sed 's/^/changed /' && lists < crates.txt | sed 's/^/listed /'; } |
        awk '$1 == "changed" { if ($2 == "code") is_new[$3] = 1; else shown[$3] = 1 }
             $1 == "listed" { names[$2] = 1; below[$2] = $0 " " }
             END {
                 do {
                     is_more = 0
                     for (name in names) if (!(name in is_new)) for (one in is_new) if (index(below[name], " " one " ")) { found[name] = 1; is_more = 1 }
                     for (name in found) is_new[name] = 1
                 } while (is_more)
                 for (name in is_new) shown[name] = 1
                 for (name in shown) print name
             }'
}

[ -d wrong_bodies ] || stop "there is no folder wrong_bodies"
every=$(cd wrong_bodies && printf '%s\n' *)
if [ "${1-}" = --since ]; then
    [ $# = 2 ] || stop "--since takes one commit"
    commit=$(git rev-parse --verify --quiet "$2^{commit}") || stop "$2 is no commit"
    changed=$(changed_since "$commit" | with_those_above) || stop "what changed since $2 cannot be read"
    echo "changed since $2, or above what changed: $(tr '\n' ' ' <<< "$changed")"
    crates=$(for crate in $every; do if grep -qx "$crate" <<< "$changed"; then echo "$crate"; fi; done)
elif [ $# = 0 ]; then
    crates=$every
else
    for crate; do
        grep -qx "$crate" <<< "$every" || stop "wrong_bodies has no $crate"
    done
    crates=$*
fi
# The lowest first, as crates.txt has them, which has to have each.
for crate in $crates; do
    lists < crates.txt | awk '{ print $1 }' | grep -qx "$crate" || stop "wrong_bodies has $crate, and crates.txt does not"
done
crates=$(lists < crates.txt | awk '{ print $1 }' | grep -xF -e "$(printf '%s\n' $crates)")

copy=$(mktemp -d) || stop "there is no room for a scratch copy"
trying=
trap 'rm -rf "$copy"' EXIT
trap 'if [ -n "$trying" ]; then kill "$trying" 2> /dev/null && wait "$trying"; fi; exit 130' INT TERM
git ls-files -z --cached --others --exclude-standard -- crates crates.txt HANDLES wrong_bodies |
    while IFS= read -r -d '' file; do if [ -e "$file" ]; then printf '%s\0' "$file"; fi; done |
    xargs -0 cp --parents -t "$copy" || stop "the tree could not be copied"
rm -rf "$copy"/crates/*/must-fail
# (rt replaces a library's files, and writes into none)
for lib in crates/*/out/rlib; do
    if [ -d "$lib" ]; then
        mkdir -p "$copy/$(dirname "$lib")"
        cp -al "$lib" "$copy/$lib" 2> /dev/null || cp -a "$lib" "$copy/$(dirname "$lib")/"
    fi
done

# Where a refusal stands, by what rt said of it: the function and the goal, of an answer on file or of a place of the code.
place() {
    local file goal line text
    if [[ $2 =~ proofs/([^:]*)\.antt:[0-9:]*\ error:\ \`([^\`]*)\` ]]; then
        file=${BASH_REMATCH[1]} goal=${BASH_REMATCH[2]}
        case $file in */Answers | */Invariants | */Proof) file=${file%/*} ;; esac
        echo "$file \`$goal\`"
    elif [[ $2 =~ src/([^:]*)\.rt:([0-9]+):[0-9]+:.*\(\`([^\`]*)\` ]]; then
        file=${BASH_REMATCH[1]} line=${BASH_REMATCH[2]} goal=${BASH_REMATCH[3]} text=$copy/crates/$1/src/${BASH_REMATCH[1]}.rt
        # (a place in a function's head, or in its body)
        if sed -n "${line}p" "$text" | grep -q '^ *\(pub\|fn\|#\[\|//\)'; then
            line=$(tail -n "+$line" "$text" | grep -m 1 '\bfn ')
        else
            line=$(head -n "$line" "$text" | grep '\bfn ' | tail -n 1)
        fi
        echo "$file/$(sed 's/.*\bfn \([a-z_0-9]*\).*/\1/' <<< "$line") \`$goal\`"
    else
        echo "$2"
    fi
}

# What came of a crate's bodies, from what rt said of them: a line each, that begins with refused, form, limit, known (let through for its
# reason), through, bad, untried, or mended (it has a reason and is refused).
told() {
    local crate=$1 edit name said reason where
    for edit in "$copy/crates/$crate/must-fail"/*.edit; do
        name=$(basename "$edit" .edit)
        said=$(grep -F "must-fail $crate/$name.edit: " "$2" | sed -e 's/^.*\.edit: //' | tail -n 1)
        reason=$(sed -n 's/^# let through: //p' "$edit")
        where=$(place "$crate" "$said")
        case $said in
            "refused, as it must be"*)
                if [[ $said == *"(only by a limit"* ]]; then echo "limit $crate/$name: ${said##*sooner): }"
                elif [ -n "$reason" ]; then echo "mended $crate/$name: is refused, and has a reason to be let through: $where"
                elif [[ $said == *"only because a proof file names"* ]]; then echo "form $crate/$name: $where"
                else echo "refused $crate/$name: $where"; fi ;;
            "NOT REFUSED"*)
                if [ -n "$reason" ]; then echo "known $crate/$name: $reason"; else echo "through $crate/$name: the crate is still proved with it"; fi ;;
            "BAD EDIT"*) echo "bad $crate/$name: $said" ;;
            *) echo "untried $crate/$name: ${said:-rt said nothing of it}" ;;
        esac
    done
}

# The counts in a list of what came of bodies.
counts() {
    awk '{ n[$1]++ }
         END { printf "%d refused, %d by form alone, %d by a limit alone, %d let through for a reason, %d let through, %d bad, %d not tried, %d no longer let through\n",
                   n["refused"], n["form"], n["limit"], n["known"], n["through"], n["bad"], n["untried"], n["mended"] }' "$@"
}

: > "$copy/all"
for crate in $crates; do
    [ -d "crates/$crate" ] || stop "wrong_bodies has $crate, and crates does not"
    [ -d "crates/$crate/out/incremental" ] || echo "$crate: rt check kept nothing of it in this checkout, so it is proved first, if no other checkout of this machine has it"
    mv "$copy/wrong_bodies/$crate" "$copy/crates/$crate/must-fail"
    (cd "$copy" && exec rt must-fail "$crate") > "$copy/said" 2>&1 &
    trying=$!
    wait "$trying"
    trying=
    told "$crate" "$copy/said" > "$copy/one"
    if grep -q '^untried' "$copy/one"; then grep -v 'must-fail' "$copy/said" | tail -n 5; fi
    cat "$copy/one" >> "$copy/all"
    cat "$copy/one"
    echo "$crate: $(counts "$copy/one")"
    rm -rf "$copy/crates/$crate/must-fail" "$copy/crates/$crate/out/incremental"
done
echo "in all: $(counts "$copy/all")"
passed=$(grep -c '^\(refused\|form\|limit\|known\) ' "$copy/all")
failed=$(grep -c '^\(through\|bad\|untried\|mended\) ' "$copy/all")
echo "$passed passed, $failed failed"
[ "$failed" = 0 ]
