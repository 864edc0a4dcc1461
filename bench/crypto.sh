#!/usr/bin/env bash
# What the ciphers cost: instructions of one AES block, of a CMAC of 1,500 octets, of a key wrap of 48 octets with the expansion of
# its key, of a PBKDF2, and of payloads protected and opened, by their size. A small program does a work a number of times
# (crates/micro_bench); two runs of different numbers, one less the other, give the cost of one. Instructions are counted by callgrind
# of valgrind, and where that is missing seconds of one processor are measured. Then the seconds of a block, of a CMAC and of a payload
# protected stand beside those of the same works in C by tables (bench/aes_tables.c), which the machine's compiler compiles: both programs
# run by turns, eleven times each, and the least seconds of each count. Where there is no compiler that is left out. It runs the program
# that `rt ci` proved and built, and says so and ends with 1 where there is none. Run it from anywhere in the repository. With --profile it
# also prints which functions the instructions of each work are spent in, and with --seconds it times alone, and counts nothing.
source "$(dirname "$0")/common.sh"
built micro_bench

# The instructions, or else the seconds, of that many of a work.
of_many() { # WORK NUMBER [SIZE]
    counted "$work/$1.$2" /dev/null 1 "$@"
}

# The cost of one: more of them less a few, over the difference.
cost() { # WORK FEW MORE TEXT
    local few more
    few=$(of_many "$1" "$2")
    more=$(of_many "$1" "$3")
    of_one "$4" "$few" "$more" $(($3 - $2))
}

# Of a payload of that size: to protect it, and to open it, which is what both cost less the first.
payload() { # SIZE FEW MORE
    local few more both_few both_more
    few=$(of_many protect "$2" "$1")
    more=$(of_many protect "$3" "$1")
    both_few=$(of_many open "$2" "$1")
    both_more=$(of_many open "$3" "$1")
    python3 -c "
one = ($more - $few) / ($3 - $2)
print('payload of $1 octets, protected: %.6g $unit; opened: %.6g $unit' % (one, ($both_more - $both_few) / ($3 - $2) - one))"
}

# The seconds of a work beside those of C, one processor's, run by turns, and the ratio. Both have to print the same octet where SAME says so.
beside() { # WORK NUMBER TEXT SAME [SIZE]
    python3 - "$program" "$work/aes_tables" "$@" <<'PY'
import resource, subprocess, sys
ours, theirs, name, number, text, same = sys.argv[1:7]
size = sys.argv[7:]

def seconds(program, times):
    before = resource.getrusage(resource.RUSAGE_CHILDREN)
    out = subprocess.run([program, name, str(times), *size], capture_output=True, text=True, check=True).stdout
    after = resource.getrusage(resource.RUSAGE_CHILDREN)
    return after.ru_utime - before.ru_utime, out.split()[-1]

least = {}
for _ in range(11):
    octets = set()
    for program in (ours, theirs):
        took, octet = seconds(program, int(number))
        octets.add(octet)
        least[program] = min(took, least.get(program, took))
    if same == "same" and len(octets) > 1:
        sys.exit(f"{text}: the two programs came to different octets")
one, other = least[ours] / int(number) * 1e9, least[theirs] / int(number) * 1e9
print(f"{text}: {one:.4g} nanoseconds, in C {other:.4g}, ratio {one / other:.2f}")
PY
}

# The seconds of works beside those of C by tables, where there is a compiler.
in_seconds() {
    if ! command -v cc > /dev/null; then
        echo "no C compiler (cc): no seconds beside those of C"
        return
    fi
    cc -O2 -o "$work/aes_tables" bench/aes_tables.c
    beside encrypt 1000000 "one AES block, encrypted" same
    beside cmac 10000 "CMAC of 1,500 octets" same
    beside protect 8000 "payload of 1,500 octets, protected" other 1500
}

if [ "${1:-}" = --seconds ]; then
    in_seconds
    exit
fi

if [ "$unit" = instructions ]; then times=1 rounds=1; else times=1000 rounds=20; fi
cost encrypt $((1000 * times)) $((3000 * times)) "one AES block, encrypted"
cost decrypt $((1000 * times)) $((3000 * times)) "one AES block, decrypted"
cost expand $((1000 * times)) $((3000 * times)) "one AES block, with the expansion of its key for both directions"
cost expand-forward $((1000 * times)) $((3000 * times)) "one AES block, with the expansion of its key for encryption alone"
cost cmac $((10 * times)) $((30 * times)) "CMAC of 1,500 octets"
cost seal $((10 * times)) $((30 * times)) "a body of 1,500 octets sealed under BIP-CMAC-128"
cost wrap $((10 * times)) $((30 * times)) "key wrap of 48 octets, with the expansion of its key"
cost unwrap $((10 * times)) $((30 * times)) "key unwrap to 48 octets, with the expansion of its key"
cost link $((10 * times)) $((30 * times)) "a key asked for over a link, answered and taken"
cost link-ciphers $((10 * times)) $((30 * times)) "its CMACs, wraps and derivation alone"
cost pbkdf2 $((1 * rounds)) $((3 * rounds)) "PBKDF2, 4,096 iterations"
for size in 0 300 600 1200 1500 2304; do
    payload $size $((10 * times)) $((30 * times))
done

in_seconds

for run in encrypt.3000 cmac.30 wrap.30 pbkdf2.3; do
    profile "${1:-}" "$work/$run" 6 "$run"
done
