#!/usr/bin/env bash
# Storms: 2,000 events that a number makes, with the journal, the judging of the premises and the summary. What the storms of the numbers 0 to
# 99 take on average, in seconds of one processor, and how much memory the greatest of them; and what the storm of number 0 takes in
# instructions, by callgrind of valgrind, where that is there.
# Prints one figure a line, and what it means. It runs the program that `rt ci` proved and built, and says so and ends with 1 where there
# is none. Run it from anywhere in the repository. With --profile it also prints which functions the instructions are spent in.
source "$(dirname "$0")/common.sh"
built kehtrop

echo "processors: $(nproc)"
python3 - "$program" <<'PY'
import resource, subprocess, sys
STORMS = 100
holds = b"premises fresh yes no-collision yes unforged yes\n"
for number in range(STORMS):
    done = subprocess.run([sys.argv[1], "storm", str(number)], stdin=subprocess.DEVNULL, capture_output=True, check=True)
    if not done.stdout.endswith(holds):
        sys.exit("a premise of the storm %d does not hold" % number)
used = resource.getrusage(resource.RUSAGE_CHILDREN)
print("seconds: %.4f (one storm, processor time, average of %d)" % ((used.ru_utime + used.ru_stime) / STORMS, STORMS))
own = resource.getrusage(resource.RUSAGE_SELF)
print("memory: %d MiB at most (greatest resident size; that of the Python that starts it, %d MiB, counts too)" % (
    used.ru_maxrss // 1024, own.ru_maxrss // 1024))
PY

if [ "$unit" = instructions ]; then
    count=$(counted "$work/storm" /dev/null 1 storm 0)
    echo "one storm: $count instructions"
    profile "${1:-}" "$work/storm" 30 "the storm of number 0"
fi
