#!/usr/bin/env bash
# How fast a kernel makes the private turns of a loop over a procedure's local variable: by steps, and by loans of at most 256
# turns, beside the same turns without a kernel and the same loop in CPython, in one run. Each figure is the best of five: the
# wall time, and the processor time, which other work on the machine disturbs less. Usage: bench/loans.sh [MEASURE], where
# MEASURE is the built program of crates/aos_bench: `rt run -- loans 1` in its crate's folder builds it.
set -euo pipefail
top=$(cd "$(dirname "${BASH_SOURCE[0]}")/.." && pwd)
measure=${1:-$top/crates/aos_bench/out/aos_bench}
# 500,000 rounds with 4 turns each, but for the store of the last one
turns=1999999

if ! [ -x "$measure" ]; then
    echo "$measure isn't built: call 'rt run -- loans 1' in crates/aos_bench" >&2
    exit 1
fi

# Five runs of the program: a line each, with the wall time and the processor time in seconds.
five_runs() {
    local TIMEFORMAT='%3R %3U %3S'
    for _ in 1 2 3 4 5; do
        { time "$measure" "$1" "$turns" >/dev/null; } 2>&1
    done | awk '{ print $1, $2 + $3 }'
}

# The least of each column.
least() {
    awk 'NR == 1 || $1 < wall { wall = $1 } NR == 1 || $2 < cpu { cpu = $2 } END { printf "%.3f %.3f", wall, cpu }'
}

# Five runs of the loop in CPython.
python_runs() {
    python3 - <<'P'
import time

def loop():
    i = 0
    n = 0
    while i != 1:
        n += 1
        i = 2
        if n == 500000:
            break

for _ in range(5):
    wall = time.perf_counter()
    cpu = time.process_time()
    loop()
    print("%.4f %.4f" % (time.perf_counter() - wall, time.process_time() - cpu))
P
}

echo "model   $(LC_ALL=C lscpu | sed -n 's/^Model name: *//p' | head -1)"
echo "cores   $(nproc)"
echo "load    $(cut -d ' ' -f 1 /proc/loadavg)"
read -r python python_cpu <<<"$(python_runs | least)"
echo "cpython $python s, $python_cpu s of the processor"
for what in steps loans turns; do
    read -r wall cpu <<<"$(five_runs "$what" | least)"
    awk -v what="$what" -v wall="$wall" -v cpu="$cpu" -v turns="$turns" -v python="$python_cpu" \
        'BEGIN { printf "%-7s %.3f s, %.3f s of the processor, %.1f million turns a second, %.2f of CPython\n", what, wall, cpu, turns / cpu / 1e6, cpu / python }'
done
