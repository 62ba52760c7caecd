#!/usr/bin/env bash
# How fast the program runs loops: examples/Forever.Mod, which stops at 1,000,000 statements, and examples/Mixed.Mod, with
# sums, products, quotients and comparisons, against the same loops in CPython; and how fast an activity makes private turns of
# the first loop. Each figure is the best of five: the wall time, and the processor time, which other work on the machine
# disturbs less. Usage: bench/loop.sh [PROGRAM], where PROGRAM is the built program.
set -euo pipefail
top=$(cd "$(dirname "${BASH_SOURCE[0]}")/.." && pwd)
program=${1:-$top/crates/aos_main/out/aos_main}
# makes the private turns: `rt run -- turns 1` in its crate's folder builds it
measure=$top/crates/aos_bench/out/aos_bench
# 500,000 rounds with 4 turns each, but for the store of the last one
turns=1999999
# 200,000 rounds with 14 turns and 4 statements each, and what stands round them
mixed_turns=2800016

if ! [ -x "$program" ]; then
    echo "$program isn't built: call ./aos once" >&2
    exit 1
fi

# Five runs of the program that makes so many private turns of the first loop, over a local variable.
private_runs() {
    local TIMEFORMAT='%3R %3U %3S'
    for _ in 1 2 3 4 5; do
        { time "$measure" turns "$turns" >/dev/null; } 2>&1
    done | awk '{ print $1, $2 + $3 }'
}

# Five runs of the program on an example: a line each, with the wall time and the processor time in seconds. Fails where
# the status is another one.
five_runs() {
    local example=$1 wanted=$2 status
    local TIMEFORMAT='%3R %3U %3S'
    for _ in 1 2 3 4 5; do
        status=0
        { time "$program" run "$top/examples/$example.Mod" >/dev/null 2>/dev/null; } 2>&1 || status=$?
        if [ "$status" != "$wanted" ]; then
            echo "$example: status $status, and not $wanted" >&2
            return 1
        fi
    done | awk '{ print $1, $2 + $3 }'
}

# The least of each column.
least() {
    awk 'NR == 1 || $1 < wall { wall = $1 } NR == 1 || $2 < cpu { cpu = $2 } END { printf "%.3f %.3f", wall, cpu }'
}

# Five runs of a loop in CPython.
python_runs() {
    python3 - "$1" <<'P'
import sys
import time

def loop():
    i = 0
    n = 0
    while i != 1:
        n += 1
        i = 2
        if n == 500000:
            break

def mixed():
    i = 0
    s = 0
    p = 1
    while i < 200000 and s != -1:
        s = (s + i * 3) % 65536
        p = (p * 7 + s // 3) % 32768
        i = i + 1

run = {"loop": loop, "mixed": mixed}[sys.argv[1]]
for _ in range(5):
    wall = time.perf_counter()
    cpu = time.process_time()
    run()
    print("%.4f %.4f" % (time.perf_counter() - wall, time.process_time() - cpu))
P
}

echo "model   $(LC_ALL=C lscpu | sed -n 's/^Model name: *//p' | head -1)"
echo "cores   $(nproc)"
echo "load    $(cut -d ' ' -f 1 /proc/loadavg)"

# What was taken, beside CPython's: a loop's name, its turns, and both times of each.
compare() {
    local name=$1 turns=$2 what=$3 wall cpu python python_cpu
    read -r wall cpu <<<"$4"
    read -r python python_cpu <<<"$5"
    echo "$name    $wall s wall, $cpu s processor  ($what, the whole process)"
    echo "python  $python s wall, $python_cpu s processor  ($(python3 --version), the loop alone)"
    awk -v a="$wall" -v ac="$cpu" -v p="$python" -v pc="$python_cpu" -v t="$turns" 'BEGIN {
        printf "turns   %.1f million a second of wall time, %.1f of processor time\n", t / a / 1e6, t / ac / 1e6
        printf "ratio   %.2f times the wall time of CPython, %.2f times its processor time\n", a / p, ac / pc
    }'
}

# A loop's two figures beside those of CPython: its name, its example, the status, and its turns.
beside_python() {
    compare "$1" "$4" "examples/$2.Mod" "$(five_runs "$2" "$3" | least)" "$(python_runs "$1" | least)"
}

beside_python loop Forever 5 "$turns"
beside_python mixed Mixed 0 "$mixed_turns"
if [ -x "$measure" ]; then
    compare private "$turns" "private turns, over a local variable" "$(private_runs | least)" "$(python_runs loop | least)"
fi
