#!/usr/bin/env bash
# How long a step of the kernel takes while a lock passes from activity to activity and 2 others, or 1,000, wait for it. Seven steps
# lead from one owner to the next: a dispatch, two statements begun, a call, an entry that waits, a release that passes the lock on, and
# a return. And how long a release takes by itself while 0, 10 and 1,000 wait to enter: with the entry of the one who leaves, where
# the lock goes to an entrant, and with its wait for a condition, where it goes to a waiter; and how long the number in the middle of
# a queue takes to leave it and stand behind all others. Figures are the best of five of the whole process, in wall time and in
# processor time, which other work on the machine disturbs less, less those of a process that makes no such steps; so are those of a
# step. Usage: bench/locks.sh [PROGRAM], where PROGRAM is the built crates/aos_bench: `rt run -- kernel 2 0` in that folder builds it.
set -euo pipefail
top=$(cd "$(dirname "${BASH_SOURCE[0]}")/.." && pwd)
set -- "${1:-$top/crates/aos_bench/out/aos_bench}"
if ! [ -x "$1" ]; then
    echo "$1 isn't built: call rt run -- kernel 2 0 in crates/aos_bench" >&2
    exit 1
fi
source "$(dirname "${BASH_SOURCE[0]}")/timing.sh"
steps=7000000

# So many wait while the steps are made: what they took, less what came before them.
while_waiting() {
    local waiting=$1 wall cpu wall_before cpu_before
    [ "$("$program" kernel "$waiting" "$steps")" = "$waiting" ]
    read -r wall_before cpu_before <<<"$(five_runs "$program" kernel "$waiting" 0 | least)"
    read -r wall cpu <<<"$(five_runs "$program" kernel "$waiting" "$steps" | least)"
    awk -v m="$waiting" -v n="$steps" -v w="$wall" -v c="$cpu" -v wb="$wall_before" -v cb="$cpu_before" 'BEGIN {
        printf "waiting %d: %.3f s wall, %.3f s processor for %.0f million steps, and %.3f s before them\n", m, w - wb, c - cb, n / 1e6, cb
        printf "        a step %.0f ns of wall time, %.0f of processor time; from one owner to the next %.0f and %.0f\n", (w - wb) / n * 1e9, (c - cb) / n * 1e9, (w - wb) / n * 7e9, (c - cb) / n * 7e9
    }'
}

# So many times what the words name is done: what one of them took, less what came before them.
each_time() {
    local times=$1 wall cpu wall_before cpu_before
    shift
    read -r wall_before cpu_before <<<"$(five_runs "$program" "$@" 0 | least)"
    read -r wall cpu <<<"$(five_runs "$program" "$@" "$times" | least)"
    awk -v what="$*" -v n="$times" -v w="$wall" -v c="$cpu" -v wb="$wall_before" -v cb="$cpu_before" 'BEGIN {
        printf "%s: %.1f ns of wall time, %.1f of processor time, by %.0f million times\n", what, (w - wb) / n * 1e9, (c - cb) / n * 1e9, n / 1e6
    }'
}

machine
while_waiting 2
while_waiting 1000
for waiting in 0 10 1000; do
    each_time 100000000 lock locks "$waiting"
    each_time 100000000 lock conditions "$waiting"
done
each_time 100000000 queue 5
each_time 100000000 queue 500
