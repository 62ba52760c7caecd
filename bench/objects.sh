#!/usr/bin/env bash
# How fast the program makes records, and how much memory they take: 1,000,000 records of a number and a pointer, each of which leads
# to the one before; beside as many objects with two slots in CPython. What both write is compared. The memory of one is the difference
# to a run that makes one alone. Each time is the best of five of the whole process, in wall time and in processor time, which other
# work on the machine disturbs less. Usage: bench/objects.sh [PROGRAM], where PROGRAM is the built program.
set -euo pipefail
source "$(dirname "${BASH_SOURCE[0]}")/timing.sh"
count=1000000

# so many records; in each round a comparison, NEW, three assignments and an addition, and besides the FOR with its first assignment
# and its last comparison, and Out.Int
made() {
    cat >"$folder/Made$1.Mod" <<M
MODULE Made$1;
IMPORT Out;
TYPE P = POINTER TO RECORD next: P; number: LONGINT END;
VAR last, p: P; i: LONGINT;
BEGIN
  FOR i := 1 TO $1 DO NEW(p); p.number := i; p.next := last; last := p END;
  Out.Int(last.number, 0)
END Made$1.
M
    cat >"$folder/made$1.py" <<M
class P:
    __slots__ = ("next", "number")

def run():
    last = None
    for i in range(1, $1 + 1):
        p = P()
        p.number = i
        p.next = last
        last = p
    print(last.number, end="", flush=True)

run()
M
    begins_as_many $((6 * $1 + 4)) "$folder/Made$1.Mod" "$folder/made$1.py"
}
made 1
made "$count"

machine
program_call() {
    echo "$program replay --script $folder/$((6 * $1 + 5)).script $folder/Made$1.Mod"
}
one=$(most_memory $(program_call 1))
all=$(most_memory $(program_call "$count"))
other_one=$(most_memory python3 "$folder/made1.py")
other_all=$(most_memory python3 "$folder/made$count.py")
read -r wall cpu <<<"$(five_runs $(program_call "$count") | least)"
read -r other other_cpu <<<"$(five_runs python3 "$folder/made$count.py" | least)"
echo "records $wall s wall, $cpu s processor; CPython $other s wall, $other_cpu s processor"
awk -v n="$count" -v w="$wall" -v c="$cpu" -v ow="$other" -v oc="$other_cpu" -v m="$((all - one))" -v om="$((other_all - other_one))" 'BEGIN {
    printf "        %.2f million records a second of processor time; CPython %.2f million\n", n / c / 1e6, n / oc / 1e6
    printf "ratio   %.2f times the wall time, %.2f times the processor time\n", w / ow, c / oc
    printf "memory  %.0f bytes for each record; CPython %.0f\n", m * 1024 / n, om * 1024 / n
}'
