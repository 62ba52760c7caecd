#!/usr/bin/env bash
# How fast the program finds the arm of a CASE: one of 1,000 arms, whose labels stand in no order, 100,000 times; beside the same
# choice by `match` in CPython, which goes through the arms one by one. What both write is compared. Each figure is the best of five of
# the whole process, in wall time and in processor time, which other work on the machine disturbs less.
# Usage: bench/cases.sh [PROGRAM], where PROGRAM is the built program.
set -euo pipefail
source "$(dirname "${BASH_SOURCE[0]}")/timing.sh"
# the FOR with its first assignment and its last comparison, a comparison, a CASE, an assignment and an addition in each of
# 100,000 rounds, and Out.Int
statements=400004

# the arms have their labels in the order 0, 577, 154, ..: 577 and 1,000 have no common divisor
labels=$(seq 0 999 | awk '{ print ($1 * 577) % 1000 }')
{
    echo 'MODULE Cases; IMPORT Out; VAR i, s: LONGINT; BEGIN FOR i := 0 TO 99999 DO CASE (i * 7919) MOD 1000 OF'
    bar=' '
    for label in $labels; do
        echo "$bar $label: s := (s + $((label * 3 % 1000))) MOD 65536"
        bar='|'
    done
    echo 'END END; Out.Int(s, 0) END Cases.'
} >"$folder/Cases.Mod"
{
    echo 'def run():'
    echo '    s = 0'
    echo '    for i in range(100000):'
    echo '        match (i * 7919) % 1000:'
    for label in $labels; do
        echo "            case $label: s = (s + $((label * 3 % 1000))) % 65536"
    done
    echo '    print(s, end="")'
    echo 'run()'
} >"$folder/cases.py"
begins_as_many "$statements" "$folder/Cases.Mod" "$folder/cases.py"

machine
for call in "$program replay --script $folder/$((statements + 1)).script $folder/Cases.Mod" "python3 $folder/cases.py"; do
    read -r wall cpu <<<"$(five_runs $call | least)"
    echo "$(basename "${call%% *}") $wall s wall, $cpu s processor"
    awk -v w="$wall" -v c="$cpu" 'BEGIN { printf "        %.2f million choices a second of wall time, %.2f of processor time\n", 0.1 / w, 0.1 / c }'
done
