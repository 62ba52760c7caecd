#!/usr/bin/env bash
# How many rounds and turns a second are made by 1, 2, 4 and 16 workers, each in a thread of its own, with 1 activity and with 16, and
# which share of the steps each worker made. Each activity makes a loop over its own variables. Nobody waits for anybody, so all runs
# make equally many turns, which is looked at. Rounds, turns and shares are counted in the log that a run prints. Beside each run stands
# the replay of that log: the same steps and ticks in the same order, by one thread and without a cell. A figure is the best of five of
# the whole process, in wall time and in processor time, less that of a process whose loops are empty. A replay's figure is less that of
# a process that reads the same script. Usage: bench/workers.sh [PROGRAM], where PROGRAM is the built program.
set -euo pipefail
source "$(dirname "${BASH_SOURCE[0]}")/timing.sh"
times=1600000
turns=

# A module with so many activities, each of which makes a loop of so many times.
loops() {
    cat >"$folder/Loops$1x$2.Mod" <<M
MODULE Loops;
CONST N = $1; K = $2;
TYPE Looper = OBJECT BEGIN {ACTIVE} Loop END Looper;
VAR looper: Looper; j: LONGINT;
PROCEDURE Loop;
VAR i, x: LONGINT;
BEGIN FOR i := 1 TO K DO x := i END
END Loop;
BEGIN
  FOR j := 2 TO N DO NEW(looper) END;
  Loop
END Loops.
M
}

by_workers() { "$program" run --workers "$1" --budget 1000000000 "$folder/Loops$2x$3.Mod"; }
by_script() { "$program" replay --script "$folder/log" "$folder/Loops$1x$2.Mod"; }

# What a log has, as `rounds turns shares`. A round is at most 256 steps, with the tick behind them where there is one. An activity is
# dispatched behind its start and behind each tick that took it from a worker, and every other step is a turn.
counted() {
    awk -v activities="$1" '
        $1 == "workers" { workers = $2 }
        $1 == "s" { steps[$2] += $3; all += $3; rounds += int(($3 + 255) / 256) }
        $1 == "t" { ticks++ }
        END {
            printf "%d %d ", rounds, all - ticks - activities
            for (w = 0; w < workers; w++) printf "%s%.1f", w ? "," : "", 100 * steps[w] / all
            print ""
        }' "$folder/log"
}

# What so many rounds and turns took, less what came before them.
told() {
    awk -v name="$1" -v rounds="$2" -v turns="$3" -v w="$4" -v c="$5" -v wb="$6" -v cb="$7" 'BEGIN {
        if (w <= wb || c <= cb) { printf "  %-16s too few turns to tell\n", name; exit }
        printf "  %-16s %.3f s wall, %.3f s processor, and %.3f s wall before that; ", name, w - wb, c - cb, wb
        printf "%.1f thousand rounds and %.2f million turns a second of wall time\n", rounds / (w - wb) / 1e3, turns / (w - wb) / 1e6
    }'
}

# The program by so many workers with so many activities, and the replay of its log.
measured() {
    local workers=$1 activities=$2 each=$3 wall cpu wall_before cpu_before rounds made shares
    "$program" run --workers "$workers" --budget 1000000000 --log "$folder/Loops${activities}x$each.Mod" 2>"$folder/log"
    read -r rounds made shares <<<"$(counted "$activities")"
    if [ "${turns:=$made}" != "$made" ]; then
        echo "$workers workers made $made turns, and others $turns" >&2
        exit 1
    fi
    echo "workers $workers, activities $activities: $rounds rounds, $made turns; shares in percent: ${shares//,/ }"
    read -r wall_before cpu_before <<<"$(five_runs by_workers "$workers" "$activities" 0 | least)"
    read -r wall cpu <<<"$(five_runs by_workers "$workers" "$activities" "$each" | least)"
    told "on threads" "$rounds" "$made" "$wall" "$cpu" "$wall_before" "$cpu_before"
    read -r wall_before cpu_before <<<"$(five_runs by_script "$activities" 0 | least)"
    read -r wall cpu <<<"$(five_runs by_script "$activities" "$each" | least)"
    told "without a cell" "$rounds" "$made" "$wall" "$cpu" "$wall_before" "$cpu_before"
}

machine
for activities in 1 16; do
    each=$((times / activities))
    loops "$activities" "$each"
    loops "$activities" 0
    turns=
    for workers in 1 2 4 16; do
        measured "$workers" "$activities" "$each"
    done
done
