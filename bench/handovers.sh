#!/usr/bin/env bash
# How many numbers a second go from a producer to a consumer through a buffer of one place, whose operations await that it is empty, or
# full; with one producer and one consumer, and with 500 pairs, each of which has a buffer of its own. Beside them the same in Java, whose
# buffer is a monitor, and in Ada, where it is a protected object, where javac and gnatmake are installed; these have a thread, or a task,
# for each producer and consumer. At first all run by one worker, or on one processor, so that nothing goes on but what the buffers let go
# on. Then `gen 500`, by 1 and by 4 workers, beside Java and Ada on 1 and on 4 processors. What all write is compared. A figure is the best
# of five of the whole process, in wall time and in processor time, which other work on the machine disturbs less, less that of a process in
# which no number is put. Usage: bench/handovers.sh [PROGRAM], where PROGRAM is the built program.
set -euo pipefail
source "$(dirname "${BASH_SOURCE[0]}")/timing.sh"
items=200000

# A module with so many pairs, in which each producer puts so many numbers.
pairs() {
    cat >"$folder/Pairs$1x$2.Mod" <<M
MODULE Pairs;
IMPORT Out;
CONST N = $1; K = $2;
TYPE
  Buffer = OBJECT
    VAR number: LONGINT; full: BOOLEAN;
    PROCEDURE Put(n: LONGINT);
    BEGIN {EXCLUSIVE} AWAIT(~full); number := n; full := TRUE END Put;
    PROCEDURE Get(VAR n: LONGINT);
    BEGIN {EXCLUSIVE} AWAIT(full); n := number; full := FALSE END Get;
  END Buffer;
  Producer = OBJECT
    VAR buffer: Buffer; i: LONGINT;
    PROCEDURE &Init(b: Buffer);
    BEGIN buffer := b END Init;
  BEGIN {ACTIVE} FOR i := 1 TO K DO buffer.Put(i) END
  END Producer;
  Consumer = OBJECT
    VAR buffer: Buffer; i, n: LONGINT; s: HUGEINT;
    PROCEDURE &Init(b: Buffer);
    BEGIN buffer := b END Init;
  BEGIN {ACTIVE}
    FOR i := 1 TO K DO buffer.Get(n); s := s + n END;
    Add(s)
  END Consumer;
VAR b: Buffer; p: Producer; c: Consumer; j, done: LONGINT; sum: HUGEINT;
PROCEDURE Add(s: HUGEINT);
BEGIN {EXCLUSIVE} sum := sum + s; INC(done) END Add;
BEGIN
  FOR j := 1 TO N DO NEW(b); NEW(p, b); NEW(c, b) END;
  BEGIN {EXCLUSIVE} AWAIT(done = N) END;
  Out.Int(sum, 0); Out.Ln
END Pairs.
M
}

# What a command takes with so many pairs and numbers: the words behind its name are that of a function that carries it out.
by_program() { "$program" replay --script "$folder/1000000000.script" "$folder/Pairs$1x$2.Mod"; }
by_java() { taskset -c 0 java -cp "$folder" Pairs "$1" "$2"; }
by_ada() { taskset -c 0 "$folder/pairs" "$1" "$2"; }

# The same on so many processors; and the module that `gen` makes, whose last word is the sum, by so many workers.
by_gen() {
    if [ "$2" = 0 ]; then
        "$program" run --workers "$3" "$folder/Pairs$1x0.Mod"
    else
        "$program" gen --workers "$3" "$1" | sed 's/.* //'
    fi
}
on_java() { taskset -c "0-$(($3 - 1))" java -cp "$folder" Pairs "$1" "$2"; }
on_ada() { taskset -c "0-$(($3 - 1))" "$folder/pairs" "$1" "$2"; }

# The numbers that pass in a second, in processor time and in wall time, behind which stands what the whole process took. The words are a
# name, a function, whose output is compared with that of another one, and how many pairs, numbers and workers or processors there are.
measured() {
    local name=$1 way=$2 as=$3 count=$4 each=$5 by=${6:-} wall cpu wall_before cpu_before
    "$way" "$count" "$each" $by >"$folder/$way.out"
    cmp "$folder/$as.out" "$folder/$way.out"
    read -r wall_before cpu_before <<<"$(five_runs "$way" "$count" 0 $by | least)"
    read -r wall cpu <<<"$(five_runs "$way" "$count" "$each" $by | least)"
    awk -v name="$name $by" -v m="$count" -v n="$((count * each))" -v w="$wall" -v c="$cpu" -v wb="$wall_before" -v cb="$cpu_before" 'BEGIN {
        printf "%-9s %3d pairs: %.3f s wall, %.3f s processor in all\n", name, m, w, c
        if (w <= wb || c <= cb) { printf "          too few numbers to tell\n"; exit }
        printf "          %.3f s wall, %.3f s processor for %d numbers, %.3f and %.3f s before them\n", w - wb, c - cb, n, wb, cb
        printf "          %.0f thousand numbers a second of wall time, %.0f of processor time\n", n / (w - wb) / 1e3, n / (c - cb) / 1e3
    }'
}

script 1000000000
machine
if command -v javac >/dev/null; then
    javac -d "$folder" "$top/bench/Pairs.java"
fi
if command -v gnatmake >/dev/null; then
    (cd "$folder" && gnatmake -q -O2 "$top/bench/pairs.adb" -o pairs)
fi
for count in 1 500; do
    each=$((items / count))
    pairs "$count" "$each"
    pairs "$count" 0
    measured program by_program by_program "$count" "$each"
    if command -v javac >/dev/null; then
        measured java by_java by_program "$count" "$each"
    fi
    if command -v gnatmake >/dev/null; then
        measured ada by_ada by_program "$count" "$each"
    fi
done
for by in 1 4; do
    if [ "$by" -gt "$(nproc)" ]; then
        echo "gen with $by workers isn't measured: there are fewer processors"
        continue
    fi
    measured gen by_gen by_gen 500 100 "$by"
    if command -v javac >/dev/null; then
        measured java on_java by_gen 500 100 "$by"
    fi
    if command -v gnatmake >/dev/null; then
        measured ada on_ada by_gen 500 100 "$by"
    fi
done
