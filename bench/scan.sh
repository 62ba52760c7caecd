#!/usr/bin/env bash
# Measures the scanner against one written by hand in C (scan.c): both scan a text of 2^20 bytes 20 times, five times
# over, in turn. Of each the best run's processor time counts, user and system, so that other work on the machine
# matters little. A megabyte is 10^6 bytes.
set -eu
top=$(cd "$(dirname "$0")/.." && pwd)
folder=$(mktemp -d)
trap 'rm -rf "$folder"' EXIT
size=$((1 << 20))
times=20

# The text: one module again and again, cut at 2^20 bytes before a module's first word, and then blanks.
cat >"$folder/module" <<'MODULE'
MODULE Buffers; (* bounded buffers (* of numbers and of texts *), shared by activities *)

IMPORT Streams, Strings := CommonStrings;

CONST
    Size* = 128; Mask = 0FFH; Far = 7FFFFFFFFFFFFFFFH; NewLine = 0AX; Limit = 1000000;
    Greeting = "the buffer is ready"; Other = 'it says "no"';

TYPE
    Buffer* = OBJECT
        VAR items: ARRAY Size OF INTEGER; head, tail, count: INTEGER; isOpen: BOOLEAN;

        (* Waits until there is room, and then puts the item behind the others. *)
        PROCEDURE Put*(item: INTEGER);
        BEGIN {EXCLUSIVE}
            AWAIT(count < Size);
            items[tail] := item; tail := (tail + 1) MOD Size; count := count + 1
        END Put;

        PROCEDURE Get*(VAR item: INTEGER);
        BEGIN {EXCLUSIVE}
            AWAIT((count > 0) OR ~isOpen);
            IF count >= 1 THEN
                item := items[head]; head := (head + 1) MOD Size; count := count - 1
            ELSIF isOpen & (head # tail) THEN
                item := -1
            ELSE
                item := 0
            END
        END Get;
    END Buffer;

    Node = POINTER TO RECORD value: INTEGER; next: Node; END;

VAR buffer: Buffer; first: Node; total_of_all: INTEGER;

PROCEDURE Sum(list: Node; low, high: INTEGER): INTEGER;
VAR sum, i: INTEGER; node: Node;
BEGIN
    sum := 0; node := list;
    WHILE (node # NIL) & (sum <= Limit) DO
        CASE node^.value OF
            0..9: sum := sum + node.value * 10
          | 10, 11: sum := sum DIV 2 (* half of it *)
        ELSE sum := sum + 1
        END;
        node := node.next
    END;
    FOR i := low TO high BY 2 DO Streams.Write(i); Streams.Char(NewLine) END;
    REPEAT i := i - 1 UNTIL (i = low) OR (i IN {0, 3, 5..7});
    RETURN sum
END Sum;

BEGIN
    NEW(buffer); Streams.Text(Greeting); total_of_all := Sum(first, 0, Size - 1)
END Buffers.

MODULE
length=$(stat -c %s "$folder/module")
for _ in $(seq $((size / length))); do cat "$folder/module"; done >"$folder/text"
printf '%*s' $((size - $(stat -c %s "$folder/text"))) '' >>"$folder/text"
[ "$(stat -c %s "$folder/text")" = "$size" ]

gcc -O2 -o "$folder/by_hand" "$top/bench/scan.c"
proved=$top/crates/aos_bench/out/aos_bench
if ! (cd "$top/crates/aos_bench" && rt run -- scan data/T.Mod 1 >"$folder/log" 2>&1); then
    cat "$folder/log" >&2
    exit 1
fi

# Runs a command once over the text, and writes its total and its milliseconds into files of that name.
run() {
    local name=$1
    shift
    TIMEFORMAT='%3U %3S'
    { time "$@" "$folder/text" "$times" >"$folder/$name.total"; } 2>"$folder/$name.time"
    awk '{ printf "%d\n", ($1 + $2) * 1000 + 0.5 }' "$folder/$name.time" >>"$folder/$name.all"
}

for _ in 1 2 3 4 5; do
    run proved "$proved" scan
    run by_hand "$folder/by_hand"
done
cmp "$folder/proved.total" "$folder/by_hand.total"

proved_best=$(sort -n "$folder/proved.all" | head -n 1)
by_hand_best=$(sort -n "$folder/by_hand.all" | head -n 1)
echo "processors: $(nproc), $(lscpu | sed -n 's/^Model name: *//p')"
echo "text: $size bytes, $times times; tokens in all: $(cat "$folder/proved.total")"
awk -v p="$proved_best" -v c="$by_hand_best" -v bytes=$((size * times)) 'BEGIN {
    printf "proved scanner: %d ms, %.1f MB/s\n", p, bytes / p / 1000
    printf "C by hand:      %d ms, %.1f MB/s\n", c, bytes / c / 1000
    printf "ratio of times: %.2f\n", p / c
}'
