#!/usr/bin/env bash
# How fast the program runs nested FOR loops over an array of 1,000,000 elements: the first fills it, the second sums it up;
# beside the same loops in CPython, and in Free Pascal (fpc) with range and overflow checks, where that is installed. What all
# write is compared. Each figure is the best of five of the whole process, in wall time and in processor time, which other work
# on the machine disturbs less. Usage: bench/nested.sh [PROGRAM], where PROGRAM is the built program.
set -euo pipefail
source "$(dirname "${BASH_SOURCE[0]}")/timing.sh"
# each of 2,000,000 inner rounds begins a comparison, a statement and an addition; each of 2,000 outer rounds two of these and
# the inner FOR with its first assignment and its last comparison; each outer FOR three; and s := 0 and Out.Int are two
statements=6010008

cat >"$folder/Nested.Mod" <<'M'
MODULE Nested;
IMPORT Out;
VAR a: ARRAY 1000, 1000 OF LONGINT; i, j, s: LONGINT;
BEGIN
  FOR i := 0 TO 999 DO
    FOR j := 0 TO 999 DO a[i, j] := i * j END
  END;
  s := 0;
  FOR i := 0 TO 999 DO
    FOR j := 0 TO 999 DO s := (s + a[i, j]) MOD 65536 END
  END;
  Out.Int(s, 0)
END Nested.
M
cat >"$folder/nested.pas" <<'M'
program nested;
var a: array[0..999, 0..999] of longint; i, j, s: longint;
begin
  for i := 0 to 999 do
    for j := 0 to 999 do a[i, j] := i * j;
  s := 0;
  for i := 0 to 999 do
    for j := 0 to 999 do s := (s + a[i, j]) mod 65536;
  write(s)
end.
M
cat >"$folder/nested.py" <<'M'
def run():
    a = [[0] * 1000 for _ in range(1000)]
    for i in range(1000):
        for j in range(1000):
            a[i][j] = i * j
    s = 0
    for i in range(1000):
        for j in range(1000):
            s = (s + a[i][j]) % 65536
    print(s, end="")

run()
M
begins_as_many "$statements" "$folder/Nested.Mod" "$folder/nested.py"

machine
read -r wall cpu <<<"$(five_runs "$program" replay --script "$folder/$((statements + 1)).script" "$folder/Nested.Mod" | least)"
echo "program $wall s wall, $cpu s processor"
awk -v n="$statements" -v w="$wall" -v c="$cpu" 'BEGIN {
    printf "        %.1f million statements a second of wall time, %.1f of processor time\n", n / w / 1e6, n / c / 1e6
}'

# The times of another program, and the program's to these.
beside() {
    local name=$1 other other_cpu
    shift
    read -r other other_cpu <<<"$(five_runs "$@" | least)"
    echo "$name $other s wall, $other_cpu s processor"
    awk -v w="$wall" -v c="$cpu" -v ow="$other" -v oc="$other_cpu" 'BEGIN {
        if (ow > 0 && oc > 0) printf "ratio   %.2f times the wall time, %.2f times the processor time\n", w / ow, c / oc
    }'
}

beside "python " python3 "$folder/nested.py"
if command -v fpc >/dev/null; then
    (cd "$folder" && fpc -O2 -Cr -Co nested.pas >/dev/null 2>&1)
    "$folder/nested" >"$folder/pascal.out"
    cmp "$folder/program.out" "$folder/pascal.out"
    beside "pascal " "$folder/nested"
fi
