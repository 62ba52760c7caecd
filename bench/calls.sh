#!/usr/bin/env bash
# How fast the program calls procedures: Fibonacci's 24th number by two calls for each sum, and a quicksort of 10,000 elements in
# an open array that is handed over; each beside the same in CPython, whose output is compared. And how much memory 510 frames of
# 122 scalars take that stand at a time, beside as many of CPython. Times are the best of five of the whole process, in wall time
# and in processor time, which other work on the machine disturbs less. Usage: bench/calls.sh [PROGRAM], where PROGRAM is the built
# program.
set -euo pipefail
source "$(dirname "${BASH_SOURCE[0]}")/timing.sh"

cat >"$folder/Fib.Mod" <<'M'
MODULE Fib;
IMPORT Out;
PROCEDURE Fib(n: LONGINT): LONGINT;
BEGIN
  IF n < 2 THEN RETURN n END;
  RETURN Fib(n - 1) + Fib(n - 2)
END Fib;
BEGIN
  Out.Int(Fib(24), 0)
END Fib.
M
cat >"$folder/Fib.py" <<'M'
def fib(n):
    if n < 2:
        return n
    return fib(n - 1) + fib(n - 2)

print(fib(24), end="")
M
cat >"$folder/Sort.Mod" <<'M'
MODULE Sort;
IMPORT Out;
CONST N = 10000;
VAR a: ARRAY N OF LONGINT; i, x: LONGINT;
PROCEDURE Sort(VAR a: ARRAY OF LONGINT; left, right: LONGINT);
VAR i, j, pivot, swap: LONGINT;
BEGIN
  i := left; j := right; pivot := a[(left + right) DIV 2];
  REPEAT
    WHILE a[i] < pivot DO INC(i) END;
    WHILE pivot < a[j] DO DEC(j) END;
    IF i <= j THEN
      swap := a[i]; a[i] := a[j]; a[j] := swap;
      INC(i); DEC(j)
    END
  UNTIL i > j;
  IF left < j THEN Sort(a, left, j) END;
  IF i < right THEN Sort(a, i, right) END
END Sort;
BEGIN
  x := 1;
  FOR i := 0 TO N - 1 DO x := (x * 16807) MOD 65537; a[i] := x END;
  Sort(a, 0, N - 1);
  FOR i := 1 TO N - 1 DO ASSERT(a[i - 1] <= a[i]) END;
  Out.Int(a[N DIV 2], 0)
END Sort.
M
cat >"$folder/Sort.py" <<'M'
def sort(a, left, right):
    i = left
    j = right
    pivot = a[(left + right) // 2]
    while True:
        while a[i] < pivot:
            i += 1
        while pivot < a[j]:
            j -= 1
        if i <= j:
            swap = a[i]
            a[i] = a[j]
            a[j] = swap
            i += 1
            j -= 1
        if i > j:
            break
    if left < j:
        sort(a, left, j)
    if i < right:
        sort(a, i, right)

def run():
    n = 10000
    a = [0] * n
    x = 1
    for i in range(n):
        x = (x * 16807) % 65537
        a[i] = x
    sort(a, 0, n - 1)
    for i in range(1, n):
        assert a[i - 1] <= a[i]
    print(a[n // 2], end="")

run()
M
# the recursion as deep as its first word says
deep() {
    cat >"$folder/Deep$1.Mod" <<M
MODULE Deep$1;
IMPORT Out;
PROCEDURE P(n: LONGINT): LONGINT;
VAR a: ARRAY 121 OF LONGINT;
BEGIN
  a[n MOD 121] := n;
  IF n > 1 THEN RETURN P(n - 1) + a[n MOD 121] - n + 1 END;
  RETURN 1
END P;
BEGIN
  Out.Int(P($1), 0)
END Deep$1.
M
    cat >"$folder/Deep$1.py" <<M
def p(n):
    a = [0] * 121
    a[n % 121] = n
    if n > 1:
        return p(n - 1) + a[n % 121] - n + 1
    return 1

print(p($1), end="")
M
}
deep 1
deep 510

machine

# A module with the number of its statements and of its calls: it ends in that budget and not in one statement less.
measured() {
    local name=$1 statements=$2 calls=$3 wall cpu other other_cpu status=0
    script $((statements + 1))
    script "$statements"
    local whole=("$program" replay --script "$folder/$((statements + 1)).script" "$folder/$name.Mod")
    "${whole[@]}" >"$folder/program.out"
    "$program" replay --script "$folder/$statements.script" "$folder/$name.Mod" >/dev/null 2>&1 || status=$?
    [ "$status" = 5 ]
    python3 "$folder/$name.py" >"$folder/python.out"
    cmp "$folder/program.out" "$folder/python.out"
    read -r wall cpu <<<"$(five_runs "${whole[@]}" | least)"
    read -r other other_cpu <<<"$(five_runs python3 "$folder/$name.py" | least)"
    echo "$name    $wall s wall, $cpu s processor; CPython $other s wall, $other_cpu s processor"
    awk -v n="$statements" -v k="$calls" -v w="$wall" -v c="$cpu" -v ow="$other" -v oc="$other_cpu" 'BEGIN {
        printf "        %.2f million calls and %.2f million statements a second of processor time\n", k / c / 1e6, n / c / 1e6
        printf "ratio   %.2f times the wall time, %.2f times the processor time\n", w / ow, c / oc
    }'
}

measured Fib 300099 150049
measured Sort 664882 8905

one=$(most_memory "$program" run "$folder/Deep1.Mod")
all=$(most_memory "$program" run "$folder/Deep510.Mod")
python_one=$(most_memory python3 "$folder/Deep1.py")
python_all=$(most_memory python3 "$folder/Deep510.py")
echo "frames  510 of 122 scalars: $((all - one)) KiB ($all to $one); CPython $((python_all - python_one)) KiB ($python_all to $python_one)"
