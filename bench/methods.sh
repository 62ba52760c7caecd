#!/usr/bin/env bash
# How fast the program calls methods by the types of their objects: three objects of three types in a ring, of which each extends the
# one before and overrides its function; each round goes to the next, calls a proper method on it and the function, and the third
# type's calls the one that it overrides. Beside the same in CPython, whose output is compared. Each time is the best of five of the
# whole process, in wall time and in processor time, which other work on the machine disturbs less. Usage: bench/methods.sh [PROGRAM],
# where PROGRAM is the built program.
set -euo pipefail
source "$(dirname "${BASH_SOURCE[0]}")/timing.sh"
rounds=${ROUNDS:-120000}

cat >"$folder/Ring.Mod" <<M
MODULE Ring;
IMPORT Out;
TYPE
  Shape = OBJECT
    VAR next: Shape; a: LONGINT;
    PROCEDURE Area(k: LONGINT): LONGINT;
    BEGIN RETURN a + k END Area;
    PROCEDURE Grow;
    BEGIN a := (a + 1) MOD 100 END Grow;
  END Shape;
  Rectangle = OBJECT (Shape)
    VAR b: LONGINT;
    PROCEDURE Area(k: LONGINT): LONGINT;
    BEGIN RETURN a * b + k END Area;
  END Rectangle;
  Frame = OBJECT (Rectangle)
    PROCEDURE Area(k: LONGINT): LONGINT;
    BEGIN RETURN Area^(k) + 1 END Area;
  END Frame;
VAR s: Shape; r: Rectangle; f: Frame; i, t: LONGINT;
BEGIN
  NEW(s); NEW(r); NEW(f); s.next := r; r.next := f; f.next := s;
  s.a := 2; r.a := 3; r.b := 4; f.a := 5; f.b := 6;
  FOR i := 1 TO $rounds DO s := s.next; s.Grow; t := (t + s.Area(i MOD 10)) MOD 65536 END;
  Out.Int(t, 0)
END Ring.
M
cat >"$folder/ring.py" <<M
class Shape:
    __slots__ = ("next", "a")

    def area(self, k):
        return self.a + k

    def grow(self):
        self.a = (self.a + 1) % 100

class Rectangle(Shape):
    __slots__ = ("b",)

    def area(self, k):
        return self.a * self.b + k

class Frame(Rectangle):
    __slots__ = ()

    def area(self, k):
        return super().area(k) + 1

def run():
    s = Shape()
    r = Rectangle()
    f = Frame()
    s.next = r
    r.next = f
    f.next = s
    s.a = 2
    r.a = 3
    r.b = 4
    f.a = 5
    f.b = 6
    t = 0
    for i in range(1, $rounds + 1):
        s = s.next
        s.grow()
        t = (t + s.area(i % 10)) % 65536
    print(t, end="", flush=True)

run()
M
# In each round seven statements, the comparison and the addition of the FOR among them, and in every third one more; besides three
# NEWs, eight assignments, the FOR with its first assignment and its last comparison, and Out.Int. Two calls and a third of one.
statements=$((7 * rounds + rounds / 3 + 15))
calls=$((2 * rounds + rounds / 3))
begins_as_many "$statements" "$folder/Ring.Mod" "$folder/ring.py"

machine
read -r wall cpu <<<"$(five_runs "$program" replay --script "$folder/$((statements + 1)).script" "$folder/Ring.Mod" | least)"
read -r other other_cpu <<<"$(five_runs python3 "$folder/ring.py" | least)"
echo "methods $wall s wall, $cpu s processor; CPython $other s wall, $other_cpu s processor"
awk -v n="$calls" -v s="$statements" -v w="$wall" -v c="$cpu" -v ow="$other" -v oc="$other_cpu" 'BEGIN {
    printf "        %.2f million calls and %.2f million statements a second of processor time; CPython %.2f million calls\n", n / c / 1e6, s / c / 1e6, n / oc / 1e6
    printf "ratio   %.2f times the wall time, %.2f times the processor time\n", w / ow, c / oc
}'
