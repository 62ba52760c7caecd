(* Two activities add 1 to one variable, 40 times each, with no lock. The module waits for both and writes the variable. *)
MODULE Race;
IMPORT Out;
TYPE
  Adder = OBJECT
    VAR i: LONGINT;
  BEGIN {ACTIVE}
    FOR i := 1 TO 40 DO x := x + 1 END;
    Leave
  END Adder;
VAR x, gone: LONGINT; a, b: Adder;
PROCEDURE Leave;
BEGIN {EXCLUSIVE} INC(gone) END Leave;
BEGIN
  NEW(a); NEW(b);
  BEGIN {EXCLUSIVE} AWAIT(gone = 2) END;
  Out.Int(x, 0); Out.Ln
END Race.
