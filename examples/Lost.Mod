(* Two activities add 1 to one variable. Whether one of the two is lost is for the schedule to say. *)
MODULE Lost;
IMPORT Out;
TYPE A = OBJECT BEGIN {ACTIVE} x := x + 1 END A;
VAR x: LONGINT; a, b: A;
BEGIN
  NEW(a); NEW(b); Out.Int(x, 0); Out.Ln
END Lost.
