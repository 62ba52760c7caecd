(* Two activities add 1 to each of two counters. Additions to the second one exclude each other. *)
MODULE Counters;
IMPORT Out;
TYPE
  Open = OBJECT
    VAR n: LONGINT;
    PROCEDURE Add;
    BEGIN n := n + 1 END Add;
  END Open;
  Locked = OBJECT
    VAR n: LONGINT;
    PROCEDURE Add;
    BEGIN {EXCLUSIVE} n := n + 1 END Add;
  END Locked;
  A = OBJECT BEGIN {ACTIVE} open.Add; locked.Add END A;
VAR open: Open; locked: Locked; a, b: A;
BEGIN
  NEW(open); NEW(locked); NEW(a); NEW(b);
  Out.Int(open.n, 0); Out.Char(" "); Out.Int(locked.n, 0); Out.Ln
END Counters.
