(* A quicksort in an open array that is handed over; and a function that comes to its end. *)
MODULE Sort;
IMPORT Out;
VAR a: ARRAY 8 OF LONGINT; i: LONGINT;

PROCEDURE Swap(VAR x, y: LONGINT);
VAR h: LONGINT;
BEGIN
  h := x; x := y; y := h
END Swap;

PROCEDURE Sort(VAR a: ARRAY OF LONGINT; left, right: LONGINT);
VAR i, j, pivot: LONGINT;
BEGIN
  i := left; j := right; pivot := a[(left + right) DIV 2];
  REPEAT
    WHILE a[i] < pivot DO INC(i) END;
    WHILE pivot < a[j] DO DEC(j) END;
    IF i <= j THEN Swap(a[i], a[j]); INC(i); DEC(j) END
  UNTIL i > j;
  IF left < j THEN Sort(a, left, j) END;
  IF i < right THEN Sort(a, i, right) END
END Sort;

PROCEDURE Place(a: ARRAY OF LONGINT; x: LONGINT): LONGINT;
VAR i: LONGINT;
BEGIN
  FOR i := 0 TO LEN(a) - 1 DO
    IF a[i] = x THEN RETURN i END
  END
END Place;

BEGIN
  a[0] := 3; a[1] := 1; a[2] := 4; a[3] := 1; a[4] := 5; a[5] := 9; a[6] := 2; a[7] := 6;
  Sort(a, 0, LEN(a) - 1);
  FOR i := 0 TO LEN(a) - 1 DO Out.Int(a[i], 2) END;
  Out.Ln;
  Out.Int(Place(a, 4), 0); Out.Ln;
  Out.Int(Place(a, 7), 0)
END Sort.
