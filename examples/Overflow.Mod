MODULE Overflow;
IMPORT Out;
VAR i: LONGINT;
BEGIN
  i := 2147483647;
  Out.Int(i, 0); Out.Ln;
  i := i + 1
END Overflow.
