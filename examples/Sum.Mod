MODULE Sum;
IMPORT Out;
VAR i, s: LONGINT;
BEGIN
  i := 1;
  WHILE i < 11 DO
    s := s + i;
    Out.Int(s, 4);
    i := i + 1
  END;
  Out.Ln
END Sum.
