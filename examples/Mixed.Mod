MODULE Mixed;
IMPORT Out;
CONST rounds = 200000;
VAR i, s, p: LONGINT;
BEGIN
  p := 1;
  WHILE (i < rounds) & (s # -1) DO
    s := (s + i * 3) MOD 65536;
    p := (p * 7 + s DIV 3) MOD 32768;
    i := i + 1
  END;
  Out.Int(s, 0); Out.Char(" "); Out.Int(p, 0); Out.Ln
END Mixed.
