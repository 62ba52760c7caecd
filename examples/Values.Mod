(* Constants, and values of all basic types. *)
MODULE Values;
IMPORT Out;
CONST last = 40; odd = {1, 3..5}; capital = "A";
VAR n: LONGINT; small: SHORTINT; letter: CHAR; found: BOOLEAN;
BEGIN
  WHILE n < last DO
    found := (n <= MAX(SET)) & (n IN odd);
    WHILE found DO Out.Int(n, 3); found := FALSE END;
    n := n + 1
  END;
  Out.Ln;
  letter := capital;
  WHILE letter <= "F" DO Out.Char(letter); letter := CHR(ORD(letter) + 1) END;
  Out.Ln;
  Out.Int(-7 DIV 2, 0); Out.Char(" "); Out.Int((-7) DIV 2, 0); Out.Char(" "); Out.Int(ASH(-5, -1), 0); Out.Ln;
  small := SHORT(SHORT(n * n))
END Values.
