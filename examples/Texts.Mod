(* Names in an array of arrays of characters, which are put in order, and each is written with its length. *)
MODULE Texts;
IMPORT Out;
TYPE Name = ARRAY 12 OF CHAR;
VAR names: ARRAY 4 OF Name; other: Name; i, j: LONGINT; later: BOOLEAN;
BEGIN
  names[0] := "Oberon"; names[1] := "Ada"; names[2] := "Modula"; COPY("Algol", names[3]);
  WHILE i < LEN(names) DO
    j := i + 1;
    WHILE j < LEN(names) DO
      later := names[j] < names[i];
      WHILE later DO other := names[j]; names[j] := names[i]; names[i] := other; later := FALSE END;
      j := j + 1
    END;
    i := i + 1
  END;
  i := 0;
  WHILE i < LEN(names) DO
    j := 0;
    WHILE names[i, j] # 0X DO j := j + 1 END;
    Out.String(names[i]); Out.Int(j, 3); Out.Ln;
    i := i + 1
  END
END Texts.
