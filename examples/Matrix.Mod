(* A table of rows and columns, which is filled, copied and summed, and a record that has such a table. A copy stays as it is. *)
MODULE Matrix;
IMPORT Out;
CONST rows = 3; columns = 4;
TYPE Table = ARRAY rows, columns OF LONGINT; Sheet = RECORD count: LONGINT; table: Table END;
VAR a, b: Table; s, t: Sheet; i, j: LONGINT;
BEGIN
  WHILE i < rows DO
    j := 0;
    WHILE j < columns DO a[i, j] := 10 * i + j; j := j + 1 END;
    i := i + 1
  END;
  b := a; a[2] := a[0];
  s.table := b; t := s; s.table[1, 1] := 0;
  i := 0;
  WHILE i < rows DO
    j := 0;
    WHILE j < columns DO
      Out.Int(a[i, j], 4);
      t.count := t.count + t.table[i][j]; j := j + 1
    END;
    Out.Ln; i := i + 1
  END;
  Out.Int(t.count, 4); Out.Int(s.count, 4); Out.Int(s.table[1, 1], 4); Out.Int(t.table[1, 1], 4); Out.Ln
END Matrix.
