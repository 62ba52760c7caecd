(* A buffer of three places between a producer and a consumer. Who finds it full or empty waits in it until the other has changed that. *)
MODULE Bounded;
IMPORT Out;
CONST Places = 3; Last = 8;
TYPE
  Buffer = OBJECT
    VAR items: ARRAY Places OF LONGINT; first, count: LONGINT;
    PROCEDURE Put(x: LONGINT);
    BEGIN {EXCLUSIVE}
      AWAIT(count < Places);
      items[(first + count) MOD Places] := x; INC(count);
      Out.String(" +"); Out.Int(x, 0)
    END Put;
    PROCEDURE Get(VAR x: LONGINT);
    BEGIN {EXCLUSIVE}
      AWAIT(count > 0);
      x := items[first]; first := (first + 1) MOD Places; DEC(count);
      Out.String(" -"); Out.Int(x, 0)
    END Get;
  END Buffer;
  Producer = OBJECT
    VAR i: LONGINT;
  BEGIN {ACTIVE} FOR i := 1 TO Last DO buffer.Put(i) END
  END Producer;
VAR buffer: Buffer; producer: Producer; i, x: LONGINT;
BEGIN
  NEW(buffer); NEW(producer);
  FOR i := 1 TO Last DO buffer.Get(x) END;
  Out.Ln
END Bounded.
