(* Three activities pass a barrier twice: nobody goes on before all have come. The last one to come ends the line and lets the
   others go. *)
MODULE Barrier;
IMPORT Out;
CONST All = 3;
TYPE
  Barrier = OBJECT
    VAR here, round: LONGINT;
    PROCEDURE Pass;
    VAR mine: LONGINT;
    BEGIN {EXCLUSIVE}
      mine := round; INC(here);
      IF here = All THEN here := 0; INC(round); Out.Ln END;
      AWAIT(round # mine)
    END Pass;
  END Barrier;
  Runner = OBJECT
    VAR name: CHAR; i: LONGINT;
    PROCEDURE &Init(c: CHAR);
    BEGIN name := c END Init;
  BEGIN {ACTIVE}
    FOR i := 1 TO 2 DO Out.Char(name); barrier.Pass END
  END Runner;
VAR barrier: Barrier; runner: Runner;
BEGIN
  NEW(barrier);
  NEW(runner, "a"); NEW(runner, "b"); NEW(runner, "c")
END Barrier.
