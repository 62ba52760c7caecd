(* Two activities move 10 between two accounts, each the other way. Whoever moves holds one account and asks for the other. *)
MODULE Transfer;
IMPORT Out;
TYPE
  Account = OBJECT
    VAR sum: LONGINT;
    PROCEDURE Put(n: LONGINT);
    BEGIN {EXCLUSIVE} sum := sum + n END Put;
    PROCEDURE Move(n: LONGINT; to: Account);
    BEGIN {EXCLUSIVE}
      sum := sum - n;
      to.Put(n)
    END Move;
  END Account;
  Mover = OBJECT
    VAR from, to: Account;
    PROCEDURE &Init(f, t: Account);
    BEGIN from := f; to := t END Init;
  BEGIN {ACTIVE} from.Move(10, to)
  END Mover;
VAR x, y: Account; a, b: Mover;
BEGIN
  NEW(x); NEW(y); NEW(a, x, y); NEW(b, y, x);
  Out.Int(x.sum, 0); Out.Char(" "); Out.Int(y.sum, 0); Out.Ln
END Transfer.
