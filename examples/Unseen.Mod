(* A flag that is set outside of regions wakes nobody: who awaits it is asked again only when somebody leaves a region of the lock. *)
MODULE Unseen;
IMPORT Out;
TYPE A = OBJECT BEGIN {ACTIVE} Wait END A;
VAR a: A; here, go: BOOLEAN;
PROCEDURE Wait;
BEGIN {EXCLUSIVE} here := TRUE; AWAIT(go); Out.String("gone on"); Out.Ln END Wait;
BEGIN
  NEW(a);
  BEGIN {EXCLUSIVE} AWAIT(here) END;
  go := TRUE; Out.String("set"); Out.Ln
END Unseen.
