(* Four guests share two seats. Each writes its capital letter when it has one, and its small letter before it gives it back. *)
MODULE Semaphore;
IMPORT Out;
TYPE
  Semaphore = OBJECT
    VAR free: LONGINT;
    PROCEDURE &Init(n: LONGINT);
    BEGIN free := n END Init;
    PROCEDURE Take;
    BEGIN {EXCLUSIVE} AWAIT(free > 0); DEC(free) END Take;
    PROCEDURE Give;
    BEGIN {EXCLUSIVE} INC(free) END Give;
  END Semaphore;
  Guest = OBJECT
    VAR name: CHAR;
    PROCEDURE &Init(c: CHAR);
    BEGIN name := c END Init;
  BEGIN {ACTIVE}
    seats.Take;
    Out.Char(CAP(name)); Out.Char(name);
    seats.Give; Leave
  END Guest;
VAR seats: Semaphore; guest: Guest; gone: LONGINT;
PROCEDURE Leave;
BEGIN {EXCLUSIVE} INC(gone) END Leave;
PROCEDURE WaitForAll;
BEGIN {EXCLUSIVE} AWAIT(gone = 4) END WaitForAll;
BEGIN
  NEW(seats, 2);
  NEW(guest, "a"); NEW(guest, "b"); NEW(guest, "c"); NEW(guest, "d");
  WaitForAll; Out.Ln
END Semaphore.
