(* Whoever wants to know of a changed value hands in a procedure: one of the module, or a method with its object. *)
MODULE Observer;
IMPORT Out;
TYPE
  Listener = PROCEDURE {DELEGATE} (old, new: LONGINT);
  Subject = OBJECT
    VAR value, count: LONGINT; listeners: ARRAY 8 OF Listener;
    PROCEDURE &Init(first: LONGINT);
    BEGIN value := first END Init;
    PROCEDURE Add(listener: Listener);
    BEGIN listeners[count] := listener; INC(count) END Add;
    PROCEDURE Remove(listener: Listener);
    VAR i: LONGINT;
    BEGIN
      i := 0;
      WHILE (i < count) & (listeners[i] # listener) DO INC(i) END;
      IF i < count THEN DEC(count); listeners[i] := listeners[count]; listeners[count] := NIL END
    END Remove;
    PROCEDURE Set(new: LONGINT);
    VAR old, i: LONGINT;
    BEGIN
      old := value; value := new;
      FOR i := 0 TO count - 1 DO listeners[i](old, new) END
    END Set;
  END Subject;
  Greatest = OBJECT
    VAR n: LONGINT;
    PROCEDURE &Init(first: LONGINT);
    BEGIN n := first END Init;
    PROCEDURE Changed(old, new: LONGINT);
    BEGIN IF new > n THEN n := new END END Changed;
  END Greatest;
  Log = OBJECT
    VAR mark: CHAR;
    PROCEDURE &Init(c: CHAR);
    BEGIN mark := c END Init;
    PROCEDURE Changed(old, new: LONGINT);
    BEGIN Out.Char(mark); Out.Int(old, 4); Out.Int(new, 4); Out.Ln END Changed;
  END Log;
VAR subject: Subject; greatest: Greatest; a, b: Log; changes: LONGINT;

PROCEDURE Count(old, new: LONGINT);
BEGIN INC(changes) END Count;

BEGIN
  NEW(subject, 10); NEW(greatest, subject.value); NEW(a, "a"); NEW(b, "b");
  subject.Add(Count); subject.Add(greatest.Changed); subject.Add(a.Changed); subject.Add(b.Changed);
  subject.Set(30);
  subject.Remove(a.Changed);
  subject.Set(20);
  Out.Int(changes, 0); Out.Int(greatest.n, 3); Out.Ln
END Observer.
