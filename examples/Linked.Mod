(* A list of numbers whose items are made by an initializer. The place in front of NEW is found first, so first is handed over as it was. *)
MODULE Linked;
IMPORT Out;
TYPE
  Item = OBJECT
    VAR n: LONGINT; next: Item;
    PROCEDURE &Init(number: LONGINT; rest: Item);
    BEGIN n := number; next := rest END Init;
  END Item;
  Action = PROCEDURE (n: LONGINT);
  List = OBJECT
    VAR first: Item; length: LONGINT;
    PROCEDURE Put(n: LONGINT);
    BEGIN NEW(first, n, first); INC(length) END Put;
    PROCEDURE Reverse;
    VAR item, rest: Item;
    BEGIN
      item := first; first := NIL;
      WHILE item # NIL DO rest := item.next; item.next := first; first := item; item := rest END
    END Reverse;
    PROCEDURE Each(action: Action);
    VAR item: Item;
    BEGIN
      item := first;
      WHILE item # NIL DO action(item.n); item := item.next END
    END Each;
  END List;
  Total = OBJECT
    VAR sum: LONGINT;
    PROCEDURE Add(n: LONGINT);
    BEGIN sum := sum + n END Add;
  END Total;
VAR list: List; total: Total; i: LONGINT;

PROCEDURE Show(n: LONGINT);
BEGIN Out.Int(n, 4) END Show;

BEGIN
  NEW(list); NEW(total);
  FOR i := 1 TO 6 DO list.Put(i * i) END;
  list.Each(Show); Out.Ln;
  list.Reverse; list.Each(Show); Out.Ln;
  list.Each(total.Add);
  Out.Int(list.length, 0); Out.Int(total.sum, 4); Out.Ln
END Linked.
