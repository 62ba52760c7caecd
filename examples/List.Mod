(* Squares and boxes in one list, where a box is a square with a height of its own. IS tells them apart, and a guard that finds a square
   where a box should be is a trap. *)
MODULE List;
IMPORT Out;
TYPE
  Square = POINTER TO SquareDesc;
  SquareDesc = RECORD next: Square; width: LONGINT END;
  Box = POINTER TO BoxDesc;
  BoxDesc = RECORD (SquareDesc) height: LONGINT END;
VAR first, square: Square; box: Box; i: LONGINT;

PROCEDURE Put(VAR at: Square; new: Square);
BEGIN
  IF at = NIL THEN at := new ELSE Put(at.next, new) END
END Put;

PROCEDURE Area(square: Square): LONGINT;
BEGIN
  IF square IS Box THEN RETURN square.width * square(Box).height END;
  RETURN square.width * square.width
END Area;

BEGIN
  FOR i := 1 TO 4 DO
    NEW(square); square.width := i; Put(first, square);
    NEW(box); box.width := i; box.height := 10; Put(first, box)
  END;
  square := first;
  WHILE square # NIL DO Out.Int(Area(square), 3); square := square.next END;
  Out.Ln;
  WITH first: Box DO Out.Int(first.height, 3) END
END List.
