(* Object types with fields and methods: each shape tells its own area, and a Square says it through what it overrides. *)
MODULE Shapes;
IMPORT Out;
TYPE
  Shape = OBJECT
    VAR next: Shape;
    PROCEDURE Area(): LONGINT;
    BEGIN RETURN 0 END Area;
    PROCEDURE Name;
    BEGIN Out.String("shape") END Name;
    PROCEDURE Show;
    BEGIN Name; Out.Int(Area(), 4); Out.Ln END Show;
  END Shape;
  Rectangle = OBJECT (Shape)
    VAR width, height: LONGINT;
    PROCEDURE Set(w, h: LONGINT);
    BEGIN width := w; height := h END Set;
    PROCEDURE Area(): LONGINT;
    BEGIN RETURN width * height END Area;
    PROCEDURE Name;
    BEGIN Out.String("rectangle") END Name;
  END Rectangle;
  Square = OBJECT (Rectangle)
    PROCEDURE Side(s: LONGINT);
    BEGIN Set(s, s) END Side;
    PROCEDURE Name;
    BEGIN Out.String("square, a "); Name^ END Name;
  END Square;
VAR all, s: Shape; r: Rectangle; q: Square;
BEGIN
  NEW(s); all := s;
  NEW(r); r.Set(3, 4); r.next := all; all := r;
  NEW(q); q.Side(5); q.next := all; all := q;
  s := all;
  WHILE s # NIL DO s.Show; s := s.next END
END Shapes.
