(* Expressions as a tree of objects, each made by its own type's initializer: a node says its value and writes itself by its own type. *)
MODULE Tree;
IMPORT Out;
TYPE
  Node = OBJECT
    PROCEDURE Value(): LONGINT;
    BEGIN RETURN 0 END Value;
    PROCEDURE Write;
    BEGIN Out.Char("?") END Write;
  END Node;
  Number = OBJECT (Node)
    VAR n: LONGINT;
    PROCEDURE &Init(number: LONGINT);
    BEGIN n := number END Init;
    PROCEDURE Value(): LONGINT;
    BEGIN RETURN n END Value;
    PROCEDURE Write;
    BEGIN Out.Int(n, 0) END Write;
  END Number;
  Pair = OBJECT (Node)
    VAR left, right: Node; sign: CHAR;
    PROCEDURE &Init(l, r: Node);
    BEGIN left := l; right := r; sign := "," END Init;
    PROCEDURE Write;
    BEGIN Out.Char("("); left.Write; Out.Char(sign); right.Write; Out.Char(")") END Write;
  END Pair;
  Sum = OBJECT (Pair)
    PROCEDURE &Init(l, r: Node);
    BEGIN Init^(l, r); sign := "+" END Init;
    PROCEDURE Value(): LONGINT;
    BEGIN RETURN left.Value() + right.Value() END Value;
  END Sum;
  Product = OBJECT (Pair)
    PROCEDURE &Init(l, r: Node);
    BEGIN Init^(l, r); sign := "*" END Init;
    PROCEDURE Value(): LONGINT;
    BEGIN RETURN left.Value() * right.Value() END Value;
  END Product;
VAR n: Number; s: Sum; p: Product; all: Node; count: LONGINT;

PROCEDURE Of(value: LONGINT): Node;
VAR n: Number;
BEGIN NEW(n, value); RETURN n END Of;

PROCEDURE Products(node: Node): LONGINT;
VAR sum: LONGINT;
BEGIN
  IF ~(node IS Pair) THEN RETURN 0 END;
  WITH node: Pair DO
    sum := Products(node.left) + Products(node.right);
    IF node IS Product THEN INC(sum) END
  END;
  RETURN sum
END Products;

BEGIN
  NEW(s, Of(2), Of(3)); NEW(p, s, Of(4)); NEW(s, p, Of(5)); NEW(p, s, s);
  all := p;
  all.Write; Out.String(" = "); Out.Int(all.Value(), 0); Out.Ln;
  Out.Int(Products(all), 0); Out.String(" products"); Out.Ln
END Tree.
