MODULE T;
VAR x: INTEGER;
BEGIN
  x := 1 (* one *)
END T.
