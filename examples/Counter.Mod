MODULE Counter;
VAR n-: LONGINT;
BEGIN n := 21
END Counter.
