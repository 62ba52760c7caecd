MODULE Forever;
IMPORT Out;
VAR i: LONGINT;
BEGIN
  WHILE i # 1 DO i := 2 END
END Forever.
