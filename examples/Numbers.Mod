MODULE Numbers;
IMPORT Out;
BEGIN
  Out.Int(7, 3); Out.Int(2026, 6); Out.Ln;
  Out.Int(0, 0); Out.Ln
END Numbers.
