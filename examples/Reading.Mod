MODULE Reading;
IMPORT Counter, Out;
BEGIN Out.Int(Counter.n, 0); Out.Ln
END Reading.
