(* Readers and writers: any number of readers may read at a time, and a writer writes alone. Each writes a capital letter when it begins,
   and a small one before it ends. *)
MODULE Readers;
IMPORT Out;
TYPE
  Access = OBJECT
    VAR readers: LONGINT; writing: BOOLEAN;
    PROCEDURE BeginRead;
    BEGIN {EXCLUSIVE} AWAIT(~writing); INC(readers) END BeginRead;
    PROCEDURE EndRead;
    BEGIN {EXCLUSIVE} DEC(readers) END EndRead;
    PROCEDURE BeginWrite;
    BEGIN {EXCLUSIVE} AWAIT(~writing & (readers = 0)); writing := TRUE END BeginWrite;
    PROCEDURE EndWrite;
    BEGIN {EXCLUSIVE} writing := FALSE END EndWrite;
  END Access;
  Reader = OBJECT
  BEGIN {ACTIVE}
    access.BeginRead; Out.Char("R"); Out.Char("r"); access.EndRead; Leave
  END Reader;
  Writer = OBJECT
  BEGIN {ACTIVE}
    access.BeginWrite; Out.Char("W"); Out.Char("w"); access.EndWrite; Leave
  END Writer;
VAR access: Access; reader: Reader; writer: Writer; gone: LONGINT;
PROCEDURE Leave;
BEGIN {EXCLUSIVE} INC(gone) END Leave;
PROCEDURE WaitForAll;
BEGIN {EXCLUSIVE} AWAIT(gone = 3) END WaitForAll;
BEGIN
  NEW(access); NEW(reader); NEW(reader); NEW(writer);
  WaitForAll; Out.Ln
END Readers.
