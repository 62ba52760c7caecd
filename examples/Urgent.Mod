(* Work of the lowest priority raises an alarm of the highest, which goes first as soon as a worker has no activity: once the work has
   ended, or is put off by a tick. *)
MODULE Urgent;
IMPORT Out;
TYPE
  Alarm = OBJECT BEGIN {ACTIVE, PRIORITY(3)} Out.String(" alarm") END Alarm;
  Line = OBJECT BEGIN {ACTIVE, PRIORITY(1)} Out.Ln END Line;
  Work = OBJECT
  BEGIN {ACTIVE, PRIORITY(1)}
    Out.String("work"); NEW(alarm); Out.String(" more"); NEW(line)
  END Work;
VAR alarm: Alarm; line: Line; work: Work;
BEGIN
  NEW(work); Out.String("begin ")
END Urgent.
