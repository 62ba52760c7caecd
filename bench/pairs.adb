--  Producers and consumers in pairs, each with a buffer of one place, which is a protected object. The words are how many pairs there
--  are, and how many numbers each producer puts. The sum of all numbers that were got is written.
with Ada.Command_Line; use Ada.Command_Line;
with Ada.Text_IO;

procedure Pairs is
   type Number is range 0 .. 2 ** 62;

   protected type Buffer is
      entry Put (N : Number);
      entry Get (N : out Number);
   private
      Kept : Number := 0;
      Full : Boolean := False;
   end Buffer;

   protected body Buffer is
      entry Put (N : Number) when not Full is
      begin
         Kept := N;
         Full := True;
      end Put;

      entry Get (N : out Number) when Full is
      begin
         N := Kept;
         Full := False;
      end Get;
   end Buffer;

   protected Totals is
      procedure Add (N : Number);
      function Sum return Number;
   private
      All_Of_Them : Number := 0;
   end Totals;

   protected body Totals is
      procedure Add (N : Number) is
      begin
         All_Of_Them := All_Of_Them + N;
      end Add;

      function Sum return Number is (All_Of_Them);
   end Totals;

   How_Many : constant Positive := Positive'Value (Argument (1));
   Items    : constant Natural  := Natural'Value (Argument (2));
   Buffers  : array (1 .. How_Many) of Buffer;

   task type Producer (Pair : Positive);
   task type Consumer (Pair : Positive);

   task body Producer is
   begin
      for I in 1 .. Items loop
         Buffers (Pair).Put (Number (I));
      end loop;
   end Producer;

   task body Consumer is
      N   : Number;
      Sum : Number := 0;
   begin
      for I in 1 .. Items loop
         Buffers (Pair).Get (N);
         Sum := Sum + N;
      end loop;
      Totals.Add (Sum);
   end Consumer;

begin
   declare
      type Producer_Access is access Producer;
      type Consumer_Access is access Consumer;
      P : Producer_Access;
      C : Consumer_Access;
   begin
      for Pair in 1 .. How_Many loop
         P := new Producer (Pair);
         C := new Consumer (Pair);
      end loop;
   end;
   declare
      Text : constant String := Number'Image (Totals.Sum);
   begin
      Ada.Text_IO.Put_Line (Text (2 .. Text'Last));
   end;
end Pairs;
