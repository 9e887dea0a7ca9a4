--  The sample of document 01, the calls that it has not, the questions and some refusals, on both engines, and a debouncer's card, through the library that an
--  Ada program links.

with Ada.Text_IO;  use Ada.Text_IO;
with Interfaces;   use Interfaces;
with Interfaces.C; use Interfaces.C;
with System;       use System;
with Fuzgerlint;   use Fuzgerlint;

procedure Card_Test is

   Behind : constant := 8;    --  bytes behind those that the library may write, to see that it leaves them
   Mark   : constant := 16#A5#;

   First_Task : constant := 6;    --  where task 1 stands in a state, and three of its bytes
   Current    : constant := 1;
   Tag        : constant := 3;
   Kept       : constant := 6;

   function Image (N : Byte) return String is
      S : constant String := Byte'Image (N);
   begin
      return S (2 .. S'Last);
   end Image;

   function Marked (B : Bytes) return Boolean is
   begin
      for I in B'Range loop
         if B (I) /= Mark then
            return False;
         end if;
      end loop;
      return True;
   end Marked;

   --  An engine: its name, the bytes of its state, and its functions. The whole is run on it.
   generic
      Name         : String;
      State_Length : Positive;
      with function Empty (State : Address; State_Length : size_t; Clock : Unsigned_32) return Byte;
      with function Sound (State : Address; State_Length : size_t) return Byte;
      with function Step
        (State  : Address; State_Length  : size_t;
         Rec    : Address; Rec_Length    : size_t;
         Room   : Address; Room_Length   : size_t;
         Answer : Address; Answer_Length : size_t) return Byte;
      with function Count
        (State  : Address; State_Length : size_t; Task_Number, Entry_Number : Byte;
         Answer : Address; Answer_Length : size_t) return Byte;
      with function Callable
        (State : Address; State_Length : size_t; Task_Number : Byte; Answer : Address; Answer_Length : size_t) return Byte;
      with function Running (State : Address; State_Length : size_t; Answer : Address; Answer_Length : size_t) return Byte;
   procedure Run;

   procedure Run is

      State  : Bytes (1 .. State_Length + Behind) := (others => Mark);
      Room   : Bytes (1 .. Room_Length + Behind) := (others => Mark);
      Answer : Bytes (1 .. Answer_Length + Behind) := (others => Mark);
      Before : Bytes (State'Range);
      Number : Byte := 0;

      Sample : constant Bytes :=
        (Tag_Create, 0, 2, 5, 1, Tag_Create, 0, 2, 9, 0, Tag_Call, 0, 7, 1, 1, 1, 0, 0, 0, 3, Tag_Tick, 0, 0,
         Tag_Select, 0, 6, 1, 0, 0, 0, 0, 0, Tag_Tick, 0, 0, Tag_Tick, 0, 0, Tag_End, 0, 0, Tag_End, 0, 0);

      Queued : constant Bytes := (Tag_Create, 0, 2, 1, 1, Tag_Call, 0, 7, 3, 1, 0, 0, 0, 0, 0);
      Ended  : constant Bytes := (Tag_Delay, 0, 4, 0, 0, 0, 5, Tag_Finish, 0, 0, Tag_Advance, 0, 4, 1, 2, 3, 4);
      Tick   : constant Bytes := (Tag_Tick, 0, 0);

      function Do_Step (Rec : Bytes; States, Rooms, Answers : Natural) return Byte is
      begin
         return Step
           (State  => State'Address,  State_Length  => size_t (States),
            Rec    => Rec'Address,    Rec_Length    => Rec'Length,
            Room   => Room'Address,   Room_Length   => size_t (Rooms),
            Answer => Answer'Address, Answer_Length => size_t (Answers));
      end Do_Step;

      function Do_Step (Rec : Bytes) return Byte is
      begin
         return Do_Step (Rec, State'Length, Room'Length, Answer'Length);
      end Do_Step;

      --  Takes the calls of a log, and prints a line for each.
      procedure Take (Log : Bytes) is
         At_Byte : Positive := Log'First;
         Refusal : Byte;
      begin
         while At_Byte <= Log'Last loop
            Number := Number + 1;
            Refusal := Do_Step (Log (At_Byte .. Log'Last));
            Put (Image (Number) & " " & Image (Refusal));
            for I in 2 .. 5 loop
               Put (" " & Image (Answer (I)));
            end loop;
            Put (" " & Image (Answer (7)));
            for I in 1 .. Natural (Answer (6)) loop
               Put (" |");
               for J in 4 * I - 3 .. 4 * I loop
                  Put (" " & Image (Room (J)));
               end loop;
            end loop;
            New_Line;
            At_Byte := At_Byte + 3 + Natural (Log (At_Byte + 1)) * 256 + Natural (Log (At_Byte + 2));
         end loop;
      end Take;

      --  COUNT with room for so many bytes of an answer.
      function Do_Count (Number_Of_Task, Number_Of_Entry : Byte; Answer : Address; Length : size_t) return Byte is
      begin
         return Count
           (State        => State'Address,  State_Length => State'Length,
            Task_Number  => Number_Of_Task, Entry_Number => Number_Of_Entry,
            Answer       => Answer,         Answer_Length => Length);
      end Do_Count;

      --  Asks a question of each kind, COUNT of two entries.
      procedure Ask is
         One     : Bytes (1 .. 1) := (others => Mark);
         Refusal : Byte;
      begin
         Put ("sound " & Image (Sound (State => State'Address, State_Length => State'Length)));
         Refusal := Do_Count (3, 1, One'Address, 1);
         Put (" count " & Image (Refusal) & " " & Image (One (1)));
         Refusal := Do_Count (1, 3, One'Address, 1);
         Put (" " & Image (Refusal) & " " & Image (One (1)));
         Refusal := Callable
           (State => State'Address, State_Length => State'Length, Task_Number => 3, Answer => One'Address, Answer_Length => 1);
         Put (" callable " & Image (Refusal) & " " & Image (One (1)));
         Refusal := Running (State => State'Address, State_Length => State'Length, Answer => One'Address, Answer_Length => 1);
         Put_Line (" running " & Image (Refusal) & " " & Image (One (1)));
      end Ask;

   begin
      Put_Line ("engine " & Name);
      Put_Line ("empty " & Image (Empty (State => State'Address, State_Length => State'Length, Clock => 4294967294)));
      Take (Sample);
      Take (Queued);
      Ask;
      Take (Ended);
      Ask;
      Put_Line ("clock " & Image (State (1)) & " " & Image (State (2)) & " " & Image (State (3)) & " " & Image (State (4)));

      Before := State;
      Put ("short state " & Image (Empty (State'Address, size_t (State_Length - 1), 0)));
      Put (" " & Image (Do_Step (Tick, State_Length - 1, Room'Length, Answer'Length)));
      Put_Line (" " & Image (Sound (State'Address, size_t (State_Length - 1))));
      State (First_Task + Tag) := 7;
      Put_Line ("other tag " & Image (Do_Step (Tick)));
      State (First_Task + Tag) := Before (First_Task + Tag);
      State (First_Task + Tag + 1) := 1;
      Put_Line ("unused byte " & Image (Do_Step (Tick)));
      State (First_Task + Tag + 1) := Before (First_Task + Tag + 1);
      State (First_Task + Current) := 16;
      Put_Line ("current priority 16 " & Image (Do_Step (Tick)));
      State (First_Task + Current) := Before (First_Task + Current);
      State (First_Task + Kept) := 1;
      Put_Line ("kept priority of a task that is not held " & Image (Do_Step (Tick)));
      State (First_Task + Kept) := Before (First_Task + Kept);
      Put_Line ("short answer " & Image (Do_Step (Tick, State'Length, Room'Length, Answer_Length - 1)));
      Put_Line ("short room " & Image (Do_Step (Tick, State'Length, Room_Length - 1, Answer'Length)));
      Put_Line ("cut record " & Image (Do_Step (Tick (1 .. 2))));
      Put ("no record " & Image (Do_Step (Tick (1 .. 0))));
      Put_Line (" " & Image (Step (State'Address, State'Length, Null_Address, 0, Room'Address, Room'Length, Answer'Address, Answer'Length)));
      Put ("no answer " & Image (Do_Count (3, 1, Null_Address, 0)));
      Put (" " & Image (Callable (State'Address, State'Length, 3, Null_Address, 0)));
      Put_Line (" " & Image (Running (State'Address, State'Length, Null_Address, 0)));
      Put ("untouched ");
      if Before = State
        and then Marked (State (State_Length + 1 .. State'Last))
        and then Marked (Room (Room_Length + 1 .. Room'Last))
        and then Marked (Answer (Answer_Length + 1 .. Answer'Last))
      then
         Put_Line ("1");
      else
         Put_Line ("0");
      end if;
   end Run;

   --  The priorities of two tasks in a rendezvous, and of a number that is no task's, by the first engine.
   procedure Priorities is

      Held : constant Bytes :=
        (Tag_Create, 0, 2, 5, 1, Tag_Create, 0, 2, 9, 0, Tag_Call, 0, 7, 1, 1, 0, 0, 0, 0, 0, Tag_Select, 0, 6, 1, 0, 0, 0, 0, 0);

      State   : Bytes (1 .. State_Length);
      Room    : Bytes (1 .. Room_Length);
      Answer  : Bytes (1 .. Answer_Length);
      One     : Bytes (1 .. 1);
      Refusal : Byte;
      Number  : Byte := 0;
      At_Byte : Positive := 1;

   begin
      Put_Line ("priorities " & Image (Empty (State'Address, State'Length, 0)));
      while At_Byte <= Held'Last loop
         Refusal := Step
           (State'Address, State'Length, Held (At_Byte)'Address, size_t (Held'Last - At_Byte + 1), Room'Address, Room'Length, Answer'Address, Answer'Length);
         Number := Number + 1;
         Put (Image (Number) & " " & Image (Refusal));
         for I in 2 .. 5 loop
            Put (" " & Image (Answer (I)));
         end loop;
         Put_Line (" " & Image (Answer (7)));
         At_Byte := At_Byte + 3 + Natural (Held (At_Byte + 2));
      end loop;
      for T in Byte range 1 .. 3 loop
         Refusal := Fuzgerlint.Priority (State'Address, State'Length, T, One'Address, 1);
         Put_Line (Image (Refusal) & " " & Image (One (1)));
      end loop;
      Put_Line ("no answer " & Image (Fuzgerlint.Priority (State'Address, State'Length, 1, Null_Address, 0)));
   end Priorities;

   --  Debounces raw bits: of each contact the last two samples count, and those of even number are sampled every other tick.
   procedure Debounce is
      Raw      : constant Bytes := (1, 0, 3, 3, 255, 254, 255, 170, 0, 0, 0);
      Card     : Bytes (1 .. Card_Length + Behind) := (others => Mark);
      Before   : Bytes (Card'Range);
      Settings : Bytes (1 .. Settings_Length);
      Report   : Bytes (1 .. Report_Length + Behind) := (others => Mark);
      Refusal  : Byte;

      --  Makes a card, with room and settings of so many bytes.
      function Do_Fresh (Cards, Settings_Given : Natural) return Byte is
      begin
         return Debounce_Fresh
           (Card     => Card'Address,     Card_Length     => size_t (Cards),
            Settings => Settings'Address, Settings_Length => size_t (Settings_Given));
      end Do_Fresh;

      --  A tick, with a card of so many bytes.
      function Do_Tick (Cards : Natural; Bits : Byte) return Byte is
      begin
         return Debounce_Tick
           (Card   => Card'Address,   Card_Length   => size_t (Cards), Bits => Bits,
            Report => Report'Address, Report_Length => Report'Length);
      end Do_Tick;

   begin
      for K in 0 .. 7 loop
         Settings (6 * K + 1 .. 6 * K + 6) := (Byte (K + 1), 0, 3, 2, 0, Byte (1 + K mod 2));
      end loop;
      Put_Line ("debounce " & Image (Do_Fresh (Card'Length, Settings'Length)));
      for I in Raw'Range loop
         Refusal := Do_Tick (Card'Length, Raw (I));
         Put_Line (Image (Refusal) & " " & Image (Raw (I)) & " " & Image (Report (1)));
      end loop;

      Before := Card;
      Put ("short card " & Image (Do_Fresh (Card_Length - 1, Settings'Length)));
      Refusal := Do_Tick (Card_Length - 1, 255);
      Put_Line (" " & Image (Refusal) & " " & Image (Report (1)));
      Put_Line ("no report " & Image (Debounce_Tick (Card'Address, Card'Length, 255, Null_Address, 0)));
      Put_Line ("short settings " & Image (Do_Fresh (Card'Length, Settings'Length - 1)));
      Settings (4) := 17;
      Put_Line ("other setting " & Image (Do_Fresh (Card'Length, Settings'Length)));
      Card (State_Length + 4) := 2;
      Put_Line ("neither closed nor open " & Image (Do_Tick (Card'Length, 255)));
      Card (State_Length + 4) := Before (State_Length + 4);
      if Before = Card and then Marked (Card (Card_Length + 1 .. Card'Last)) and then Marked (Report (Report_Length + 1 .. Report'Last)) then
         Put_Line ("untouched 1");
      else
         Put_Line ("untouched 0");
      end if;
   end Debounce;

   procedure First is new Run ("card", State_Length, Empty, Sound, Step, Fuzgerlint.Count, Callable, Running);
   procedure Second is new Run
     ("second", Second_State_Length, Second_Empty, Second_Sound, Second_Step, Second_Count, Second_Callable, Second_Running);

begin
   First;
   Second;
   Priorities;
   Debounce;
end Card_Test;
