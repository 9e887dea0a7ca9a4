--  Fuzgerlint for Ada: a tasking supervisor whose state lies in bytes that the caller lends.
--
--  For Ada 95 and later. Byte is Interfaces.Unsigned_8: `use type Fuzgerlint.Byte;` makes = and /= visible.
--
--  Link target/staticlib/libcard.a (x86-64); it needs memcpy, memmove and memset of the program. The bytes of an array are passed as the address of
--  its first byte and their number. include/fuzgerlint.h says what each function does, what the fields of a call record are, and the four
--  things that the caller has to keep: as many bytes as are said (with 0 any address will do), arrays of one call that do not overlap, no
--  other call on the same state until one has returned, and the 128 bytes below the stack pointer left alone by interrupts.

with Interfaces;
with Interfaces.C;
with System;

package Fuzgerlint is

   subtype Byte is Interfaces.Unsigned_8;
   type Bytes is array (Positive range <>) of Byte;
   pragma Pack (Bytes);

   State_Length  : constant := 501;
   Room_Length   : constant := 124;
   Answer_Length : constant := 7;

   --  The second engine's state: no line of callers, and a row of 31 for each task at the end

   Second_State_Length : constant := State_Length - 31 + 31 * 31;

   --  The contact debouncer: its settings, its card (the supervisor's bytes, then five for each contact), and its report

   Settings_Length : constant := 48;
   Card_Length     : constant := State_Length + 8 * 5;
   Report_Length   : constant := 1;

   --  Tags of call records

   Tag_Create  : constant Byte := 1;
   Tag_Delay   : constant Byte := 2;
   Tag_Call    : constant Byte := 3;
   Tag_Select  : constant Byte := 4;
   Tag_End     : constant Byte := 5;
   Tag_Finish  : constant Byte := 6;
   Tag_Tick    : constant Byte := 7;
   Tag_Advance : constant Byte := 8;

   --  Results, of an answer and of an ended wait

   Result_Waits         : constant Byte := 0;
   Result_Elapsed       : constant Byte := 1;
   Result_Served        : constant Byte := 2;
   Result_Call_Expired  : constant Byte := 3;
   Result_Tasking_Error : constant Byte := 4;
   Result_Accepted      : constant Byte := 5;
   Result_Delay_Taken   : constant Byte := 6;
   Result_Else_Taken    : constant Byte := 7;
   Result_Not_Now       : constant Byte := 8;
   Result_Program_Error : constant Byte := 9;
   Result_Done          : constant Byte := 10;

   --  Refusals; 10 is retired

   Refusal_Short_Room    : constant Byte := 1;
   Refusal_Bad_State     : constant Byte := 2;
   Refusal_Bad_Field     : constant Byte := 3;
   Refusal_No_Task       : constant Byte := 4;
   Refusal_No_Target     : constant Byte := 5;
   Refusal_No_Entry      : constant Byte := 6;
   Refusal_Not_Serving   : constant Byte := 7;
   Refusal_Still_Serving : constant Byte := 8;
   Refusal_Full          : constant Byte := 9;
   Refusal_Bad_Record    : constant Byte := 11;
   Refusal_End_Of_Log    : constant Byte := 12;
   Refusal_Bad_Setting   : constant Byte := 17;

   function Empty
     (State : System.Address; State_Length : Interfaces.C.size_t; Clock : Interfaces.Unsigned_32) return Byte;
   pragma Import (C, Empty, "card_empty");

   function Sound (State : System.Address; State_Length : Interfaces.C.size_t) return Byte;
   pragma Import (C, Sound, "card_sound");

   function Step
     (State  : System.Address; State_Length  : Interfaces.C.size_t;
      Rec    : System.Address; Rec_Length    : Interfaces.C.size_t;
      Room   : System.Address; Room_Length   : Interfaces.C.size_t;
      Answer : System.Address; Answer_Length : Interfaces.C.size_t) return Byte;
   pragma Import (C, Step, "card_step");

   function Count
     (State  : System.Address; State_Length : Interfaces.C.size_t; Task_Number, Entry_Number : Byte;
      Answer : System.Address; Answer_Length : Interfaces.C.size_t) return Byte;
   pragma Import (C, Count, "card_count");

   function Callable
     (State  : System.Address; State_Length : Interfaces.C.size_t; Task_Number : Byte;
      Answer : System.Address; Answer_Length : Interfaces.C.size_t) return Byte;
   pragma Import (C, Callable, "card_callable");

   function Running
     (State : System.Address; State_Length : Interfaces.C.size_t; Answer : System.Address; Answer_Length : Interfaces.C.size_t) return Byte;
   pragma Import (C, Running, "card_running");

   function Priority
     (State  : System.Address; State_Length : Interfaces.C.size_t; Task_Number : Byte;
      Answer : System.Address; Answer_Length : Interfaces.C.size_t) return Byte;
   pragma Import (C, Priority, "card_priority");
   --  The same of the second engine, over states of Second_State_Length bytes

   function Second_Empty
     (State : System.Address; State_Length : Interfaces.C.size_t; Clock : Interfaces.Unsigned_32) return Byte;
   pragma Import (C, Second_Empty, "second_empty");

   function Second_Sound (State : System.Address; State_Length : Interfaces.C.size_t) return Byte;
   pragma Import (C, Second_Sound, "second_sound");

   function Second_Step
     (State  : System.Address; State_Length  : Interfaces.C.size_t;
      Rec    : System.Address; Rec_Length    : Interfaces.C.size_t;
      Room   : System.Address; Room_Length   : Interfaces.C.size_t;
      Answer : System.Address; Answer_Length : Interfaces.C.size_t) return Byte;
   pragma Import (C, Second_Step, "second_step");

   function Second_Count
     (State  : System.Address; State_Length : Interfaces.C.size_t; Task_Number, Entry_Number : Byte;
      Answer : System.Address; Answer_Length : Interfaces.C.size_t) return Byte;
   pragma Import (C, Second_Count, "second_count");

   function Second_Callable
     (State  : System.Address; State_Length : Interfaces.C.size_t; Task_Number : Byte;
      Answer : System.Address; Answer_Length : Interfaces.C.size_t) return Byte;
   pragma Import (C, Second_Callable, "second_callable");

   function Second_Running
     (State : System.Address; State_Length : Interfaces.C.size_t; Answer : System.Address; Answer_Length : Interfaces.C.size_t) return Byte;
   pragma Import (C, Second_Running, "second_running");

   function Second_Priority
     (State  : System.Address; State_Length : Interfaces.C.size_t; Task_Number : Byte;
      Answer : System.Address; Answer_Length : Interfaces.C.size_t) return Byte;
   pragma Import (C, Second_Priority, "second_priority");

   function Debounce_Fresh
     (Card     : System.Address; Card_Length     : Interfaces.C.size_t;
      Settings : System.Address; Settings_Length : Interfaces.C.size_t) return Byte;
   pragma Import (C, Debounce_Fresh, "debounce_fresh");

   function Debounce_Tick
     (Card   : System.Address; Card_Length   : Interfaces.C.size_t; Bits : Byte;
      Report : System.Address; Report_Length : Interfaces.C.size_t) return Byte;
   pragma Import (C, Debounce_Tick, "debounce_tick");

end Fuzgerlint;
