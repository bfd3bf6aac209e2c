(* The arm, seen from outside: two moves for a part, each confirmed. *)

(* The button starts the first move; its confirm comes by itself, and so does the second one. *)
SEQUENCE a_part_is_placed
  Start_Button()              -> Drive(400);
  EXPECT Robot.Arm IN To_Part;
  AFTER T#1ms                 -> Drive(100) -> Parts_Display(1);
  EXPECT Robot.Arm IN Waits;
  AFTER T#1h                  -> ;
END_SEQUENCE

(* While the arm waits for a confirm, a second start is passed over. *)
SEQUENCE one_part_at_a_time
  Start_Button()              -> Drive(400);
  Start_Button()              -> ;
  AFTER T#1ms                 -> Drive(100) -> Parts_Display(1);
  Start_Button()              -> Drive(400);
  AFTER T#1ms                 -> Drive(100) -> Parts_Display(2);
END_SEQUENCE
