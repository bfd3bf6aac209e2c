(* Two pits with two pumps each, seen from outside. *)

(* One pump runs from the high float down to the low one; the next time the other one leads. *)
SEQUENCE pumps_take_turns
  East_Pit.Floats(TRUE, FALSE, FALSE)  -> ;
  East_Pit.Floats(TRUE, TRUE, FALSE)   -> East_Pit.Pumps(TRUE, FALSE) -> East_Pit.Alarm(FALSE) -> East_Pit.Starts(1, 0);
  East_Pit.Floats(TRUE, FALSE, FALSE)  -> ;
  East_Pit.Floats(FALSE, FALSE, FALSE) -> East_Pit.Pumps(FALSE, FALSE) -> East_Pit.Alarm(FALSE);
  East_Pit.Floats(TRUE, TRUE, FALSE)   -> East_Pit.Pumps(FALSE, TRUE) -> East_Pit.Alarm(FALSE) -> East_Pit.Starts(1, 1);
  EXPECT East_Pit.Station.Choice.LEAD = 2;
END_SEQUENCE

(* The other pump takes over at once; if both have failed, an alarm is raised. *)
SEQUENCE a_motor_fails
  West_Pit.Floats(TRUE, TRUE, FALSE)   -> West_Pit.Pumps(TRUE, FALSE) -> West_Pit.Alarm(FALSE) -> West_Pit.Starts(1, 0);
  West_Pit.Motor_Faults(TRUE, FALSE)   -> West_Pit.Pumps(FALSE, TRUE) -> West_Pit.Alarm(FALSE) -> West_Pit.Starts(1, 1) STEPS <= 27;
  West_Pit.Motor_Faults(TRUE, TRUE)    -> West_Pit.Pumps(FALSE, FALSE) -> West_Pit.Alarm(TRUE);
  West_Pit.Motor_Faults(FALSE, TRUE)   -> West_Pit.Pumps(TRUE, FALSE) -> West_Pit.Alarm(FALSE) -> West_Pit.Starts(2, 1);
END_SEQUENCE

(* Above the flood float both run, even if the lower floats hang. Both are counted before the counts are written, which happens twice. *)
SEQUENCE a_flood
  East_Pit.Floats(FALSE, FALSE, TRUE)  -> East_Pit.Pumps(TRUE, TRUE) -> East_Pit.Alarm(FALSE) -> East_Pit.Starts(1, 1) -> East_Pit.Starts(1, 1);
  East_Pit.Floats(TRUE, FALSE, FALSE)  -> East_Pit.Pumps(TRUE, FALSE) -> East_Pit.Alarm(FALSE);
END_SEQUENCE

(* Each pit has a queue of its own: what happens in one holds up the other in nothing. *)
SEQUENCE pits_do_not_wait_for_each_other
  TOGETHER East_Pit.Floats(TRUE, TRUE, FALSE), West_Pit.Floats(TRUE, TRUE, FALSE)
    -> East_Pit.Pumps(TRUE, FALSE) -> East_Pit.Alarm(FALSE) -> East_Pit.Starts(1, 0)
    -> West_Pit.Pumps(TRUE, FALSE) -> West_Pit.Alarm(FALSE) -> West_Pit.Starts(1, 0);
  TOGETHER East_Pit.Floats(FALSE, FALSE, FALSE), East_Pit.Motor_Faults(FALSE, FALSE) -> DENIED 53 -> ..;
END_SEQUENCE
