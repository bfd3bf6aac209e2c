(* The reversing starter with room in its queue. *)

(* A stop that comes with a start is taken. It runs before the coils are written, which takes what the coils are to be by then:
   they are written open twice, and the motor does not move. *)
SEQUENCE a_stop_with_a_start
  TOGETHER Forward_Button(), Stop_Button() -> Contactors(FALSE, FALSE) -> Contactors(FALSE, FALSE) -> Service_Lamp(FALSE, 1);
  EXPECT Drive.Starter IN Stopped;
END_SEQUENCE
