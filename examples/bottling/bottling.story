(* The bottling line, seen from outside. Belt_Motor is the motor, the lamp "a crate please", and the lamp "fault". *)

(* A good bottle reaches the crate three pulses behind the scale, a bad one the gate. *)
SEQUENCE a_good_and_a_bad_bottle
  Main_Switch(TRUE)           -> Belt_Motor(TRUE, FALSE, FALSE);
  Weigher(1000)               -> ;
  Star_Wheel()                -> Gate(FALSE);
  Weigher(1011)               -> ;
  Star_Wheel()                -> Gate(FALSE);
  Star_Wheel()                -> Gate(FALSE) -> Crate_Display(1) STEPS <= 30;
  Star_Wheel()                -> Gate(TRUE);
  Star_Wheel()                -> Gate(FALSE);
END_SEQUENCE

(* The fourth good bottle fills the crate: the belt waits for another one. *)
SEQUENCE a_full_crate
  Main_Switch(TRUE)           -> Belt_Motor(TRUE, FALSE, FALSE);
  Weigher(995)                -> ;
  Star_Wheel()                -> Gate(FALSE);
  Weigher(1010)               -> ;
  Star_Wheel()                -> Gate(FALSE);
  Weigher(1000)               -> ;
  Star_Wheel()                -> Gate(FALSE) -> Crate_Display(1);
  Weigher(1000)               -> ;
  Star_Wheel()                -> Gate(FALSE) -> Crate_Display(2);
  Star_Wheel()                -> Gate(FALSE) -> Crate_Display(3);
  Star_Wheel()                -> Gate(FALSE) -> Crate_Display(4) -> Belt_Motor(FALSE, TRUE, FALSE);
  EXPECT Filling.Control IN Waits_For_Crate;
  Crate_Sensor()              -> Crate_Display(0) -> Belt_Motor(TRUE, FALSE, FALSE);
END_SEQUENCE

(* Three bad bottles in a row: the line stops until it is reset, and what lies on the belt is rejected then. *)
SEQUENCE three_bad_bottles
  Main_Switch(TRUE)           -> Belt_Motor(TRUE, FALSE, FALSE);
  Weigher(900)                -> ;
  Star_Wheel()                -> Gate(FALSE);
  Weigher(900)                -> ;
  Star_Wheel()                -> Gate(FALSE);
  Weigher(900)                -> ;
  Star_Wheel()                -> Gate(TRUE);
  Star_Wheel()                -> Gate(TRUE);
  Weigher(1000)               -> ;
  Star_Wheel()                -> Gate(TRUE) -> Belt_Motor(FALSE, FALSE, TRUE);
  Main_Switch(TRUE)           -> ;
  Reset_Button()              -> Belt_Motor(FALSE, FALSE, FALSE) -> Gate(TRUE);
  Main_Switch(TRUE)           -> Belt_Motor(TRUE, FALSE, FALSE);
  Star_Wheel()                -> Gate(TRUE);
END_SEQUENCE

(* A pulse holds the whole queue: one that comes with it finds no place. *)
SEQUENCE two_pulses_at_once
  TOGETHER Star_Wheel(), Star_Wheel() -> Gate(FALSE) -> DENIED 53;
END_SEQUENCE
