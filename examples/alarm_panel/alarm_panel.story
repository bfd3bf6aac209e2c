(* The alarm panel, seen from outside. Lamps: 0 dark, 1 fast, 2 steady, 3 slow. *)

(* An alarm comes, is seen, and goes. *)
SEQUENCE an_alarm_is_seen
  Water_Level_Contact(FALSE)  -> Water_Lamp(1) -> Display(1, 1) -> Horn(TRUE) STEPS <= 16;
  Horn_Off_Button()           -> Horn(FALSE);
  Acknowledge_Button()        -> Water_Lamp(2) -> Display(0, 0);
  Water_Level_Contact(TRUE)   -> Water_Lamp(0);
  EXPECT Boiler_House.Water_Alarm IN Normal;
END_SEQUENCE

(* An alarm that has gone before anybody saw it stays until it is acknowledged. *)
SEQUENCE an_alarm_that_has_gone
  Burner_Contact(TRUE)        -> Burner_Lamp(1) -> Display(1, 3) -> Horn(TRUE);
  Burner_Contact(FALSE)       -> Burner_Lamp(3);
  Burner_Contact(TRUE)        -> Burner_Lamp(1);
  Burner_Contact(FALSE)       -> Burner_Lamp(3);
  Acknowledge_Button()        -> Burner_Lamp(0) -> Horn(FALSE) -> Display(0, 0);
END_SEQUENCE

(* The display keeps the alarm that came first, which is the cause. *)
SEQUENCE which_came_first
  Pressure_Contact(FALSE)     -> Pressure_Lamp(1) -> Display(1, 2) -> Horn(TRUE);
  Water_Level_Contact(FALSE)  -> Water_Lamp(1) -> Display(2, 2);
  Burner_Contact(TRUE)        -> Burner_Lamp(1) -> Display(3, 2);
  Acknowledge_Button()        -> .. STEPS <= 41;
  EXPECT Summary.OPEN = 0;
  EXPECT Summary.FIRST = 0;
END_SEQUENCE

(* Seven places take two new alarms at once, and not a third. *)
SEQUENCE a_burst_of_alarms
  TOGETHER Water_Level_Contact(FALSE), Pressure_Contact(FALSE), Burner_Contact(TRUE) -> DENIED 53 -> ..;
END_SEQUENCE
