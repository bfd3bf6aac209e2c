(* The alarm panel with room in its queue. *)

(* All three alarms at once are taken, and the buttons beside them. *)
SEQUENCE a_burst_of_alarms
  TOGETHER Water_Level_Contact(FALSE), Pressure_Contact(FALSE), Burner_Contact(TRUE), Horn_Off_Button() -> ..;
  EXPECT Summary.OPEN = 3;
  EXPECT Summary.FIRST = 1;
  EXPECT Horn_Memory.Q = TRUE;
END_SEQUENCE
