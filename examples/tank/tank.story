(* The tank, seen from outside: what its sensor, its panel and its switch make it do. *)

(* The valve opens below the lower limit, and closes from the upper one on. Levels are the mean of the last four. *)
SEQUENCE fills_and_stops
  Enable_Switch(TRUE)         -> ;
  Level_Sensor(6912)          -> Level_Display(250) -> Inlet_Valve(TRUE);
  EXPECT Level.Control IN Opened;
  Level_Sensor(27648)         -> Level_Display(437);
  Level_Sensor(27648)         -> Level_Display(625);
  Level_Sensor(27648)         -> Level_Display(812) -> Inlet_Valve(FALSE) STEPS <= 43;
  Level_Sensor(27648)         -> Level_Display(1000) -> Alarm_Lamps(FALSE, TRUE, FALSE);
  EXPECT Level.Control.VALVE_OPEN = FALSE;
  EXPECT QUEUE Level = 0;
END_SEQUENCE

(* Without a sound level the valve is closed, and it opens again with the next sound one. *)
SEQUENCE a_broken_wire
  Enable_Switch(TRUE)         -> ;
  Level_Sensor(6912)          -> Level_Display(250) -> Inlet_Valve(TRUE);
  Level_Sensor(-600)          -> Inlet_Valve(FALSE) -> Alarm_Lamps(FALSE, FALSE, TRUE);
  Level_Sensor(30000)         -> ;
  Level_Sensor(6912)          -> Level_Display(250) -> Inlet_Valve(TRUE) -> Alarm_Lamps(FALSE, FALSE, FALSE);
END_SEQUENCE

(* Switched off, it closes the valve at once, and does not fill however empty it is. *)
SEQUENCE switched_off
  Enable_Switch(TRUE)         -> ;
  Level_Sensor(6912)          -> Level_Display(250) -> Inlet_Valve(TRUE);
  Enable_Switch(FALSE)        -> Inlet_Valve(FALSE);
  Level_Sensor(0)             -> Level_Display(187);
  Level_Sensor(0)             -> Level_Display(125);
  Level_Sensor(0)             -> Level_Display(62) -> Alarm_Lamps(TRUE, FALSE, FALSE);
END_SEQUENCE

(* Limits that make no sense are refused, and the last ones stay. *)
SEQUENCE limits_of_the_operator
  Limit_Panel(800, 200)       -> Limit_Display(FALSE, 300, 700);
  Limit_Panel(400, 600)       -> Limit_Display(TRUE, 400, 600);
  Limit_Panel(0, 600)         -> Limit_Display(FALSE, 400, 600) STEPS <= 8;
  Enable_Switch(TRUE)         -> ;
  Level_Sensor(9677)          -> Level_Display(350) -> Inlet_Valve(TRUE);
END_SEQUENCE

(* The queue has room for one reading: a second one that comes with it is not admitted. *)
SEQUENCE one_reading_at_a_time
  TOGETHER Level_Sensor(6912), Level_Sensor(27648) -> Level_Display(250) -> DENIED 53;
END_SEQUENCE
