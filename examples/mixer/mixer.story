(* The mixer, seen from outside: a batch from the first valve to the empty kettle, and what stops it. *)

(* Two components, two turns of the stirrer, and the drain. *)
SEQUENCE a_batch
  Lid_Contact(TRUE)           -> ;
  Recipe_Panel(1, 100, 50, 2) -> Recipe_Lamp(TRUE);
  Start_Button(1)             -> Recipe_Lamp(TRUE) -> Drives(TRUE, FALSE, FALSE, FALSE) -> Phase_Display(1);
  Scale(60)                   -> ;
  Scale(100)                  -> Drives(FALSE, TRUE, FALSE, FALSE) -> Phase_Display(2) STEPS <= 18;
  Scale(150)                  -> Drives(FALSE, FALSE, TRUE, FALSE) -> Phase_Display(3);
  Stirrer_Sensor()            -> ;
  Stirrer_Sensor()            -> Drives(FALSE, FALSE, FALSE, TRUE) -> Phase_Display(4);
  Scale(3)                    -> Drives(FALSE, FALSE, FALSE, FALSE) -> Phase_Display(0) -> Batch_Display(1);
  EXPECT Control.Batch IN Idle;
END_SEQUENCE

(* An open lid stops everything; what was stopped is drained, and counts as no batch. *)
SEQUENCE the_lid_opens
  Lid_Contact(TRUE)           -> ;
  Recipe_Panel(2, 100, 0, 1)  -> Recipe_Lamp(TRUE);
  Start_Button(2)             -> Recipe_Lamp(TRUE) -> Drives(TRUE, FALSE, FALSE, FALSE) -> Phase_Display(1);
  Lid_Contact(FALSE)          -> Drives(FALSE, FALSE, FALSE, FALSE) -> Phase_Display(5);
  Scale(40)                   -> ;
  Drain_Button()              -> Drives(FALSE, FALSE, FALSE, TRUE) -> Phase_Display(4);
  Scale(0)                    -> Drives(FALSE, FALSE, FALSE, FALSE) -> Phase_Display(0);
  EXPECT Batches.CV = 0;
END_SEQUENCE

(* A scale that is broken while a valve is open. *)
SEQUENCE the_scale_breaks
  Lid_Contact(TRUE)           -> ;
  Recipe_Panel(2, 100, 0, 1)  -> Recipe_Lamp(TRUE);
  Start_Button(2)             -> Recipe_Lamp(TRUE) -> Drives(TRUE, FALSE, FALSE, FALSE) -> Phase_Display(1);
  Scale(-21)                  -> Drives(FALSE, FALSE, FALSE, FALSE) -> Phase_Display(5);
END_SEQUENCE

(* Recipes that make no sense are refused, and the lamp says so. *)
SEQUENCE recipes_that_make_no_sense
  Recipe_Panel(6, 100, 50, 2) -> Recipe_Lamp(FALSE);
  Recipe_Panel(1, 501, 50, 2) -> Recipe_Lamp(FALSE);
  Recipe_Panel(1, 100, 50, 0) -> Recipe_Lamp(FALSE);
  Lid_Contact(TRUE)           -> ;
  Start_Button(1)             -> Recipe_Lamp(FALSE);
  Start_Button(99)            -> Recipe_Lamp(FALSE);
  EXPECT Book.OF_A[1] = 0;
END_SEQUENCE

(* With an open lid a good recipe does not start. *)
SEQUENCE it_does_not_start_open
  Recipe_Panel(1, 100, 50, 2) -> Recipe_Lamp(TRUE);
  Start_Button(1)             -> Recipe_Lamp(TRUE);
  EXPECT Batch IN Idle;
END_SEQUENCE
