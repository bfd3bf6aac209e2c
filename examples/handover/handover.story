(* Two cells that hand over parts, seen from outside, over a network that loses, repeats and reorders datagrams. *)

(* An offer, the gripper, an answer, and the table is free again. *)
SEQUENCE a_part_is_handed_over
  Robot.Table_Sensor(TRUE)    -> Robot.Table(FALSE, 1) -> Machine.Gripper(TRUE) STEPS <= 78;
  Machine.Gripper_Contact()   -> ;
  EXPECT Robot.Giver IN Answered;
  AFTER T#2s                  -> ;
  Robot.Table_Sensor(FALSE)   -> Robot.Table(TRUE, 1);
  Machine.Work_Done()         -> Machine.Gripper(FALSE);
  Robot.Table_Sensor(TRUE)    -> Robot.Table(FALSE, 2) -> Machine.Gripper(TRUE);
END_SEQUENCE

(* The robot repeats its offer after half a second. *)
SEQUENCE a_lost_offer
  LOSE NEXT;
  Robot.Table_Sensor(TRUE)    -> Robot.Table(FALSE, 1);
  AFTER T#499ms               -> ;
  AFTER T#1ms                 -> Machine.Gripper(TRUE);
END_SEQUENCE

(* The machine answers a repeated offer again, and moves nothing. *)
SEQUENCE a_lost_answer
  Robot.Table_Sensor(TRUE)    -> Robot.Table(FALSE, 1) -> Machine.Gripper(TRUE);
  LOSE NEXT;
  Machine.Gripper_Contact()   -> ;
  EXPECT Robot.Giver IN Offers;
  AFTER T#500ms               -> ;
  EXPECT Robot.Giver IN Answered;
END_SEQUENCE

(* An offer that comes twice closes the gripper once. *)
SEQUENCE an_offer_twice
  TWICE NEXT;
  Robot.Table_Sensor(TRUE)    -> Robot.Table(FALSE, 1) -> Machine.Gripper(TRUE);
END_SEQUENCE

(* The first offer comes after the second one, when the gripper is closed already. *)
SEQUENCE a_late_offer
  HOLD NEXT;
  Robot.Table_Sensor(TRUE)    -> Robot.Table(FALSE, 1);
  AFTER T#500ms               -> Machine.Gripper(TRUE);
  EXPECT Machine.Taker IN Grips;
END_SEQUENCE

(* However long the network is down, the part is handed over when it is up again. *)
SEQUENCE the_network_is_down
  DROP ALL FROM Robot;
  Robot.Table_Sensor(TRUE)    -> Robot.Table(FALSE, 1);
  AFTER T#1h                  -> ;
  HEAL;
  AFTER T#500ms               -> Machine.Gripper(TRUE);
END_SEQUENCE

(* The part is taken from the table by hand: the sensor has the last word. *)
SEQUENCE a_part_disappears
  DROP ALL FROM Machine;
  Robot.Table_Sensor(TRUE)    -> Robot.Table(FALSE, 1) -> Machine.Gripper(TRUE);
  Robot.Table_Sensor(FALSE)   -> ;
  Machine.Gripper_Contact()   -> ;
  HEAL;
  AFTER T#500ms               -> Robot.Table(TRUE, 1);
END_SEQUENCE
