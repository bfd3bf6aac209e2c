(* The lift, seen from outside: calls, floors, the door, and the emergency switch. *)

(* From rest to the third floor, past the second. *)
SEQUENCE serves_a_call
  Door_Contact(TRUE)          -> ;
  Call_Buttons(3)             -> Call_Lamps(FALSE, FALSE, TRUE, FALSE) -> Drives(TRUE, FALSE, FALSE, FALSE);
  Floor_Sensors(2)            -> Floor_Display(2);
  Floor_Sensors(3)            -> Floor_Display(3) -> Drives(FALSE, FALSE, TRUE, FALSE)
                              -> Call_Lamps(FALSE, FALSE, FALSE, FALSE) STEPS <= 58;
  Door_Contact(FALSE)         -> ;
  Door_Relay()                -> Drives(FALSE, FALSE, FALSE, TRUE);
  Door_Contact(TRUE)          -> Drives(FALSE, FALSE, FALSE, FALSE);
  EXPECT Cabin.Control IN Rests;
END_SEQUENCE

(* While somebody waits above it goes on upwards, and then comes back. *)
SEQUENCE goes_on_in_its_direction
  Door_Contact(TRUE)          -> ;
  Call_Buttons(2)             -> Call_Lamps(FALSE, TRUE, FALSE, FALSE) -> Drives(TRUE, FALSE, FALSE, FALSE);
  Call_Buttons(4)             -> Call_Lamps(FALSE, TRUE, FALSE, TRUE);
  Call_Buttons(1)             -> Call_Lamps(TRUE, TRUE, FALSE, TRUE);
  Floor_Sensors(2)            -> Floor_Display(2) -> Drives(FALSE, FALSE, TRUE, FALSE) -> Call_Lamps(TRUE, FALSE, FALSE, TRUE);
  Door_Relay()                -> Drives(FALSE, FALSE, FALSE, TRUE);
  Door_Contact(TRUE)          -> Drives(TRUE, FALSE, FALSE, FALSE);
END_SEQUENCE

(* It halts between two floors, and seeks the next one before it opens. *)
SEQUENCE an_emergency
  Door_Contact(TRUE)          -> ;
  Call_Buttons(3)             -> Call_Lamps(FALSE, FALSE, TRUE, FALSE) -> Drives(TRUE, FALSE, FALSE, FALSE);
  Emergency_Switch(TRUE)      -> Drives(FALSE, FALSE, FALSE, FALSE) STEPS <= 9;
  Call_Buttons(4)             -> Call_Lamps(FALSE, FALSE, TRUE, TRUE);
  Emergency_Switch(FALSE)     -> Drives(TRUE, FALSE, FALSE, FALSE);
  EXPECT Cabin.Control IN Seeks_Up;
  Floor_Sensors(2)            -> Floor_Display(2) -> Drives(FALSE, FALSE, TRUE, FALSE) -> Call_Lamps(FALSE, FALSE, TRUE, TRUE);
END_SEQUENCE

(* The door contact opens on the way. *)
SEQUENCE the_door_opens_on_the_way
  Door_Contact(TRUE)          -> ;
  Call_Buttons(2)             -> Call_Lamps(FALSE, TRUE, FALSE, FALSE) -> Drives(TRUE, FALSE, FALSE, FALSE);
  Door_Contact(FALSE)         -> Drives(FALSE, FALSE, FALSE, FALSE);
  EXPECT Cabin.Control IN Halted;
END_SEQUENCE

(* There are four floors, whatever buttons and sensors say. *)
SEQUENCE floors_that_are_not_there
  Call_Buttons(7)             -> ;
  Call_Buttons(0)             -> ;
  Floor_Sensors(-1)           -> ;
  EXPECT Calls.FLOOR = 1;
END_SEQUENCE

(* A floor sensor holds all three places: an emergency beside it has to be offered again. *)
SEQUENCE an_emergency_beside_a_floor
  Door_Contact(TRUE)          -> ;
  Call_Buttons(3)             -> ..;
  TOGETHER Floor_Sensors(2), Emergency_Switch(TRUE) -> Floor_Display(2) -> DENIED 53;
  Emergency_Switch(TRUE)      -> Drives(FALSE, FALSE, FALSE, FALSE);
END_SEQUENCE
