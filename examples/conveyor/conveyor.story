(* The conveyor, seen from outside: parcels, the jam timer and the reset. *)

(* A parcel comes onto the belt and leaves it in time. *)
SEQUENCE a_parcel_passes
  Start_Button()              -> Drive(TRUE, FALSE);
  Entry_Cell(TRUE)            -> ;
  Entry_Cell(FALSE)           -> Parcel_Display(1) -> Drive(TRUE, FALSE);
  AFTER T#5s                  -> ;
  Exit_Cell(TRUE)             -> ;
  Exit_Cell(FALSE)            -> Parcel_Display(0) -> Drive(TRUE, FALSE) STEPS <= 15;
  AFTER T#1h                  -> ;
  Stop_Button()               -> Drive(FALSE, FALSE);
END_SEQUENCE

(* Nothing leaves for eight seconds. The reset waits for a free exit, and leads to standstill. *)
SEQUENCE a_jam
  Start_Button()              -> Drive(TRUE, FALSE);
  Entry_Cell(TRUE)            -> ;
  Entry_Cell(FALSE)           -> Parcel_Display(1) -> Drive(TRUE, FALSE);
  AFTER T#7s999ms             -> ;
  AFTER T#1ms                 -> Drive(FALSE, TRUE) STEPS <= 7;
  Exit_Cell(TRUE)             -> ;
  Reset_Button()              -> ;
  Exit_Cell(FALSE)            -> Parcel_Display(0);
  Reset_Button()              -> Drive(FALSE, FALSE) -> Parcel_Display(0);
  EXPECT Belt.Control IN Stopped;
END_SEQUENCE

(* With each parcel that leaves the eight seconds begin anew. *)
SEQUENCE the_timer_begins_anew
  Start_Button()              -> Drive(TRUE, FALSE);
  Entry_Cell(TRUE)            -> ;
  Entry_Cell(FALSE)           -> Parcel_Display(1) -> Drive(TRUE, FALSE);
  Entry_Cell(TRUE)            -> ;
  Entry_Cell(FALSE)           -> Parcel_Display(2);
  AFTER T#6s                  -> ;
  Exit_Cell(TRUE)             -> ;
  Exit_Cell(FALSE)            -> Parcel_Display(1) -> Drive(TRUE, FALSE);
  AFTER T#6s                  -> ;
  AFTER T#2s                  -> Drive(FALSE, TRUE);
END_SEQUENCE

(* A belt that stands still has no jam. *)
SEQUENCE stopped_in_time
  Start_Button()              -> Drive(TRUE, FALSE);
  Entry_Cell(TRUE)            -> ;
  Entry_Cell(FALSE)           -> Parcel_Display(1) -> Drive(TRUE, FALSE);
  AFTER T#7s                  -> ;
  Stop_Button()               -> Drive(FALSE, FALSE);
  AFTER T#1h                  -> ;
  Start_Button()              -> Drive(TRUE, FALSE);
  AFTER T#8s                  -> Drive(FALSE, TRUE);
END_SEQUENCE
