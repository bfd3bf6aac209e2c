(* The drive alone. Three of its events carry Parcels. *)
SEQUENCE a_jam_is_reset_once_the_exit_is_free FOR BLOCK CONVEYOR
  Start(Parcels := 0)  -> Changed(TRUE, FALSE) -> Stop_Timer();
  Entered(1)           -> Changed(TRUE, FALSE) -> Stop_Timer() -> Start_Timer() STEPS <= 8;
  Left(1)              -> Changed(TRUE, FALSE) -> Stop_Timer() -> Start_Timer();
  Time_Over()          -> Changed(FALSE, TRUE);
  Start(0)             -> ;
  Reset(TRUE)          -> ;
  Reset(FALSE)         -> Cleared() -> Changed(FALSE, FALSE) -> Stop_Timer();
  EXPECT IN Stopped;
END_SEQUENCE
