(* The block types of the tank, each alone: its events are what comes, and its event outputs what is seen. *)

(* A pair of limits that makes no sense is refused, and the last good one stays. *)
SEQUENCE a_pair_is_refused FOR BLOCK LIMITS
  Set(400, 600)                                    -> Answered(TRUE, 400, 600);
  Set(High_Wanted := 300, Low_Wanted := 600)       -> Answered(FALSE, 400, 600) STEPS <= 6;
  EXPECT Low = 400;
  EXPECT IN Idle;
END_SEQUENCE

(* The valve opens below Low, closes from High on, and stays as it is between them. *)
SEQUENCE opens_and_closes FOR BLOCK HYSTERESIS
  Measured(Level := 299, Low := 300, High := 700)  -> ;
  Switched(TRUE)                                   -> ;
  Measured(300, 300, 700)                          -> ;
  Measured(299, 300, 700)                          -> Changed(TRUE);
  Measured(699, 300, 700)                          -> ;
  EXPECT IN Opened;
  Measured(700, 300, 700)                          -> Changed(FALSE);
  Broken()                                         -> ;
END_SEQUENCE

(* A composite: the blocks within it are named without it. *)
SEQUENCE the_first_level_stands_for_four FOR BLOCK MEASUREMENT
  Sample(6912)                                     -> Measured(250);
  Sample(27648)                                    -> Measured(437);
  Sample(-600)                                     -> Broken();
  EXPECT Smoothing.Place = 2;
  EXPECT Smoothing.Last[1] = 1000;
  EXPECT Scaling IN Idle;
END_SEQUENCE
