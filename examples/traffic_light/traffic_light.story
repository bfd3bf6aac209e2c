(* The crossing, seen from outside. Signals are red, amber and green of the cars, red and green of the walkers. *)

(* From darkness to green for the cars, and then for a walker. *)
SEQUENCE a_walker_crosses
  Main_Switch(TRUE)           -> Signals(TRUE, FALSE, FALSE, TRUE, FALSE);
  Clock()                     -> Signals(TRUE, TRUE, FALSE, TRUE, FALSE);
  Clock()                     -> Signals(FALSE, FALSE, TRUE, TRUE, FALSE);
  Clock()                     -> ;
  Clock()                     -> ;
  Clock()                     -> Signals(FALSE, FALSE, TRUE, TRUE, FALSE);
  Clock()                     -> ;
  Button()                    -> Please_Wait(TRUE) -> Signals(FALSE, TRUE, FALSE, TRUE, FALSE);
  Clock()                     -> Signals(TRUE, FALSE, FALSE, TRUE, FALSE);
  Clock()                     -> Signals(TRUE, FALSE, FALSE, FALSE, TRUE) -> Please_Wait(FALSE) STEPS <= 51;
  Clock()                     -> ;
  Clock()                     -> Signals(TRUE, FALSE, FALSE, TRUE, FALSE);
END_SEQUENCE

(* A press in the green of the cars is remembered until that has lasted long enough. *)
SEQUENCE an_early_press
  Main_Switch(TRUE)           -> ..;
  Clock()                     -> ..;
  Clock()                     -> Signals(FALSE, FALSE, TRUE, TRUE, FALSE);
  Button()                    -> Please_Wait(TRUE);
  Button()                    -> ;
  Clock()                     -> ;
  Clock()                     -> ;
  Clock()                     -> Signals(FALSE, TRUE, FALSE, TRUE, FALSE);
END_SEQUENCE

(* Switched off, the cars have amber alone, and the clock changes nothing. *)
SEQUENCE switched_off
  Main_Switch(TRUE)           -> Signals(TRUE, FALSE, FALSE, TRUE, FALSE);
  Clock()                     -> Signals(TRUE, TRUE, FALSE, TRUE, FALSE);
  Main_Switch(FALSE)          -> Signals(FALSE, TRUE, FALSE, FALSE, FALSE);
  Clock()                     -> ;
  Clock()                     -> ;
  EXPECT Lights.Phases IN Out_Of_Service;
END_SEQUENCE

(* A beat holds the whole queue of the lights; cars are counted in a queue of their own. *)
SEQUENCE cars_do_not_wait_for_lights
  Main_Switch(TRUE)           -> ..;
  TOGETHER Clock(), Loop_In_Road() -> Signals(TRUE, TRUE, FALSE, TRUE, FALSE) -> Traffic(1, FALSE);
  TOGETHER Clock(), Button()  -> Signals(FALSE, FALSE, TRUE, TRUE, FALSE) -> DENIED 53;
  Loop_In_Road()              -> Traffic(2, FALSE);
  New_Hour()                  -> Traffic(0, FALSE);
END_SEQUENCE
