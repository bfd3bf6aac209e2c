(* The timers, each alone. *)

SEQUENCE ton_waits FOR BLOCK TON
  REQ(FALSE, T#10ms) -> CNF(FALSE);
  AFTER T#1h         -> ;
  REQ(TRUE, T#10ms)  -> CNF(FALSE);
  AFTER T#9ms        -> ;
  AFTER T#1ms        -> CNF(TRUE);
  AFTER T#1h         -> ;
  REQ(TRUE, T#10ms)  -> CNF(TRUE);
  AFTER T#1h         -> ;
  REQ(FALSE, T#10ms) -> CNF(FALSE);
  AFTER T#1h         -> ;
  REQ(TRUE, T#10ms)  -> CNF(FALSE);
  AFTER T#9ms        -> ;
  AFTER T#1ms        -> CNF(TRUE);
END_SEQUENCE

SEQUENCE ton_waits_anew_after_a_short_fall FOR BLOCK TON
  REQ(TRUE, T#10ms)  -> CNF(FALSE);
  AFTER T#9ms        -> ;
  REQ(FALSE, T#10ms) -> CNF(FALSE);
  EXPECT Control IN Idle;
  AFTER T#1h         -> ;
  REQ(TRUE, T#10ms)  -> CNF(FALSE);
  AFTER T#9ms        -> ;
  REQ(FALSE, T#10ms) -> CNF(FALSE);
  REQ(TRUE, T#10ms)  -> CNF(FALSE);
  AFTER T#9ms        -> ;
  AFTER T#1ms        -> CNF(TRUE);
END_SEQUENCE

(* PT is that of the rising edge. *)
SEQUENCE ton_asked_again_goes_on FOR BLOCK TON
  REQ(TRUE, T#10ms)  -> CNF(FALSE);
  AFTER T#5ms        -> ;
  REQ(TRUE, T#20ms)  -> CNF(FALSE);
  AFTER T#4ms        -> ;
  REQ(TRUE, T#0ms)   -> CNF(FALSE);
  AFTER T#1ms        -> CNF(TRUE);
  REQ(FALSE, T#10ms) -> CNF(FALSE);
  REQ(TRUE, T#20ms)  -> CNF(FALSE);
  REQ(TRUE, T#10ms)  -> CNF(FALSE);
  AFTER T#19ms       -> ;
  AFTER T#1ms        -> CNF(TRUE);
  REQ(FALSE, T#10ms) -> CNF(FALSE);
  REQ(TRUE, T#10ms)  -> CNF(FALSE);
  REQ(TRUE, T#10ms)  -> CNF(FALSE);
  REQ(FALSE, T#10ms) -> CNF(FALSE);
  AFTER T#1h         -> ;
END_SEQUENCE

SEQUENCE ton_of_no_time FOR BLOCK TON
  REQ(TRUE, T#0ms)   -> CNF(TRUE);
  REQ(FALSE, T#0ms)  -> CNF(FALSE);
  REQ(TRUE, T#-1ms)  -> CNF(TRUE);
  REQ(FALSE, T#0ms)  -> CNF(FALSE);
  REQ(TRUE, T#0ms)   -> CNF(TRUE);
  REQ(FALSE, T#0ms)  -> CNF(FALSE);
  AFTER T#1h         -> ;
  REQ(TRUE, T#1ms)   -> CNF(FALSE);
  AFTER T#1ms        -> CNF(TRUE);
END_SEQUENCE

(* Two REQ at once both bring the value that came last. *)
SEQUENCE ton_asked_twice_at_once FOR BLOCK TON
  TOGETHER REQ(FALSE, T#5ms), REQ(TRUE, T#10ms)  -> CNF(FALSE) -> CNF(FALSE);
  AFTER T#9ms                                    -> ;
  TOGETHER REQ(FALSE, T#5ms), REQ(TRUE, T#5ms)   -> CNF(FALSE) -> CNF(FALSE);
  AFTER T#1ms                                    -> CNF(TRUE);
  TOGETHER REQ(TRUE, T#5ms), REQ(FALSE, T#5ms)   -> CNF(FALSE) -> CNF(FALSE);
  REQ(TRUE, T#10ms)                              -> CNF(FALSE);
  AFTER T#9ms                                    -> ;
  TOGETHER REQ(TRUE, T#5ms), REQ(FALSE, T#5ms)   -> CNF(FALSE) -> CNF(FALSE);
  EXPECT Control IN Idle;
  AFTER T#1h                                     -> ;
END_SEQUENCE

SEQUENCE ton_waits_for_days FOR BLOCK TON
  REQ(TRUE, T#40d)   -> CNF(FALSE);
  AFTER T#39d        -> ;
  AFTER T#1d         -> CNF(TRUE);
END_SEQUENCE

SEQUENCE tof_holds FOR BLOCK TOF
  REQ(FALSE, T#10ms) -> CNF(FALSE);
  REQ(TRUE, T#10ms)  -> CNF(TRUE);
  AFTER T#1h         -> ;
  REQ(TRUE, T#10ms)  -> CNF(TRUE);
  AFTER T#1h         -> ;
  REQ(FALSE, T#10ms) -> CNF(TRUE);
  AFTER T#9ms        -> ;
  AFTER T#1ms        -> CNF(FALSE);
  AFTER T#1h         -> ;
  REQ(FALSE, T#10ms) -> CNF(FALSE);
  AFTER T#1h         -> ;
  REQ(TRUE, T#10ms)  -> CNF(TRUE);
  REQ(FALSE, T#20ms) -> CNF(TRUE);
  AFTER T#19ms       -> ;
  AFTER T#1ms        -> CNF(FALSE);
END_SEQUENCE

SEQUENCE tof_holds_anew_after_a_short_rise FOR BLOCK TOF
  REQ(TRUE, T#10ms)  -> CNF(TRUE);
  REQ(FALSE, T#10ms) -> CNF(TRUE);
  AFTER T#9ms        -> ;
  REQ(TRUE, T#10ms)  -> CNF(TRUE);
  EXPECT Control IN Holds;
  AFTER T#1h         -> ;
  REQ(TRUE, T#10ms)  -> CNF(TRUE);
  AFTER T#1h         -> ;
  REQ(FALSE, T#10ms) -> CNF(TRUE);
  AFTER T#9ms        -> ;
  REQ(TRUE, T#10ms)  -> CNF(TRUE);
  REQ(TRUE, T#10ms)  -> CNF(TRUE);
  REQ(FALSE, T#10ms) -> CNF(TRUE);
  AFTER T#9ms        -> ;
  AFTER T#1ms        -> CNF(FALSE);
END_SEQUENCE

(* PT is that of the falling edge. *)
SEQUENCE tof_asked_again_goes_on FOR BLOCK TOF
  REQ(TRUE, T#10ms)  -> CNF(TRUE);
  REQ(FALSE, T#10ms) -> CNF(TRUE);
  AFTER T#5ms        -> ;
  REQ(FALSE, T#20ms) -> CNF(TRUE);
  AFTER T#4ms        -> ;
  REQ(FALSE, T#0ms)  -> CNF(TRUE);
  AFTER T#1ms        -> CNF(FALSE);
  REQ(TRUE, T#10ms)  -> CNF(TRUE);
  REQ(FALSE, T#10ms) -> CNF(TRUE);
  REQ(FALSE, T#10ms) -> CNF(TRUE);
  REQ(TRUE, T#10ms)  -> CNF(TRUE);
  AFTER T#1h         -> ;
END_SEQUENCE

SEQUENCE tof_of_no_time FOR BLOCK TOF
  REQ(TRUE, T#0ms)   -> CNF(TRUE);
  REQ(FALSE, T#0ms)  -> CNF(FALSE);
  REQ(TRUE, T#10ms)  -> CNF(TRUE);
  REQ(FALSE, T#-1ms) -> CNF(FALSE);
  REQ(TRUE, T#10ms)  -> CNF(TRUE);
  REQ(FALSE, T#1ms)  -> CNF(TRUE);
  REQ(TRUE, T#1ms)   -> CNF(TRUE);
  EXPECT Control IN Holds;
  REQ(FALSE, T#0ms)  -> CNF(FALSE);
  AFTER T#1h         -> ;
  REQ(TRUE, T#0ms)   -> CNF(TRUE);
  REQ(FALSE, T#1ms)  -> CNF(TRUE);
  AFTER T#1ms        -> CNF(FALSE);
END_SEQUENCE

SEQUENCE tof_asked_twice_at_once FOR BLOCK TOF
  TOGETHER REQ(FALSE, T#10ms), REQ(TRUE, T#10ms) -> CNF(TRUE) -> CNF(TRUE);
  TOGETHER REQ(TRUE, T#5ms), REQ(FALSE, T#10ms)  -> CNF(TRUE) -> CNF(TRUE);
  AFTER T#9ms                                    -> ;
  TOGETHER REQ(FALSE, T#5ms), REQ(TRUE, T#5ms)   -> CNF(TRUE) -> CNF(TRUE);
  EXPECT Control IN Holds;
  AFTER T#1h                                     -> ;
  TOGETHER REQ(TRUE, T#5ms), REQ(FALSE, T#10ms)  -> CNF(TRUE) -> CNF(TRUE);
  AFTER T#9ms                                    -> ;
  AFTER T#1ms                                    -> CNF(FALSE);
END_SEQUENCE

SEQUENCE tp_gives_one_pulse FOR BLOCK TP
  REQ(FALSE, T#10ms) -> CNF(FALSE);
  AFTER T#1h         -> ;
  REQ(TRUE, T#10ms)  -> CNF(TRUE);
  AFTER T#9ms        -> ;
  AFTER T#1ms        -> CNF(FALSE);
  AFTER T#1h         -> ;
  REQ(TRUE, T#10ms)  -> CNF(FALSE);
  REQ(TRUE, T#10ms)  -> CNF(FALSE);
  AFTER T#1h         -> ;
  REQ(FALSE, T#10ms) -> CNF(FALSE);
  AFTER T#1h         -> ;
  REQ(TRUE, T#20ms)  -> CNF(TRUE);
  AFTER T#19ms       -> ;
  AFTER T#1ms        -> CNF(FALSE);
END_SEQUENCE

(* Neither the fall of IN, nor another edge, nor another PT changes a pulse. *)
SEQUENCE tp_is_not_disturbed FOR BLOCK TP
  REQ(TRUE, T#10ms)  -> CNF(TRUE);
  AFTER T#2ms        -> ;
  REQ(FALSE, T#10ms) -> CNF(TRUE);
  AFTER T#2ms        -> ;
  REQ(TRUE, T#50ms)  -> CNF(TRUE);
  AFTER T#2ms        -> ;
  REQ(FALSE, T#0ms)  -> CNF(TRUE);
  AFTER T#3ms        -> ;
  AFTER T#1ms        -> CNF(FALSE);
  REQ(TRUE, T#10ms)  -> CNF(TRUE);
  REQ(FALSE, T#10ms) -> CNF(TRUE);
  REQ(TRUE, T#10ms)  -> CNF(TRUE);
  AFTER T#10ms       -> CNF(FALSE);
  REQ(TRUE, T#10ms)  -> CNF(FALSE);
  REQ(FALSE, T#10ms) -> CNF(FALSE);
  REQ(FALSE, T#10ms) -> CNF(FALSE);
  REQ(TRUE, T#10ms)  -> CNF(TRUE);
END_SEQUENCE

SEQUENCE tp_of_no_time FOR BLOCK TP
  REQ(TRUE, T#0ms)   -> CNF(FALSE);
  AFTER T#1h         -> ;
  REQ(TRUE, T#10ms)  -> CNF(FALSE);
  REQ(FALSE, T#10ms) -> CNF(FALSE);
  REQ(TRUE, T#-1ms)  -> CNF(FALSE);
  REQ(FALSE, T#10ms) -> CNF(FALSE);
  REQ(TRUE, T#0ms)   -> CNF(FALSE);
  REQ(TRUE, T#10ms)  -> CNF(FALSE);
  AFTER T#1h         -> ;
  REQ(FALSE, T#10ms) -> CNF(FALSE);
  REQ(TRUE, T#1ms)   -> CNF(TRUE);
  AFTER T#1ms        -> CNF(FALSE);
END_SEQUENCE

SEQUENCE tp_asked_twice_at_once FOR BLOCK TP
  TOGETHER REQ(FALSE, T#5ms), REQ(TRUE, T#10ms) -> CNF(TRUE) -> CNF(TRUE);
  AFTER T#9ms                                   -> ;
  TOGETHER REQ(TRUE, T#5ms), REQ(FALSE, T#5ms)  -> CNF(TRUE) -> CNF(TRUE);
  AFTER T#1ms                                   -> CNF(FALSE);
  AFTER T#1h                                    -> ;
END_SEQUENCE
