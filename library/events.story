(* The event blocks, each alone: its event inputs are what comes, and its event outputs what is seen. *)

SEQUENCE rend_needs_both_in_either_order FOR BLOCK E_REND
  EI1() -> ;
  EXPECT IN First;
  EI2() -> EO() STEPS <= 4;
  EI2() -> ;
  EXPECT IN Second;
  EI1() -> EO();
  EXPECT IN Both;
END_SEQUENCE

SEQUENCE rend_counts_one_event_once FOR BLOCK E_REND
  EI1() -> ;
  EI1() -> ;
  EI1() -> ;
  EI2() -> EO();
  EI2() -> ;
  EI2() -> ;
  EXPECT IN Second;
  EI1() -> EO();
  EI1() -> ;
  EXPECT IN First;
END_SEQUENCE

SEQUENCE rend_forgets_by_r FOR BLOCK E_REND
  R() -> ;
  EXPECT IN Start;
  EI1() -> ;
  R() -> ;
  EI2() -> ;
  R() -> ;
  EI1() -> ;
  EXPECT IN First;
  EI2() -> EO();
  R() -> ;
  EI1() -> ;
  EI2() -> EO();
END_SEQUENCE

SEQUENCE rend_with_events_at_once FOR BLOCK E_REND
  TOGETHER EI1(), EI2() -> EO();
  TOGETHER EI2(), EI1() -> EO();
  TOGETHER EI1(), R(), EI2() -> ;
  EXPECT IN Second;
  R() -> ;
  TOGETHER EI1(), EI1(), EI2(), EI2() -> EO();
  EXPECT IN Second;
  TOGETHER R(), EI1() -> ;
  EXPECT IN First;
END_SEQUENCE

SEQUENCE rs_says_only_changes FOR BLOCK E_RS
  R() -> ;
  EXPECT Q = FALSE;
  S() -> EO(TRUE) STEPS <= 5;
  S() -> ;
  EXPECT Q = TRUE;
  R() -> EO(FALSE);
  R() -> ;
  S() -> EO(TRUE);
END_SEQUENCE

SEQUENCE rs_takes_them_in_their_order FOR BLOCK E_RS
  TOGETHER R(), S() -> EO(TRUE);
  TOGETHER R(), R() -> EO(FALSE);
  TOGETHER S(), S() -> EO(TRUE);
  TOGETHER R(), S(), R() -> EO(FALSE) -> EO(FALSE) -> EO(FALSE);
  EXPECT IN Reset;
END_SEQUENCE

SEQUENCE d_ff_takes_over_at_clk FOR BLOCK E_D_FF
  CLK(FALSE) -> ;
  EXPECT IN Start;
  CLK(TRUE)  -> EO(TRUE) STEPS <= 5;
  CLK(TRUE)  -> ;
  CLK(FALSE) -> EO(FALSE);
  CLK(FALSE) -> ;
  EXPECT IN Reset;
  CLK(TRUE)  -> EO(TRUE);
  EXPECT Q = TRUE;
END_SEQUENCE

(* Both see the value that came last. *)
SEQUENCE d_ff_with_events_at_once FOR BLOCK E_D_FF
  TOGETHER CLK(FALSE), CLK(TRUE) -> EO(TRUE);
  TOGETHER CLK(TRUE), CLK(FALSE) -> EO(FALSE);
END_SEQUENCE

SEQUENCE r_trig_finds_rising_edges FOR BLOCK E_R_TRIG
  EI(FALSE) -> ;
  EI(TRUE)  -> EO() STEPS <= 4;
  EI(TRUE)  -> ;
  EI(FALSE) -> ;
  EI(FALSE) -> ;
  EI(TRUE)  -> EO();
END_SEQUENCE

SEQUENCE r_trig_takes_a_first_true_as_an_edge FOR BLOCK E_R_TRIG
  EI(TRUE) -> EO();
  TOGETHER EI(FALSE), EI(TRUE) -> ;
  EXPECT IN High;
END_SEQUENCE

SEQUENCE f_trig_finds_falling_edges FOR BLOCK E_F_TRIG
  EI(TRUE)  -> ;
  EI(TRUE)  -> ;
  EI(FALSE) -> EO() STEPS <= 4;
  EI(FALSE) -> ;
  EI(FALSE) -> ;
  EI(TRUE)  -> ;
  EI(FALSE) -> EO();
END_SEQUENCE

SEQUENCE f_trig_takes_a_first_false_as_none FOR BLOCK E_F_TRIG
  EI(FALSE) -> ;
  EI(FALSE) -> ;
  EXPECT IN Start;
  EI(TRUE)  -> ;
  EI(FALSE) -> EO();
END_SEQUENCE

SEQUENCE demux_leads_to_one_of_four FOR BLOCK E_DEMUX
  EI(0) -> EO0() STEPS <= 5;
  EI(1) -> EO1();
  EI(2) -> EO2();
  EI(3) -> EO3();
  EI(4) -> ;
  EI(65535) -> ;
  EXPECT IN Start;
  EI(0) -> EO0();
END_SEQUENCE

SEQUENCE rdelay_waits FOR BLOCK E_RDELAY
  START(T#10ms) -> ;
  AFTER T#9ms   -> ;
  AFTER T#1ms   -> EO();
  AFTER T#1h    -> ;
  START(T#10ms) -> ;
  AFTER T#10ms  -> EO();
END_SEQUENCE

SEQUENCE rdelay_begins_anew FOR BLOCK E_RDELAY
  START(T#10ms) -> ;
  AFTER T#9ms   -> ;
  START(T#10ms) -> ;
  AFTER T#9ms   -> ;
  START(T#3ms)  -> ;
  AFTER T#2ms   -> ;
  AFTER T#1ms   -> EO();
  AFTER T#1h    -> ;
END_SEQUENCE

SEQUENCE rdelay_stops FOR BLOCK E_RDELAY
  STOP()        -> ;
  START(T#10ms) -> ;
  AFTER T#9ms   -> ;
  STOP()        -> ;
  AFTER T#1h    -> ;
  START(T#10ms) -> ;
  AFTER T#10ms  -> EO();
END_SEQUENCE

SEQUENCE rdelay_with_events_at_once FOR BLOCK E_RDELAY
  TOGETHER START(T#10ms), STOP() -> ;
  AFTER T#1h                     -> ;
  TOGETHER STOP(), START(T#10ms) -> ;
  AFTER T#9ms                    -> ;
  AFTER T#1ms                    -> EO();
  TOGETHER START(T#10ms), START(T#20ms) -> ;
  AFTER T#19ms                   -> ;
  AFTER T#1ms                    -> EO();
END_SEQUENCE

(* The next moment is the first at which a timer can fire. *)
SEQUENCE rdelay_of_no_time FOR BLOCK E_RDELAY
  START(T#0ms)  -> ;
  AFTER T#1ms   -> EO();
  START(T#-5ms) -> ;
  AFTER T#1ms   -> EO();
  AFTER T#1h    -> ;
END_SEQUENCE

SEQUENCE train_of_three FOR BLOCK E_TRAIN
  START(T#10ms, 3)  -> ;
  AFTER T#9ms       -> ;
  AFTER T#1ms       -> EO(0);
  AFTER T#9ms       -> ;
  AFTER T#1ms       -> EO(1);
  AFTER T#10ms      -> EO(2);
  AFTER T#1h        -> ;
  EXPECT Control IN Idle;
  START(T#5ms, 2)   -> ;
  AFTER T#10ms      -> EO(0) -> EO(1);
  AFTER T#1h        -> ;
END_SEQUENCE

SEQUENCE train_of_one_and_of_none FOR BLOCK E_TRAIN
  START(T#10ms, 0)  -> ;
  AFTER T#1h        -> ;
  START(T#10ms, 1)  -> ;
  AFTER T#10ms      -> EO(0);
  AFTER T#1h        -> ;
END_SEQUENCE

SEQUENCE train_is_stopped FOR BLOCK E_TRAIN
  STOP()            -> ;
  START(T#10ms, 3)  -> ;
  AFTER T#10ms      -> EO(0);
  AFTER T#9ms       -> ;
  STOP()            -> ;
  EXPECT Control IN Idle;
  AFTER T#1h        -> ;
  START(T#10ms, 2)  -> ;
  AFTER T#9ms       -> ;
  AFTER T#1ms       -> EO(0);
  AFTER T#10ms      -> EO(1);
  AFTER T#1h        -> ;
END_SEQUENCE

(* The count begins anew, and the delay that runs goes on. *)
SEQUENCE train_is_started_while_it_runs FOR BLOCK E_TRAIN
  START(T#10ms, 3)  -> ;
  AFTER T#14ms      -> EO(0);
  START(T#100ms, 2) -> ;
  AFTER T#5ms       -> ;
  AFTER T#1ms       -> EO(0);
  AFTER T#99ms      -> ;
  AFTER T#1ms       -> EO(1);
  AFTER T#1h        -> ;
END_SEQUENCE

SEQUENCE train_of_none_ends_one_that_runs FOR BLOCK E_TRAIN
  START(T#10ms, 3)  -> ;
  AFTER T#10ms      -> EO(0);
  START(T#10ms, 0)  -> ;
  AFTER T#1h        -> ;
  EXPECT Control IN Idle;
  START(T#10ms, 3)  -> ;
  START(T#10ms, 1)  -> ;
  AFTER T#1h        -> EO(0);
END_SEQUENCE

(* A START behind a STOP waits until the delay is known to stand. *)
SEQUENCE train_with_events_at_once FOR BLOCK E_TRAIN
  START(T#10ms, 3)                            -> ;
  AFTER T#9ms                                 -> ;
  TOGETHER STOP(), START(T#10ms, 2)           -> ;
  AFTER T#9ms                                 -> ;
  AFTER T#1ms                                 -> EO(0);
  AFTER T#10ms                                -> EO(1);
  AFTER T#1h                                  -> ;
  TOGETHER START(T#10ms, 3), STOP()           -> ;
  AFTER T#1h                                  -> ;
  START(T#10ms, 3)                            -> ;
  TOGETHER STOP(), START(T#10ms, 1), STOP()   -> ;
  AFTER T#1h                                  -> ;
  EXPECT Control IN Idle;
  START(T#10ms, 1)                            -> ;
  TOGETHER STOP(), START(T#10ms, 1), START(T#20ms, 1) -> ;
  AFTER T#19ms                                -> ;
  AFTER T#1ms                                 -> EO(0);
  AFTER T#1h                                  -> ;
  START(T#10ms, 1)                            -> ;
  TOGETHER STOP(), START(T#10ms, 0)           -> ;
  EXPECT Control IN Idle;
  AFTER T#1h                                  -> ;
END_SEQUENCE

SEQUENCE train_counts_to_the_end_of_uint FOR BLOCK E_TRAIN
  START(T#1ms, 65535)                         -> ;
  AFTER T#65s_534ms;
  EXPECT Control.CV = 65533;
  AFTER T#1ms                                 -> EO(65534);
  AFTER T#1h                                  -> ;
END_SEQUENCE

SEQUENCE table_of_four FOR BLOCK E_TABLE
  START(T#10ms, T#20ms, T#5ms, T#40ms, 4)     -> ;
  AFTER T#9ms                                 -> ;
  AFTER T#1ms                                 -> EO(0);
  AFTER T#19ms                                -> ;
  AFTER T#1ms                                 -> EO(1);
  AFTER T#4ms                                 -> ;
  AFTER T#1ms                                 -> EO(2);
  AFTER T#39ms                                -> ;
  AFTER T#1ms                                 -> EO(3);
  AFTER T#1h                                  -> ;
  EXPECT Control IN Idle;
END_SEQUENCE

SEQUENCE table_of_fewer_and_of_more FOR BLOCK E_TABLE
  START(T#1ms, T#2ms, T#3ms, T#4ms, 0)        -> ;
  AFTER T#1h                                  -> ;
  START(T#1ms, T#2ms, T#3ms, T#4ms, 1)        -> ;
  AFTER T#1h                                  -> EO(0);
  START(T#1ms, T#2ms, T#3ms, T#4ms, 2)        -> ;
  AFTER T#1h                                  -> EO(0) -> EO(1);
  START(T#1ms, T#2ms, T#3ms, T#4ms, 3)        -> ;
  AFTER T#1h                                  -> EO(0) -> EO(1) -> EO(2);
  START(T#1ms, T#2ms, T#3ms, T#4ms, 5)        -> ;
  AFTER T#1h                                  -> EO(0) -> EO(1) -> EO(2) -> EO(3);
  START(T#1ms, T#2ms, T#3ms, T#4ms, 65535)    -> ;
  AFTER T#1h                                  -> EO(0) -> EO(1) -> EO(2) -> EO(3);
  START(T#1ms, T#2ms, T#3ms, T#4ms, 1)        -> ;
  AFTER T#1h                                  -> EO(0);
END_SEQUENCE

SEQUENCE table_of_none_ends_one_that_runs FOR BLOCK E_TABLE
  START(T#1ms, T#2ms, T#3ms, T#4ms, 4)        -> ;
  START(T#1ms, T#2ms, T#3ms, T#4ms, 0)        -> ;
  EXPECT Control IN Idle;
  AFTER T#1h                                  -> ;
  START(T#1ms, T#2ms, T#3ms, T#4ms, 4)        -> ;
  START(T#1ms, T#2ms, T#3ms, T#4ms, 1)        -> ;
  AFTER T#1h                                  -> EO(0);
END_SEQUENCE

SEQUENCE table_is_stopped_and_started FOR BLOCK E_TABLE
  START(T#10ms, T#20ms, T#30ms, T#40ms, 4)    -> ;
  AFTER T#15ms                                -> EO(0);
  STOP()                                      -> ;
  AFTER T#1h                                  -> ;
  START(T#10ms, T#20ms, T#30ms, T#40ms, 2)    -> ;
  AFTER T#9ms                                 -> ;
  AFTER T#1ms                                 -> EO(0);
  START(T#1ms, T#2ms, T#3ms, T#4ms, 2)        -> ;
  AFTER T#19ms                                -> ;
  AFTER T#1ms                                 -> EO(0);
  AFTER T#1ms                                 -> ;
  AFTER T#1ms                                 -> EO(1);
  AFTER T#1h                                  -> ;
  STOP()                                      -> ;
END_SEQUENCE

SEQUENCE table_with_events_at_once FOR BLOCK E_TABLE
  START(T#10ms, T#20ms, T#30ms, T#40ms, 4)                       -> ;
  TOGETHER STOP(), START(T#50ms, T#1ms, T#1ms, T#1ms, 1)         -> ;
  AFTER T#49ms                                                   -> ;
  AFTER T#1ms                                                    -> EO(0);
  TOGETHER START(T#50ms, T#1ms, T#1ms, T#1ms, 1), STOP()         -> ;
  AFTER T#1h                                                     -> ;
  START(T#10ms, T#20ms, T#30ms, T#40ms, 4)                       -> ;
  TOGETHER STOP(), START(T#50ms, T#1ms, T#1ms, T#1ms, 1), STOP() -> ;
  AFTER T#1h                                                     -> ;
  START(T#10ms, T#20ms, T#30ms, T#40ms, 4)                       -> ;
  TOGETHER STOP(), START(T#50ms, T#1ms, T#1ms, T#1ms, 0)         -> ;
  EXPECT Control IN Idle;
END_SEQUENCE

SEQUENCE n_table_emits_in_turn FOR BLOCK E_N_TABLE
  START(T#10ms, T#20ms, T#30ms, T#40ms, 4)    -> ;
  AFTER T#10ms                                -> EO0();
  AFTER T#19ms                                -> ;
  AFTER T#1ms                                 -> EO1();
  AFTER T#30ms                                -> EO2();
  AFTER T#39ms                                -> ;
  AFTER T#1ms                                 -> EO3();
  AFTER T#1h                                  -> ;
  START(T#10ms, T#20ms, T#30ms, T#40ms, 2)    -> ;
  AFTER T#1h                                  -> EO0() -> EO1();
END_SEQUENCE

SEQUENCE n_table_is_stopped FOR BLOCK E_N_TABLE
  START(T#10ms, T#20ms, T#30ms, T#40ms, 4)    -> ;
  AFTER T#30ms                                -> EO0() -> EO1();
  STOP()                                      -> ;
  AFTER T#1h                                  -> ;
  START(T#10ms, T#20ms, T#30ms, T#40ms, 9)    -> ;
  AFTER T#1h                                  -> EO0() -> EO1() -> EO2() -> EO3();
END_SEQUENCE
