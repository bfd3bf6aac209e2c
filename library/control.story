(* The blocks for control, each alone. *)

(* 0 to 27648 is the range of many analogue inputs. *)
SEQUENCE scale_of_a_sensor FOR BLOCK SCALE
  REQ(IN := 13824, IN_LOW := 0, IN_HIGH := 27648, OUT_LOW := 0, OUT_HIGH := 1000) -> CNF(500, TRUE) STEPS <= 12;
  REQ(0, 0, 27648, -200, 850)                   -> CNF(-200, TRUE);
  REQ(27648, 0, 27648, -200, 850)               -> CNF(850, TRUE);
  REQ(1, 0, 27648, 0, 1000)                     -> CNF(0, TRUE);
  REQ(14, 10, 20, 100, 200)                     -> CNF(140, TRUE);
  REQ(14, 10, 20, 200, 100)                     -> CNF(160, TRUE);
END_SEQUENCE

SEQUENCE scale_rounds_to_the_nearest FOR BLOCK SCALE
  REQ(4, 0, 10, 0, 1)                           -> CNF(0, TRUE);
  REQ(5, 0, 10, 0, 1)                           -> CNF(1, TRUE);
  REQ(-4, 0, 10, 0, 1)                          -> CNF(0, TRUE);
  REQ(-5, 0, 10, 0, 1)                          -> CNF(-1, TRUE);
  REQ(4, 0, 10, 1, 0)                           -> CNF(1, TRUE);
  REQ(6, 0, 10, 1, 0)                           -> CNF(0, TRUE);
END_SEQUENCE

SEQUENCE scale_goes_on_beyond_the_two_points FOR BLOCK SCALE
  REQ(25, 10, 20, 200, 100)                     -> CNF(50, TRUE);
  REQ(5, 10, 20, 200, 100)                      -> CNF(250, TRUE);
END_SEQUENCE

SEQUENCE scale_at_the_ends_of_int FOR BLOCK SCALE
  REQ(32767, -32768, 32767, -32768, 32767)      -> CNF(32767, TRUE);
  REQ(-32768, -32768, 32767, -32768, 32767)     -> CNF(-32768, TRUE);
  REQ(-32768, -32768, 32767, 32767, -32768)     -> CNF(32767, TRUE);
  REQ(0, -32768, 32767, 32767, -32768)          -> CNF(-1, TRUE);
  REQ(32767, 0, 1, 0, 32767)                    -> CNF(32767, TRUE);
  REQ(-32768, 0, 1, 0, 32767)                   -> CNF(-32768, TRUE);
  REQ(32767, -32768, -32767, 32767, -32768)     -> CNF(-32768, TRUE);
END_SEQUENCE

SEQUENCE scale_without_a_span FOR BLOCK SCALE
  REQ(15, 10, 10, 3, 7)                         -> CNF(3, FALSE);
  REQ(15, 20, 10, 4, 7)                         -> CNF(4, FALSE);
  REQ(-32768, 32767, -32768, 5, 7)              -> CNF(5, FALSE);
  REQ(11, 10, 11, 3, 7)                         -> CNF(7, TRUE);
END_SEQUENCE

SEQUENCE limiter_keeps_within FOR BLOCK LIMITER
  REQ(MN := -10, IN := 5, MX := 20)             -> CNF(5, FALSE, FALSE) STEPS <= 7;
  REQ(-10, -10, 20)                             -> CNF(-10, FALSE, FALSE);
  REQ(-10, -11, 20)                             -> CNF(-10, TRUE, FALSE);
  REQ(-10, 20, 20)                              -> CNF(20, FALSE, FALSE);
  REQ(-10, 21, 20)                              -> CNF(20, FALSE, TRUE);
  REQ(-10, 32767, 20)                           -> CNF(20, FALSE, TRUE);
  REQ(-10, -32768, 20)                          -> CNF(-10, TRUE, FALSE);
END_SEQUENCE

SEQUENCE limiter_with_limits_the_other_way_round FOR BLOCK LIMITER
  REQ(20, 5, -10)                               -> CNF(-10, FALSE, TRUE);
  REQ(20, 30, -10)                              -> CNF(-10, FALSE, TRUE);
  REQ(20, -30, -10)                             -> CNF(-10, TRUE, FALSE);
  REQ(7, 3, 7)                                  -> CNF(7, TRUE, FALSE);
END_SEQUENCE

SEQUENCE hysteresis_switches FOR BLOCK HYSTERESIS
  REQ(IN := 50, LOW := 40, HIGH := 60)          -> CNF(FALSE);
  REQ(59, 40, 60)                               -> CNF(FALSE);
  REQ(60, 40, 60)                               -> CNF(TRUE) STEPS <= 6;
  REQ(41, 40, 60)                               -> CNF(TRUE);
  REQ(40, 40, 60)                               -> CNF(FALSE);
  REQ(59, 40, 60)                               -> CNF(FALSE);
  REQ(32767, 40, 60)                            -> CNF(TRUE);
  REQ(-32768, 40, 60)                           -> CNF(FALSE);
END_SEQUENCE

SEQUENCE hysteresis_with_one_limit_or_none_between FOR BLOCK HYSTERESIS
  REQ(50, 50, 50)                               -> CNF(TRUE);
  REQ(49, 50, 50)                               -> CNF(FALSE);
  (* HIGH is looked at first. *)
  REQ(50, 60, 40)                               -> CNF(TRUE);
  REQ(39, 60, 40)                               -> CNF(FALSE);
END_SEQUENCE

SEQUENCE ramp_goes_up_and_down FOR BLOCK RAMP
  REQ(IN := 25, UP := 10, DOWN := 4)            -> CNF(10, FALSE);
  REQ(25, 10, 4)                                -> CNF(20, FALSE);
  REQ(25, 10, 4)                                -> CNF(25, TRUE) STEPS <= 8;
  REQ(25, 10, 4)                                -> CNF(25, TRUE);
  REQ(18, 10, 4)                                -> CNF(21, FALSE);
  REQ(18, 10, 4)                                -> CNF(18, TRUE);
  REQ(-3, 10, 20)                               -> CNF(-2, FALSE);
  REQ(-3, 10, 20)                               -> CNF(-3, TRUE);
END_SEQUENCE

SEQUENCE ramp_stands_without_a_step FOR BLOCK RAMP
  REQ(5, 0, 0)                                  -> CNF(0, FALSE);
  REQ(-5, 0, 0)                                 -> CNF(0, FALSE);
  REQ(0, 0, 0)                                  -> CNF(0, TRUE);
END_SEQUENCE

SEQUENCE ramp_is_set FOR BLOCK RAMP
  REQ(5, 2, 2)                                  -> CNF(2, FALSE);
  SET(100)                                      -> CNF(100, FALSE);
  REQ(5, 2, 2)                                  -> CNF(98, FALSE);
  SET(5)                                        -> CNF(5, TRUE);
  REQ(5, 2, 2)                                  -> CNF(5, TRUE);
END_SEQUENCE

SEQUENCE ramp_at_the_ends_of_int FOR BLOCK RAMP
  SET(32766)                                    -> CNF(32766, FALSE);
  REQ(32767, 65535, 1)                          -> CNF(32767, TRUE);
  REQ(-32768, 65535, 65535)                     -> CNF(-32768, TRUE);
  REQ(32767, 65534, 65535)                      -> CNF(32766, FALSE);
  SET(-32767)                                   -> CNF(-32767, FALSE);
  REQ(-32768, 1, 65535)                         -> CNF(-32768, TRUE);
END_SEQUENCE

SEQUENCE ramp_with_events_at_once FOR BLOCK RAMP
  TOGETHER SET(50), REQ(100, 10, 10)            -> CNF(60, FALSE) -> CNF(60, FALSE);
  TOGETHER REQ(100, 10, 10), SET(100)           -> CNF(100, TRUE) -> CNF(100, TRUE);
END_SEQUENCE

SEQUENCE debounce_takes_over_what_stays FOR BLOCK DEBOUNCE
  REQ(FALSE, T#10ms)                            -> CNF(FALSE);
  REQ(FALSE, T#10ms)                            -> CNF(FALSE);
  AFTER T#1h                                    -> ;
  REQ(TRUE, T#10ms)                             -> CNF(FALSE);
  AFTER T#9ms                                   -> ;
  AFTER T#1ms                                   -> CNF(TRUE);
  AFTER T#1h                                    -> ;
  REQ(TRUE, T#10ms)                             -> CNF(TRUE);
  AFTER T#1h                                    -> ;
  REQ(FALSE, T#20ms)                            -> CNF(TRUE);
  AFTER T#19ms                                  -> ;
  AFTER T#1ms                                   -> CNF(FALSE);
  AFTER T#1h                                    -> ;
  REQ(FALSE, T#10ms)                            -> CNF(FALSE);
  REQ(TRUE, T#10ms)                             -> CNF(FALSE);
  AFTER T#10ms                                  -> CNF(TRUE);
  REQ(FALSE, T#20ms)                            -> CNF(TRUE);
  AFTER T#20ms                                  -> CNF(FALSE);
END_SEQUENCE

SEQUENCE debounce_passes_over_what_bounces FOR BLOCK DEBOUNCE
  REQ(TRUE, T#10ms)                             -> CNF(FALSE);
  AFTER T#9ms                                   -> ;
  REQ(FALSE, T#10ms)                            -> CNF(FALSE);
  EXPECT Control IN Idle;
  AFTER T#1h                                    -> ;
  REQ(TRUE, T#10ms)                             -> CNF(FALSE);
  AFTER T#5ms                                   -> ;
  REQ(FALSE, T#10ms)                            -> CNF(FALSE);
  REQ(TRUE, T#10ms)                             -> CNF(FALSE);
  AFTER T#9ms                                   -> ;
  AFTER T#1ms                                   -> CNF(TRUE);
  REQ(FALSE, T#10ms)                            -> CNF(TRUE);
  AFTER T#9ms                                   -> ;
  REQ(TRUE, T#10ms)                             -> CNF(TRUE);
  AFTER T#1h                                    -> ;
  REQ(TRUE, T#10ms)                             -> CNF(TRUE);
END_SEQUENCE

(* PT is that of the REQ that brought the new value. *)
SEQUENCE debounce_asked_again_goes_on FOR BLOCK DEBOUNCE
  REQ(TRUE, T#10ms)                             -> CNF(FALSE);
  AFTER T#5ms                                   -> ;
  REQ(TRUE, T#20ms)                             -> CNF(FALSE);
  REQ(TRUE, T#0ms)                              -> CNF(FALSE);
  AFTER T#4ms                                   -> ;
  AFTER T#1ms                                   -> CNF(TRUE);
  REQ(FALSE, T#10ms)                            -> CNF(TRUE);
  REQ(FALSE, T#10ms)                            -> CNF(TRUE);
  REQ(TRUE, T#10ms)                             -> CNF(TRUE);
  AFTER T#1h                                    -> ;
END_SEQUENCE

SEQUENCE debounce_of_no_time FOR BLOCK DEBOUNCE
  REQ(TRUE, T#0ms)                              -> CNF(TRUE);
  REQ(FALSE, T#-1ms)                            -> CNF(FALSE);
  REQ(FALSE, T#0ms)                             -> CNF(FALSE);
  REQ(TRUE, T#0ms)                              -> CNF(TRUE);
  REQ(FALSE, T#0ms)                             -> CNF(FALSE);
  AFTER T#1h                                    -> ;
  REQ(TRUE, T#1ms)                              -> CNF(FALSE);
  AFTER T#1ms                                   -> CNF(TRUE);
END_SEQUENCE

SEQUENCE mean_of_as_many_as_there_are FOR BLOCK MEAN_8
  REQ(10)                                       -> CNF(10) STEPS <= 12;
  REQ(11)                                       -> CNF(11);
  REQ(11)                                       -> CNF(11);
  REQ(30)                                       -> CNF(16);
  REQ(40)                                       -> CNF(20);
  REQ(50)                                       -> CNF(25);
  REQ(60)                                       -> CNF(30);
  REQ(70)                                       -> CNF(35);
  EXPECT Sum = 282;
  EXPECT Place = 0;
END_SEQUENCE

SEQUENCE mean_forgets_the_ninth FOR BLOCK MEAN_8
  REQ(800)                                      -> CNF(800);
  REQ(0)                                        -> CNF(400);
  REQ(0)                                        -> CNF(267);
  REQ(0)                                        -> CNF(200);
  REQ(0)                                        -> CNF(160);
  REQ(0)                                        -> CNF(133);
  REQ(0)                                        -> CNF(114);
  REQ(0)                                        -> CNF(100);
  REQ(16)                                       -> CNF(2);
  EXPECT Number = 8;
  REQ(-16)                                      -> CNF(0);
  REQ(-3)                                       -> CNF(0);
  REQ(-1)                                       -> CNF(-1);
END_SEQUENCE

SEQUENCE mean_is_cleared FOR BLOCK MEAN_8
  REQ(1000)                                     -> CNF(1000);
  REQ(2000)                                     -> CNF(1500);
  R()                                           -> ;
  EXPECT Sum = 0;
  EXPECT Last[1] = 0;
  REQ(-7)                                       -> CNF(-7);
  REQ(-8)                                       -> CNF(-8);
  REQ(1)                                        -> CNF(-5);
  R()                                           -> ;
  R()                                           -> ;
  TOGETHER REQ(5), R(), REQ(9)                  -> CNF(9) -> CNF(9);
  EXPECT Number = 1;
END_SEQUENCE

SEQUENCE mean_at_the_ends_of_int FOR BLOCK MEAN_8
  REQ(-32768)                                   -> CNF(-32768);
  REQ(-32768)                                   -> CNF(-32768);
  REQ(-32768)                                   -> CNF(-32768);
  REQ(-32768)                                   -> CNF(-32768);
  REQ(-32768)                                   -> CNF(-32768);
  REQ(-32768)                                   -> CNF(-32768);
  REQ(-32768)                                   -> CNF(-32768);
  REQ(-32768)                                   -> CNF(-32768);
  EXPECT Sum = -262144;
  REQ(32767)                                    -> CNF(-24576);
  REQ(32767)                                    -> CNF(-16384);
  REQ(32767)                                    -> CNF(-8192);
  REQ(32767)                                    -> CNF(-1);
  REQ(32767)                                    -> CNF(8191);
  REQ(32767)                                    -> CNF(16383);
  REQ(32767)                                    -> CNF(24575);
  REQ(32767)                                    -> CNF(32767);
  EXPECT Sum = 262136;
  REQ(32767)                                    -> CNF(32767);
END_SEQUENCE

SEQUENCE median_of_three FOR BLOCK MEDIAN_3
  REQ(5)                                        -> CNF(5) STEPS <= 12;
  REQ(900)                                      -> CNF(5);
  REQ(6)                                        -> CNF(6);
  REQ(7)                                        -> CNF(7);
  REQ(-900)                                     -> CNF(6);
  REQ(8)                                        -> CNF(7);
  REQ(9)                                        -> CNF(8);
  REQ(9)                                        -> CNF(9);
  REQ(1)                                        -> CNF(9);
  REQ(1)                                        -> CNF(1);
END_SEQUENCE

SEQUENCE median_of_three_in_each_order FOR BLOCK MEDIAN_3
  REQ(1)                                        -> CNF(1);
  REQ(2)                                        -> CNF(1);
  REQ(3)                                        -> CNF(2);
  REQ(1)                                        -> CNF(2);
  REQ(2)                                        -> CNF(2);
  REQ(3)                                        -> CNF(2);
  REQ(2)                                        -> CNF(2);
  REQ(1)                                        -> CNF(2);
  REQ(3)                                        -> CNF(2);
  REQ(2)                                        -> CNF(2);
  REQ(-32768)                                   -> CNF(2);
  REQ(32767)                                    -> CNF(2);
  REQ(-32768)                                   -> CNF(-32768);
  REQ(32767)                                    -> CNF(32767);
END_SEQUENCE

SEQUENCE median_of_three_is_cleared FOR BLOCK MEDIAN_3
  REQ(5)                                        -> CNF(5);
  REQ(5)                                        -> CNF(5);
  R()                                           -> ;
  REQ(70)                                       -> CNF(70);
  REQ(2)                                        -> CNF(70);
  REQ(3)                                        -> CNF(3);
END_SEQUENCE

SEQUENCE median_of_five FOR BLOCK MEDIAN_5
  REQ(10)                                       -> CNF(10) STEPS <= 18;
  REQ(20)                                       -> CNF(10);
  REQ(30)                                       -> CNF(10);
  REQ(40)                                       -> CNF(20);
  REQ(50)                                       -> CNF(30);
  REQ(5)                                        -> CNF(30);
  REQ(45)                                       -> CNF(40);
  REQ(1)                                        -> CNF(40);
  REQ(2)                                        -> CNF(5);
  REQ(3)                                        -> CNF(3);
  REQ(900)                                      -> CNF(3);
  REQ(-900)                                     -> CNF(2);
  REQ(4)                                        -> CNF(3);
  REQ(4)                                        -> CNF(4);
END_SEQUENCE

SEQUENCE median_of_five_is_cleared FOR BLOCK MEDIAN_5
  REQ(1)                                        -> CNF(1);
  REQ(32767)                                    -> CNF(1);
  REQ(32767)                                    -> CNF(1);
  R()                                           -> ;
  REQ(-32768)                                   -> CNF(-32768);
  REQ(32767)                                    -> CNF(-32768);
  REQ(32767)                                    -> CNF(-32768);
  REQ(32767)                                    -> CNF(32767);
END_SEQUENCE

SEQUENCE pid_is_proportional FOR BLOCK PID
  REQ(AUTO := TRUE, SP := 100, PV := 60, X0 := 0, KP := 2000, KI := 0, KD := 0, MN := 0, MX := 1000) -> CNF(80) STEPS <= 20;
  REQ(TRUE, 60, 100, 0, 2000, 0, 0, 0, 1000)         -> CNF(0);
  REQ(TRUE, 60, 100, 0, 2000, 0, 0, -1000, 1000)     -> CNF(-80);
  REQ(TRUE, 100, 99, 0, 1500, 0, 0, 0, 1000)         -> CNF(2);
  REQ(TRUE, 99, 100, 0, 1500, 0, 0, -10, 1000)       -> CNF(-2);
  REQ(TRUE, 99, 100, 0, 499, 0, 0, -10, 1000)        -> CNF(0);
  REQ(TRUE, 99, 100, 0, 500, 0, 0, -10, 1000)        -> CNF(-1);
  REQ(TRUE, 100, 99, 0, 499, 0, 0, 0, 1000)          -> CNF(0);
  REQ(TRUE, 100, 99, 0, 500, 0, 0, 0, 1000)          -> CNF(1);
  EXPECT Integral = 0;
END_SEQUENCE

SEQUENCE pid_integrates FOR BLOCK PID
  REQ(TRUE, 100, 90, 0, 1000, 500, 0, 0, 1000)       -> CNF(15);
  REQ(TRUE, 100, 90, 0, 1000, 500, 0, 0, 1000)       -> CNF(20);
  REQ(TRUE, 100, 90, 0, 1000, 500, 0, 0, 1000)       -> CNF(25);
  REQ(TRUE, 100, 100, 0, 1000, 500, 0, 0, 1000)      -> CNF(15);
  EXPECT Integral = 15000;
  R()                                                -> ;
  EXPECT Integral = 0;
  REQ(TRUE, 100, 90, 0, 1000, 500, 0, 0, 1000)       -> CNF(15);
END_SEQUENCE

(* The integral grows until OUT is at its end, and no further: once PV is above SP, OUT falls at once. *)
SEQUENCE pid_does_not_wind_up FOR BLOCK PID
  REQ(TRUE, 100, 0, 0, 1000, 500, 0, 0, 120)         -> CNF(120);
  EXPECT Integral = 20000;
  REQ(TRUE, 100, 0, 0, 1000, 500, 0, 0, 120)         -> CNF(120);
  REQ(TRUE, 100, 0, 0, 1000, 500, 0, 0, 120)         -> CNF(120);
  EXPECT Integral = 20000;
  REQ(TRUE, 100, 90, 0, 1000, 500, 0, 0, 120)        -> CNF(35);
  REQ(TRUE, 100, 110, 0, 1000, 500, 0, 0, 120)       -> CNF(10);
  REQ(TRUE, 100, 110, 0, 1000, 500, 0, 0, 120)       -> CNF(5);
END_SEQUENCE

SEQUENCE pid_does_not_wind_down FOR BLOCK PID
  REQ(TRUE, 0, 100, 0, 1000, 500, 0, -120, 0)        -> CNF(-120);
  REQ(TRUE, 0, 100, 0, 1000, 500, 0, -120, 0)        -> CNF(-120);
  EXPECT Integral = -20000;
  REQ(TRUE, 0, -10, 0, 1000, 500, 0, -120, 0)        -> CNF(-5);
  EXPECT Integral = -15000;
END_SEQUENCE

(* What PV's movement takes away, the integral may add. *)
SEQUENCE pid_with_all_three_does_not_wind_up FOR BLOCK PID
  REQ(TRUE, 100, 0, 0, 1000, 500, 2000, 0, 120)      -> CNF(120);
  EXPECT Integral = 20000;
  REQ(TRUE, 100, 20, 0, 1000, 500, 2000, 0, 120)     -> CNF(100);
  EXPECT Integral = 60000;
  REQ(TRUE, 100, 30, 0, 1000, 500, 2000, 0, 120)     -> CNF(120);
  EXPECT Integral = 70000;
  REQ(TRUE, 100, 110, 0, 1000, 500, 2000, -120, 120) -> CNF(-105);
  EXPECT Integral = 65000;
  REQ(TRUE, 100, 200, 0, 1000, 500, 100, -120, 120)  -> CNF(-94);
  EXPECT Integral = 15000;
  REQ(TRUE, 100, 190, 0, 1000, 500, 1000, -80, 120)  -> CNF(-80);
  EXPECT Integral = 0;
END_SEQUENCE

(* A step of PV counts, and one of SP does not. *)
SEQUENCE pid_derives_from_pv FOR BLOCK PID
  REQ(TRUE, 0, 50, 0, 0, 0, 2000, -1000, 1000)       -> CNF(0);
  REQ(TRUE, 0, 60, 0, 0, 0, 2000, -1000, 1000)       -> CNF(-20);
  REQ(TRUE, 0, 60, 0, 0, 0, 2000, -1000, 1000)       -> CNF(0);
  REQ(TRUE, 900, 55, 0, 0, 0, 2000, -1000, 1000)     -> CNF(10);
  R()                                                -> ;
  REQ(TRUE, 900, 955, 0, 0, 0, 2000, -1000, 1000)    -> CNF(0);
  REQ(FALSE, 900, 950, 7, 0, 0, 2000, -1000, 1000)   -> CNF(7);
  REQ(TRUE, 900, 945, 7, 0, 0, 2000, -1000, 1000)    -> CNF(17);
END_SEQUENCE

(* Back in AUTO, OUT goes on from where it was, with one step of the integral. *)
SEQUENCE pid_by_hand FOR BLOCK PID
  REQ(FALSE, 100, 60, 250, 1000, 500, 0, 0, 1000)    -> CNF(250);
  REQ(FALSE, 100, 60, 2500, 1000, 500, 0, 0, 1000)   -> CNF(1000);
  REQ(FALSE, 100, 60, -5, 1000, 500, 0, 0, 1000)     -> CNF(0);
  EXPECT Integral = -40000;
  REQ(FALSE, 100, 60, 250, 1000, 500, 0, 0, 1000)    -> CNF(250);
  EXPECT Integral = 210000;
  REQ(TRUE, 100, 60, 0, 1000, 500, 0, 0, 1000)       -> CNF(270);
  REQ(TRUE, 100, 100, 0, 1000, 500, 0, 0, 1000)      -> CNF(230);
END_SEQUENCE

SEQUENCE pid_acts_the_other_way_by_negative_gains FOR BLOCK PID
  REQ(TRUE, 100, 110, 0, -1000, -500, 0, 0, 1000)    -> CNF(15);
  REQ(TRUE, 100, 110, 0, -1000, -500, 0, 0, 1000)    -> CNF(20);
  REQ(TRUE, 100, 95, 0, -1000, -500, 0, 0, 1000)     -> CNF(3);
  EXPECT Integral = 7500;
END_SEQUENCE

SEQUENCE pid_at_the_ends_of_int FOR BLOCK PID
  REQ(TRUE, 32767, -32768, 0, 32767, 32767, 32767, -32768, 32767)       -> CNF(32767);
  EXPECT Integral = 0;
  REQ(TRUE, 32767, 32767, 0, 32767, 32767, 32767, -32768, 32767)        -> CNF(-32768);
  REQ(TRUE, -32768, 32767, 0, 32767, 32767, 32767, -32768, 32767)       -> CNF(-32768);
  REQ(TRUE, -32768, 32767, 0, -32768, -32768, -32768, -32768, 32767)    -> CNF(32767);
  REQ(TRUE, 32767, -32768, 0, -32768, -32768, -32768, -32768, 32767)    -> CNF(-32768);
  REQ(FALSE, 32767, -32768, 32767, 32767, 32767, 32767, -32768, 32767)  -> CNF(32767);
  EXPECT Integral = -2114618345;
  REQ(FALSE, 32767, -32768, -32768, -32768, 32767, 32767, -32768, 32767) -> CNF(-32768);
  EXPECT Integral = 2114682880;
  REQ(TRUE, 32767, -32768, -32768, -32768, 32767, 32767, -32768, 32767) -> CNF(32767);
  EXPECT Integral = 2180217880;
  (* MN wins if MX is below it. *)
  REQ(TRUE, 0, 0, 0, 0, 0, 0, 32767, -32768)         -> CNF(32767);
  REQ(TRUE, 0, 0, 0, 0, 0, 0, -32768, -32768)        -> CNF(-32768);
END_SEQUENCE

SEQUENCE steps_go_through FOR BLOCK STEPS
  NEXT(0)    -> ;
  STOP()     -> ;
  START(3)   -> CNF(1);
  NEXT(1)    -> CNF(2) STEPS <= 6;
  NEXT(2)    -> CNF(3);
  NEXT(3)    -> CNF(0) -> DONE();
  NEXT(0)    -> ;
  EXPECT IN Ends;
  START(1)   -> CNF(1);
  NEXT(1)    -> CNF(0) -> DONE();
  START(2)   -> CNF(1);
END_SEQUENCE

SEQUENCE steps_of_one FOR BLOCK STEPS
  START(1)   -> CNF(1);
  STOP()     -> CNF(0);
  START(1)   -> CNF(1);
  NEXT(1)    -> CNF(0) -> DONE();
END_SEQUENCE

(* An event that comes twice ends one step alone, and a START within is discarded. *)
SEQUENCE steps_take_only_what_is_meant FOR BLOCK STEPS
  START(0)   -> ;
  START(3)   -> CNF(1);
  START(2)   -> ;
  NEXT(2)    -> ;
  NEXT(0)    -> ;
  NEXT(1)    -> CNF(2);
  NEXT(1)    -> ;
  START(9)   -> ;
  NEXT(3)    -> ;
  NEXT(2)    -> CNF(3);
  NEXT(2)    -> ;
  NEXT(65535) -> ;
  NEXT(3)    -> CNF(0) -> DONE();
  TOGETHER START(2), NEXT(1), NEXT(1) -> CNF(2) -> CNF(2);
  EXPECT STEP = 2;
END_SEQUENCE

SEQUENCE steps_are_stopped FOR BLOCK STEPS
  START(3)   -> CNF(1);
  STOP()     -> CNF(0);
  STOP()     -> ;
  NEXT(1)    -> ;
  START(0)   -> ;
  START(2)   -> CNF(1);
  NEXT(1)    -> CNF(2);
  STOP()     -> CNF(0);
  NEXT(2)    -> ;
  START(2)   -> CNF(1);
  NEXT(1)    -> CNF(2);
  NEXT(2)    -> CNF(0) -> DONE();
  START(0)   -> ;
  STOP()     -> ;
  EXPECT IN Ends;
  TOGETHER START(2), STOP() -> CNF(0) -> CNF(0);
END_SEQUENCE

SEQUENCE steps_of_a_long_sequence FOR BLOCK STEPS
  START(65535) -> CNF(1);
  NEXT(1)      -> CNF(2);
  STOP()       -> CNF(0);
END_SEQUENCE

SEQUENCE alarm_is_acknowledged FOR BLOCK ALARM
  REQ(FALSE) -> CNF(FALSE, FALSE);
  ACK()      -> CNF(FALSE, FALSE);
  REQ(TRUE)  -> CNF(TRUE, TRUE) STEPS <= 7;
  REQ(TRUE)  -> CNF(TRUE, TRUE);
  ACK()      -> CNF(TRUE, FALSE);
  REQ(TRUE)  -> CNF(TRUE, FALSE);
  ACK()      -> CNF(TRUE, FALSE);
  REQ(FALSE) -> CNF(FALSE, FALSE);
  REQ(TRUE)  -> CNF(TRUE, TRUE);
END_SEQUENCE

SEQUENCE alarm_stays_new_when_it_goes FOR BLOCK ALARM
  REQ(TRUE)  -> CNF(TRUE, TRUE);
  REQ(FALSE) -> CNF(FALSE, TRUE);
  REQ(FALSE) -> CNF(FALSE, TRUE);
  REQ(TRUE)  -> CNF(TRUE, TRUE);
  REQ(FALSE) -> CNF(FALSE, TRUE);
  ACK()      -> CNF(FALSE, FALSE);
  REQ(FALSE) -> CNF(FALSE, FALSE);
END_SEQUENCE

SEQUENCE alarm_with_events_at_once FOR BLOCK ALARM
  TOGETHER REQ(TRUE), ACK() -> CNF(TRUE, FALSE) -> CNF(TRUE, FALSE);
  REQ(FALSE)                -> CNF(FALSE, FALSE);
  TOGETHER ACK(), REQ(TRUE) -> CNF(TRUE, TRUE) -> CNF(TRUE, TRUE);
END_SEQUENCE
