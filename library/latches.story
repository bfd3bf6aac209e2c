(* The bistables and edges, each alone. *)

SEQUENCE sr_is_set_and_cleared FOR BLOCK SR
  REQ(FALSE, FALSE)                    -> CNF(FALSE) STEPS <= 5;
  REQ(FALSE, TRUE)                     -> CNF(FALSE);
  REQ(S1 := TRUE, R := FALSE)          -> CNF(TRUE);
  REQ(FALSE, FALSE)                    -> CNF(TRUE);
  REQ(FALSE, FALSE)                    -> CNF(TRUE);
  REQ(FALSE, TRUE)                     -> CNF(FALSE);
  REQ(FALSE, FALSE)                    -> CNF(FALSE);
END_SEQUENCE

SEQUENCE sr_with_both_is_set FOR BLOCK SR
  REQ(TRUE, TRUE)                      -> CNF(TRUE);
  REQ(TRUE, TRUE)                      -> CNF(TRUE);
  REQ(FALSE, TRUE)                     -> CNF(FALSE);
  REQ(TRUE, TRUE)                      -> CNF(TRUE);
  REQ(FALSE, FALSE)                    -> CNF(TRUE);
  EXPECT Q1 = TRUE;
END_SEQUENCE

SEQUENCE rs_is_set_and_cleared FOR BLOCK RS
  REQ(FALSE, FALSE)                    -> CNF(FALSE) STEPS <= 5;
  REQ(FALSE, TRUE)                     -> CNF(FALSE);
  REQ(S := TRUE, R1 := FALSE)          -> CNF(TRUE);
  REQ(FALSE, FALSE)                    -> CNF(TRUE);
  REQ(FALSE, FALSE)                    -> CNF(TRUE);
  REQ(FALSE, TRUE)                     -> CNF(FALSE);
  REQ(FALSE, FALSE)                    -> CNF(FALSE);
END_SEQUENCE

SEQUENCE rs_with_both_is_cleared FOR BLOCK RS
  REQ(TRUE, TRUE)                      -> CNF(FALSE);
  REQ(TRUE, FALSE)                     -> CNF(TRUE);
  REQ(TRUE, TRUE)                      -> CNF(FALSE);
  REQ(FALSE, FALSE)                    -> CNF(FALSE);
  EXPECT Q1 = FALSE;
END_SEQUENCE

SEQUENCE r_trig_is_true_once FOR BLOCK R_TRIG
  REQ(FALSE) -> CNF(FALSE);
  REQ(TRUE)  -> CNF(TRUE) STEPS <= 6;
  REQ(TRUE)  -> CNF(FALSE);
  REQ(TRUE)  -> CNF(FALSE);
  REQ(FALSE) -> CNF(FALSE);
  REQ(TRUE)  -> CNF(TRUE);
  REQ(FALSE) -> CNF(FALSE);
END_SEQUENCE

SEQUENCE r_trig_takes_a_first_true_as_an_edge FOR BLOCK R_TRIG
  REQ(TRUE)  -> CNF(TRUE);
  REQ(TRUE)  -> CNF(FALSE);
END_SEQUENCE

(* The first shows what the second made of the value: an event output shows what was issued last. *)
SEQUENCE r_trig_asked_twice_at_once FOR BLOCK R_TRIG
  TOGETHER REQ(FALSE), REQ(TRUE) -> CNF(FALSE) -> CNF(FALSE);
  EXPECT Before = TRUE;
  REQ(FALSE) -> CNF(FALSE);
  TOGETHER REQ(TRUE), REQ(FALSE) -> CNF(FALSE) -> CNF(FALSE);
  EXPECT Before = FALSE;
END_SEQUENCE

SEQUENCE f_trig_is_true_once FOR BLOCK F_TRIG
  REQ(FALSE) -> CNF(FALSE);
  REQ(TRUE)  -> CNF(FALSE);
  REQ(TRUE)  -> CNF(FALSE);
  REQ(FALSE) -> CNF(TRUE) STEPS <= 6;
  REQ(FALSE) -> CNF(FALSE);
  REQ(FALSE) -> CNF(FALSE);
  REQ(TRUE)  -> CNF(FALSE);
  REQ(FALSE) -> CNF(TRUE);
END_SEQUENCE

SEQUENCE f_trig_takes_a_first_false_as_none FOR BLOCK F_TRIG
  REQ(FALSE) -> CNF(FALSE);
  REQ(FALSE) -> CNF(FALSE);
  EXPECT Before = FALSE;
END_SEQUENCE
