(* The counters, each alone. *)

SEQUENCE ctu_counts_edges FOR BLOCK CTU
  REQ(CU := FALSE, R := FALSE, PV := 2)  -> CNF(FALSE, 0) STEPS <= 8;
  REQ(TRUE, FALSE, 2)                    -> CNF(FALSE, 1);
  REQ(TRUE, FALSE, 2)                    -> CNF(FALSE, 1);
  REQ(FALSE, FALSE, 2)                   -> CNF(FALSE, 1);
  REQ(TRUE, FALSE, 2)                    -> CNF(TRUE, 2);
  REQ(FALSE, FALSE, 2)                   -> CNF(TRUE, 2);
  REQ(TRUE, FALSE, 2)                    -> CNF(TRUE, 3);
  REQ(TRUE, FALSE, 4)                    -> CNF(FALSE, 3);
  REQ(TRUE, FALSE, 3)                    -> CNF(TRUE, 3);
END_SEQUENCE

SEQUENCE ctu_is_cleared FOR BLOCK CTU
  REQ(TRUE, FALSE, 1)                    -> CNF(TRUE, 1);
  REQ(TRUE, TRUE, 1)                     -> CNF(FALSE, 0);
  REQ(TRUE, FALSE, 1)                    -> CNF(FALSE, 0);
  REQ(FALSE, FALSE, 1)                   -> CNF(FALSE, 0);
  (* R wins, and the edge is used up. *)
  REQ(TRUE, TRUE, 1)                     -> CNF(FALSE, 0);
  REQ(TRUE, FALSE, 1)                    -> CNF(FALSE, 0);
  REQ(FALSE, TRUE, 1)                    -> CNF(FALSE, 0);
  REQ(TRUE, FALSE, 1)                    -> CNF(TRUE, 1);
END_SEQUENCE

SEQUENCE ctu_with_limits_at_the_ends FOR BLOCK CTU
  REQ(FALSE, FALSE, 0)                   -> CNF(TRUE, 0);
  REQ(FALSE, FALSE, -32768)              -> CNF(TRUE, 0);
  REQ(FALSE, FALSE, 32767)               -> CNF(FALSE, 0);
  REQ(TRUE, FALSE, 32767)                -> CNF(FALSE, 1);
END_SEQUENCE

(* Both REQ see the CU that came last: one edge. *)
SEQUENCE ctu_asked_twice_at_once FOR BLOCK CTU
  TOGETHER REQ(FALSE, FALSE, 1), REQ(TRUE, FALSE, 1) -> CNF(TRUE, 1) -> CNF(TRUE, 1);
  EXPECT CV = 1;
END_SEQUENCE

SEQUENCE ctd_counts_edges FOR BLOCK CTD
  REQ(CD := FALSE, LD := TRUE, PV := 2)  -> CNF(FALSE, 2) STEPS <= 8;
  REQ(TRUE, FALSE, 2)                    -> CNF(FALSE, 1);
  REQ(TRUE, FALSE, 2)                    -> CNF(FALSE, 1);
  REQ(FALSE, FALSE, 2)                   -> CNF(FALSE, 1);
  REQ(TRUE, FALSE, 2)                    -> CNF(TRUE, 0);
  REQ(FALSE, FALSE, 2)                   -> CNF(TRUE, 0);
  REQ(TRUE, FALSE, 2)                    -> CNF(TRUE, -1);
  REQ(FALSE, TRUE, 5)                    -> CNF(FALSE, 5);
END_SEQUENCE

SEQUENCE ctd_takes_over FOR BLOCK CTD
  REQ(FALSE, FALSE, 3)                   -> CNF(TRUE, 0);
  (* LD wins, and the edge is used up. *)
  REQ(TRUE, TRUE, 3)                     -> CNF(FALSE, 3);
  REQ(TRUE, FALSE, 7)                    -> CNF(FALSE, 3);
  REQ(FALSE, FALSE, 7)                   -> CNF(FALSE, 3);
  REQ(TRUE, FALSE, 7)                    -> CNF(FALSE, 2);
  REQ(FALSE, TRUE, -4)                   -> CNF(TRUE, -4);
  REQ(FALSE, TRUE, 32767)                -> CNF(FALSE, 32767);
END_SEQUENCE

SEQUENCE ctd_stops_at_the_least FOR BLOCK CTD
  REQ(FALSE, TRUE, -32767)               -> CNF(TRUE, -32767);
  REQ(TRUE, FALSE, 0)                    -> CNF(TRUE, -32768);
  REQ(FALSE, FALSE, 0)                   -> CNF(TRUE, -32768);
  REQ(TRUE, FALSE, 0)                    -> CNF(TRUE, -32768);
  REQ(FALSE, TRUE, 1)                    -> CNF(FALSE, 1);
  REQ(TRUE, FALSE, 0)                    -> CNF(TRUE, 0);
END_SEQUENCE

SEQUENCE ctud_counts_both_ways FOR BLOCK CTUD
  REQ(CU := FALSE, CD := FALSE, R := FALSE, LD := FALSE, PV := 2) -> CNF(FALSE, TRUE, 0) STEPS <= 11;
  REQ(TRUE, FALSE, FALSE, FALSE, 2)      -> CNF(FALSE, FALSE, 1);
  REQ(TRUE, FALSE, FALSE, FALSE, 2)      -> CNF(FALSE, FALSE, 1);
  REQ(FALSE, FALSE, FALSE, FALSE, 2)     -> CNF(FALSE, FALSE, 1);
  REQ(TRUE, FALSE, FALSE, FALSE, 2)      -> CNF(TRUE, FALSE, 2);
  REQ(TRUE, TRUE, FALSE, FALSE, 2)       -> CNF(FALSE, FALSE, 1);
  REQ(TRUE, TRUE, FALSE, FALSE, 2)       -> CNF(FALSE, FALSE, 1);
  REQ(TRUE, FALSE, FALSE, FALSE, 2)      -> CNF(FALSE, FALSE, 1);
  REQ(TRUE, TRUE, FALSE, FALSE, 2)       -> CNF(FALSE, TRUE, 0);
  REQ(FALSE, FALSE, FALSE, FALSE, 2)     -> CNF(FALSE, TRUE, 0);
  REQ(FALSE, TRUE, FALSE, FALSE, 2)      -> CNF(FALSE, TRUE, -1);
  REQ(FALSE, TRUE, FALSE, FALSE, -1)     -> CNF(TRUE, TRUE, -1);
END_SEQUENCE

SEQUENCE ctud_with_both_edges_stays FOR BLOCK CTUD
  REQ(TRUE, TRUE, FALSE, FALSE, 5)       -> CNF(FALSE, TRUE, 0);
  (* Neither is an edge any more. *)
  REQ(TRUE, TRUE, FALSE, FALSE, 5)       -> CNF(FALSE, TRUE, 0);
  REQ(FALSE, TRUE, FALSE, FALSE, 5)      -> CNF(FALSE, TRUE, 0);
  REQ(TRUE, TRUE, FALSE, FALSE, 5)       -> CNF(FALSE, FALSE, 1);
END_SEQUENCE

SEQUENCE ctud_puts_r_before_ld_before_counting FOR BLOCK CTUD
  REQ(FALSE, FALSE, FALSE, TRUE, 5)      -> CNF(TRUE, FALSE, 5);
  REQ(TRUE, FALSE, TRUE, TRUE, 5)        -> CNF(FALSE, TRUE, 0);
  (* The edge is used up. *)
  REQ(TRUE, FALSE, FALSE, FALSE, 5)      -> CNF(FALSE, TRUE, 0);
  REQ(FALSE, TRUE, FALSE, TRUE, 5)       -> CNF(TRUE, FALSE, 5);
  REQ(FALSE, TRUE, FALSE, FALSE, 5)      -> CNF(TRUE, FALSE, 5);
  REQ(FALSE, FALSE, TRUE, FALSE, 5)      -> CNF(FALSE, TRUE, 0);
  REQ(TRUE, FALSE, FALSE, TRUE, 7)       -> CNF(TRUE, FALSE, 7);
END_SEQUENCE

SEQUENCE ctud_stops_at_the_ends FOR BLOCK CTUD
  REQ(FALSE, FALSE, FALSE, TRUE, 32766)  -> CNF(TRUE, FALSE, 32766);
  REQ(TRUE, FALSE, FALSE, FALSE, 32767)  -> CNF(TRUE, FALSE, 32767);
  REQ(FALSE, FALSE, FALSE, FALSE, 32767) -> CNF(TRUE, FALSE, 32767);
  REQ(TRUE, FALSE, FALSE, FALSE, 32767)  -> CNF(TRUE, FALSE, 32767);
  REQ(FALSE, TRUE, FALSE, FALSE, 32767)  -> CNF(FALSE, FALSE, 32766);
  REQ(FALSE, FALSE, FALSE, TRUE, -32767) -> CNF(TRUE, TRUE, -32767);
  REQ(FALSE, TRUE, FALSE, FALSE, 0)      -> CNF(FALSE, TRUE, -32768);
  REQ(FALSE, FALSE, FALSE, FALSE, 0)     -> CNF(FALSE, TRUE, -32768);
  REQ(FALSE, TRUE, FALSE, FALSE, 0)      -> CNF(FALSE, TRUE, -32768);
  REQ(TRUE, FALSE, FALSE, FALSE, 0)      -> CNF(FALSE, TRUE, -32767);
END_SEQUENCE
