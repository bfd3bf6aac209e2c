(* An alarm alone. Its lamp: 0 dark, 1 flashes fast (new), 2 steady (seen, and still there), 3 flashes slowly (gone before anybody saw it). *)
SEQUENCE back_before_anybody_saw_it FOR BLOCK ALARM
  Contact(TRUE)   -> Changed(1) -> Raised();
  Contact(FALSE)  -> Changed(3);
  Contact(TRUE)   -> Changed(1);
  Acknowledge()   -> Changed(2) -> Accepted();
  Acknowledge()   -> ;
  Contact(FALSE)  -> Changed(0);
  EXPECT IN Normal;
END_SEQUENCE
