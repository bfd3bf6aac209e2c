(* The reversing starter, seen from outside. Contactors(TRUE, TRUE) would be a short circuit. *)

(* Forward, stop, and back only when the contact of the other contactor has opened. *)
SEQUENCE starts_and_reverses
  Forward_Button()                 -> Contactors(TRUE, FALSE) -> Service_Lamp(FALSE, 1) STEPS <= 12;
  Auxiliary_Contacts(TRUE, FALSE)  -> ;
  Reverse_Button()                 -> ;
  Stop_Button()                    -> Contactors(FALSE, FALSE) STEPS <= 6;
  Reverse_Button()                 -> ;
  Auxiliary_Contacts(FALSE, FALSE) -> ;
  Reverse_Button()                 -> Contactors(FALSE, TRUE) -> Service_Lamp(FALSE, 2);
END_SEQUENCE

(* An overload trips it. A reset is taken when the overload has gone. *)
SEQUENCE an_overload
  Forward_Button()                 -> Contactors(TRUE, FALSE) -> Service_Lamp(FALSE, 1);
  Overload_Relay(TRUE)             -> Contactors(FALSE, FALSE) -> Fault_Lamp(TRUE);
  Forward_Button()                 -> ;
  Reset_Button()                   -> ;
  Overload_Relay(FALSE)            -> ;
  Reset_Button()                   -> Fault_Lamp(FALSE) -> Contactors(FALSE, FALSE);
  EXPECT Drive.Starter IN Stopped;
END_SEQUENCE

(* The contactor that is to be open closes: it was pushed in, or has welded. *)
SEQUENCE a_contact_closes_when_it_must_not
  Reverse_Button()                 -> Contactors(FALSE, TRUE) -> Service_Lamp(FALSE, 1);
  Auxiliary_Contacts(TRUE, TRUE)   -> Contactors(FALSE, FALSE) -> Fault_Lamp(TRUE);
  Reset_Button()                   -> ;
  EXPECT Drive.Starter IN Tripped;
END_SEQUENCE

(* A start holds both places of the queue: a stop beside it is denied, and has to be offered again. *)
SEQUENCE a_stop_beside_a_start
  TOGETHER Forward_Button(), Stop_Button() -> Contactors(TRUE, FALSE) -> Service_Lamp(FALSE, 1) -> DENIED 53;
  Stop_Button()                    -> Contactors(FALSE, FALSE);
END_SEQUENCE

(* The key of the service sets the starts to 0. *)
SEQUENCE the_service_key
  Forward_Button()                 -> Contactors(TRUE, FALSE) -> Service_Lamp(FALSE, 1);
  Service_Key()                    -> Service_Lamp(FALSE, 0);
  EXPECT Start_Counter.CV = 0;
END_SEQUENCE
