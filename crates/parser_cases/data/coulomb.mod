MODULE Coulomb;
(* Counts charge. A sample is a current in eighths of a unit. What a division
   leaves over is carried to the next sample, so that nothing is lost. *)
CONST
  current = 0;   (* the channel of the samples *)
  gauge = 1;     (* the channel of the charge *)
  eighths = 8;
VAR
  sample, charge, carry: INTEGER;
BEGIN
  LOOP
    Take(current, sample);
    carry := carry + sample MOD eighths;
    charge := charge + sample DIV eighths + carry DIV eighths;
    carry := carry MOD eighths;
    Put(gauge, charge)
  END
END Coulomb.
