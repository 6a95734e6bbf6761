MODULE Average;
(* The mean of the last eight samples. Quotients and remainders are added
   apart, so that no sum leaves INTEGER. *)
CONST
  probe = 3;     (* the channel of the samples *)
  display = 4;   (* the channel of the mean *)
  size = 8;
  last = 7;
VAR
  window: ARRAY [0..last] OF INTEGER;
  oldest, i, whole, rest: INTEGER;
BEGIN
  LOOP
    Take(probe, window[oldest]);
    oldest := (oldest + 1) MOD size;
    whole := 0;
    rest := 0;
    FOR i := 0 TO last DO
      whole := whole + window[i] DIV size;
      rest := rest + window[i] MOD size
    END;
    Put(display, whole + rest DIV size)
  END
END Average.
