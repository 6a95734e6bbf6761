MODULE Monitor;
(* Collects fault codes in a mask and opens the relay at the first alarm.
   Code 15 is the service key: it clears the mask. *)
CONST
  codes = 0;     (* the channel of the fault codes *)
  relay = 1;     (* 0 opens the relay *)
  display = 2;   (* how many faults are open *)
  alarms = {2, 5..7};
  service = 15;
VAR
  mask: BITSET;
  code: INTEGER;
  open: BOOLEAN;

PROCEDURE Count(set: BITSET): INTEGER;
VAR
  i, n: INTEGER;
BEGIN
  FOR i := 0 TO 15 DO
    IF i IN set THEN INC(n) END
  END;
  RETURN n
END Count;

BEGIN
  LOOP
    Take(codes, code);
    IF (code < 0) OR (code > 15) THEN (* no fault code of this pack *)
    ELSIF code = service THEN
      mask := {};
      open := FALSE
    ELSE
      INCL(mask, code)
    END;
    IF ~open & (mask * alarms <> {}) THEN
      open := TRUE;
      Put(relay, 0)
    END;
    Put(display, Count(mask))
  END
END Monitor.
