% Two rules ask for the same choice, and one half of the proof serves for both.
cnf(first,axiom, ( a | b )).
cnf(second,axiom, ( c | d )).
cnf(not_c,axiom, ~ c).
cnf(not_d,axiom, ~ d).
