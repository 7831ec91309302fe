cnf(c1,axiom,p|q).
cnf(c2,axiom,~p).
cnf(c3,axiom,~q).
