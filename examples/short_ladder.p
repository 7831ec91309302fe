% A ladder of three rungs. The facts `step` bound what can be reached.
cnf(step_1,axiom, step(ground,one)).
cnf(step_2,axiom, step(one,two)).
cnf(step_3,axiom, step(two,three)).
cnf(start,axiom, reached(ground)).
cnf(climb,axiom, ( ~ reached(X) | ~ step(X,Y) | reached(Y) )).
