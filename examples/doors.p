% A door is open or locked. Where it is open it must not be locked, and the last literal is the conclusion of a form of its own.
cnf(front,axiom, door(front)).
cnf(back,axiom, door(back)).
cnf(state,axiom, ( ~ door(X) | open(X) | locked(X) )).
cnf(never_both,axiom, ( ~ open(X) | ~ locked(X) ), unknown, [conclude([2])]).
cnf(front_locked,hypothesis, locked(front)).
