% The ladder has no end: no finite set of facts satisfies these rules.
cnf(start,axiom, reached(ground)).
cnf(climb,axiom, ( ~ reached(X) | reached(next(X)) )).
