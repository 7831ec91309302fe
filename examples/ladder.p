% From each rung of a ladder one reaches the next one. Is the third rung out of reach?
cnf(start,axiom, reached(ground)).
cnf(climb,axiom, ( ~ reached(X) | reached(next(X)) )).
cnf(goal,negated_conjecture, ~ reached(next(next(next(ground))))).
