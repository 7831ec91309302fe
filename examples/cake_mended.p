% Everybody here likes cake.
cnf(ann,axiom, person(ann)).
cnf(bob,axiom, person(bob)).
cnf(everybody,axiom, ( ~ person(X) | likes(X,cake) )).
