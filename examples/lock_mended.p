% The rule that the draft forgot: no two clients hold the lock at once.
include('lock.p').
cnf(exclusive,axiom, ( ~ other(X,Y) | ~ holds(X) | ~ holds(Y) )).
