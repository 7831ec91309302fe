% Two clients ask for a lock. What the draft of the specification says:
cnf(one_asks,hypothesis, asks(one)).
cnf(two_asks,hypothesis, asks(two)).
% who asks gets the lock or waits;
cnf(served,axiom, ( ~ asks(X) | holds(X) | waits(X) )).
% who waits, waits for another one that holds it.
cnf(reason,axiom, ( ~ waits(X) | ~ other(X,Y) | holds(Y) )).
cnf(other_1,axiom, other(one,two)).
cnf(other_2,axiom, other(two,one)).
