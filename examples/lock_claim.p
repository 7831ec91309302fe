% That both hold the lock: refuted, if the specification is right.
cnf(one_holds,negated_conjecture, holds(one)).
cnf(two_holds,negated_conjecture, holds(two)).
include('lock_mended.p').
