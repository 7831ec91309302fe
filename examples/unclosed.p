cnf(a,axiom,likes(ann,'cake)).
