% Everybody likes cake: refused, since nothing says who everybody is.
cnf(everybody,axiom, likes(X,cake)).
