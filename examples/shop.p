% The shop is wanted. Every minimal choice of packages?
include('packages.p').
cnf(wanted,hypothesis, in(shop)).
