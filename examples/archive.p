% The archive is wanted. Can it be installed?
include('packages.p').
cnf(wanted,hypothesis, in(archive)).
