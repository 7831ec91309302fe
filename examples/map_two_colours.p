% The same map with two colours only: a country that is blue is none of ours.
include('map.p').
cnf(no_blue,hypothesis, ~ blue(X)).
