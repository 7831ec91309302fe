% The same device without its test: it can keep no records.
cnf(mode,axiom, ( slow | fast )).
cnf(recorded,axiom, ( disk | net )).
cnf(net_needs_disk,axiom, ( ~ net | disk )).
cnf(slow_has_no_disk,axiom, ( ~ disk | ~ slow )).
cnf(fast_has_no_disk,axiom, ( ~ disk | ~ fast )).
