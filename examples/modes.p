% A device that is slow, fast or under test keeps its records on the disk or sends them over the net.
cnf(mode,axiom, ( slow | fast | test )).
cnf(test_uses_net,axiom, ( ~ test | net )).
cnf(recorded,axiom, ( disk | net )).
cnf(net_needs_disk,axiom, ( ~ net | disk )).
cnf(slow_has_no_disk,axiom, ( ~ disk | ~ slow )).
cnf(fast_has_no_disk,axiom, ( ~ disk | ~ fast )).
