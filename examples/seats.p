% Three guests sit down on three chairs in a row. Ann does not want to sit beside Bob.
cnf(ann,hypothesis, ( at(ann,1) | at(ann,2) | at(ann,3) )).
cnf(bob,hypothesis, ( at(bob,1) | at(bob,2) | at(bob,3) )).
cnf(cleo,hypothesis, ( at(cleo,1) | at(cleo,2) | at(cleo,3) )).
% No chair takes two.
cnf(ann_bob,axiom, ( ~ at(ann,X) | ~ at(bob,X) )).
cnf(ann_cleo,axiom, ( ~ at(ann,X) | ~ at(cleo,X) )).
cnf(bob_cleo,axiom, ( ~ at(bob,X) | ~ at(cleo,X) )).
% Which chairs stand beside each other.
cnf(beside_12,axiom, beside(1,2)).
cnf(beside_23,axiom, beside(2,3)).
cnf(apart,hypothesis, ( ~ beside(X,Y) | ~ at(ann,X) | ~ at(bob,Y) )).
cnf(apart_too,hypothesis, ( ~ beside(X,Y) | ~ at(bob,X) | ~ at(ann,Y) )).
