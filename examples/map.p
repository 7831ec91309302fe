% Four countries, five borders, three colours: no border has the same colour on both sides.
cnf(alba,axiom, country(alba)).
cnf(berg,axiom, country(berg)).
cnf(cove,axiom, country(cove)).
cnf(dale,axiom, country(dale)).
cnf(border_1,axiom, border(alba,berg)).
cnf(border_2,axiom, border(berg,cove)).
cnf(border_3,axiom, border(cove,dale)).
cnf(border_4,axiom, border(alba,dale)).
cnf(border_5,axiom, border(alba,cove)).
cnf(coloured,axiom, ( ~ country(X) | red(X) | green(X) | blue(X) )).
cnf(not_red,axiom, ( ~ border(X,Y) | ~ red(X) | ~ red(Y) )).
cnf(not_green,axiom, ( ~ border(X,Y) | ~ green(X) | ~ green(Y) )).
cnf(not_blue,axiom, ( ~ border(X,Y) | ~ blue(X) | ~ blue(Y) )).
