% Cake or tea, and coffee with the cake.
cnf(choice,axiom, ( cake | tea )).
cnf(with_cake,axiom, ( ~ cake | coffee )).
