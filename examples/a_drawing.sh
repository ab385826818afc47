bes translate ltlf 'G(request -> F grant)' | awk -f examples/automaton_to_dot.awk
