bes translate ltlf '(G(a -> F b)) & !(G(a -> X b))' | awk -f examples/least_trace.awk
