bes translate ltlf '(G(a -> X b)) & !(G(a -> F b))' | grep -x 'whole 1'
