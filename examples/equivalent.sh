bes translate ltlf '!((G F a) <-> (F G a))' | grep -x 'whole 1'
