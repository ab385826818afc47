bes translate ltlf 'G(request -> F grant)'
