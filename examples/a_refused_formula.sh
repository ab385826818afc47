bes judge ltlf 'G(request -> ) & F grant'
