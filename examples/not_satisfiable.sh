bes translate ltlf 'G a & F !a' | grep -x 'whole 1'
