bes translate ltlf 'G a'
