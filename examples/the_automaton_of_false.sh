bes translate ltlf 'false'
