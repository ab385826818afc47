bes judge ltlf 'a &'
