bes forms ltlf '!(a U X b)'
