printf '%4097s\n' a | bes judge ltlf 'F a'
