yes "$(printf '%4095s' a)" | head -c 67108865 | bes judge ltlf 'F a'
