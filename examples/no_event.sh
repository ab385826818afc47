bes judge ltlf 'F a' < /dev/null
