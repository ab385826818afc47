bes forms ltlf 'F a' > /dev/full
