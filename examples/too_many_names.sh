bes forms ltlf "$(printf 'n%d | ' $(seq 32))n33"
