bes forms ltlf "$(printf 'X %.0s' $(seq 301))a"
