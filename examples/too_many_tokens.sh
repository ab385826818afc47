bes forms ltlf "$(printf '(((a))) & %.0s' $(seq 250))a"
