bes forms ltlf "a & $(printf 'x%.0s' $(seq 65))"
