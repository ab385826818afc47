bes translate ltlf 'F a & F b & F c' | grep -E '^(part|whole)'
