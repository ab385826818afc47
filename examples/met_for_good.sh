bes monitor ltlf 'F a' < examples/met_for_good.trace
