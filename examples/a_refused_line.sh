bes judge ltlf 'F a' < examples/a_refused_line.trace
