bes monitor ltlf 'G(a -> F b)' < examples/a_refused_event.trace
