bes monitor ltlf 'G(request -> F grant)' < examples/watching_requests.trace
