bes judge ltlf 'G(request -> F grant)' < examples/every_request_is_granted.trace
