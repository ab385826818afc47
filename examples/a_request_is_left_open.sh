bes judge ltlf 'G(request -> F grant)' < examples/a_request_is_left_open.trace
