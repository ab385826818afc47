bes judge ltlf 'F a' < examples/requests.trace
