bes judge ltlf "$(sed 's/#.*//' examples/goal.ltlf | tr '\n' ' ')" < examples/every_request_is_granted.trace
