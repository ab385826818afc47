bes monitor ltlf 'G a' < examples/a_promise_is_broken_for_good.trace
