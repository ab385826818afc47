bes translate ltlf "$(sed 's/.*/(&)/' examples/order.rules | paste -sd '&')" | awk -f examples/least_trace.awk
