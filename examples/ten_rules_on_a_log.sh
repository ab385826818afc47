while read -r rule; do echo "$(tr -c 'A-Za-z_\n' ' ' < examples/order.log | bes judge ltlf "$rule") $rule"; done < examples/order.rules
