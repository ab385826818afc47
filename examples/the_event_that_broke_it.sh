tr -c 'A-Za-z_\n' ' ' < examples/door.log | bes monitor ltlf 'G(open -> N !open)' | awk '/perm_false/ && !seen++ { print NR }'
