tr -c 'A-Za-z_\n' ' ' < examples/door.log | bes monitor ltlf 'G(open -> N !open)' | { grep -q perm_false && echo alarm; }
