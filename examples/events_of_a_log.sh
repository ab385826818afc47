tr -c 'A-Za-z_\n' ' ' < examples/door.log | bes judge ltlf 'G(open -> N !open)'
