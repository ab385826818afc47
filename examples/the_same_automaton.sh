diff <(bes translate ltlf 'G F a' | grep -v ^part) <(bes translate ltlf 'F G a' | grep -v ^part) && echo the same
