while read -r f; do bes translate ltlf "(request | grant | true) & ($f)" | grep -v ^part | tr '\n' ' '; echo; done < examples/formulas.txt | sort -u | wc -l
