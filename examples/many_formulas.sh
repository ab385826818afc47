xargs -d '\n' -n 1 -P 4 sh -c 'echo "$(bes judge ltlf "$1" < examples/a_request_is_left_open.trace) $1"' _ < examples/formulas.txt | sort
