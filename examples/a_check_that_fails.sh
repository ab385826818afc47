xargs -d '\n' -n 1 sh -c 'bes judge ltlf "$1" < examples/a_request_is_left_open.trace > /dev/null || { echo "not met: $1"; exit 1; }' _ < examples/formulas.txt
