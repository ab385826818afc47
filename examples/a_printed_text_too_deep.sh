bes forms ltlf "$(bes forms ltlf "$(printf 'a & %.0s' $(seq 151))a" | sed -n 's/^form //p')"
