name=$(printf 'a%.0s' {1..64}); echo "$name" | bes judge ltlf "$name$(printf " & $name%.0s" {1..99})"
