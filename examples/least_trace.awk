# Reads an automaton, and prints the least trace in shortlex order that it accepts. Status 1 where it accepts none.
$1 == "names" { for (i = 2; i <= NF; i++) name[i - 1] = $i }
$1 == "location" { here = $2; if ($3 == "accept" && goal == "") goal = here }
# Locations come in the order of their least words, and so do the cubes of each.
$1 == "round" && !($3 in cube) { from[$3] = here; cube[$3] = $2 }
function event(bits, i, line) {
  for (i = 1; i <= length(bits); i++) if (substr(bits, i, 1) == "1") line = line " " name[i]
  return substr(line, 2)
}
END {
  if (goal == "") exit 1
  for (at = goal; at != 0; at = from[at]) trace = event(cube[at]) "\n" trace
  printf "%s", trace
}
