# Reads an automaton, and prints it as a graph for dot: accepting locations have two circles, an arrow has what is true then.
BEGIN {
  print "digraph automaton {"
  print "  rankdir=LR; node [shape=circle]; start [shape=point]; start -> 0;"
}
$1 == "names" { for (i = 2; i <= NF; i++) name[i - 1] = $i }
$1 == "location" { here = $2; if ($3 == "accept") print "  " here " [shape=doublecircle];" }
# A cube as a conjunction, and the cubes of one arrow below each other.
$1 == "round" { arrow = here " -> " $3; if (!(arrow in label)) order[++arrows] = arrow; else label[arrow] = label[arrow] "\\n"; label[arrow] = label[arrow] event($2) }
function event(cube, i, sign, text) {
  for (i = 1; i <= length(cube); i++) {
    sign = substr(cube, i, 1)
    if (sign == "1") text = text " & " name[i]
    if (sign == "0") text = text " & !" name[i]
  }
  return text == "" ? "true" : substr(text, 4)
}
END {
  for (i = 1; i <= arrows; i++) print "  " order[i] " [label=\"" label[order[i]] "\"];"
  print "}"
}
