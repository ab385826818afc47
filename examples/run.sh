#!/usr/bin/env bash
# Runs each example, and compares what it gives with what it must give.
#   NAME.sh and NAME.out   what is typed at the top of the clone; its output, its message and a line `status N`
#   NAME.tsv               a line a formula and a trace, with what judge answers; ` / ` between events, `.` for an empty one
# Then it looks whether each command that README and GUIDE show after a `$`, with its output, is one of these.
# It builds and runs the program of the clone, or runs BES=PROGRAM.
set -u
program=$(realpath -m "${BES:-$(dirname "$0")/../crates/bes/out/bes}")
cd "$(dirname "$0")/.." || exit 2
built=0
[ -n "${BES:-}" ] || (cd crates/bes && rt run -- forms ltlf true >/dev/null 2>&1) || built=$?
if [ "$built" -ne 0 ] || [ ! -x "$program" ]; then
  echo "the program was not built: try 'rt run' in crates/bes"
  echo "0 passed, 1 failed"
  exit 1
fi
passed=0
failed=0
scratch=$(mktemp -d) || exit 2
trap 'rm -rf "$scratch"' EXIT
ln -s "$program" "$scratch/bes"
PATH=$scratch:$PATH

# An example, the text that is wanted and the text that is given: it passed where they are the same.
compare() {
  if diff <(printf '%s\n' "$2") <(printf '%s\n' "$3") >"$scratch/difference"; then
    passed=$((passed + 1))
  else
    failed=$((failed + 1))
    echo "$1: wanted <, given >"
    cat "$scratch/difference"
  fi
}

for out in examples/*.out; do
  bash "${out%.out}.sh" </dev/null >"$scratch/out" 2>"$scratch/message"
  status=$?
  compare "$out" "$(<"$out")" "$(cat "$scratch/out" "$scratch/message"; echo "status $status")"
done

for table in examples/*.tsv; do
  while IFS=$'\t' read -r dialect formula trace answer; do
    case $answer in true) status=0 ;; false) status=1 ;; 'bes: formula'*) status=3 ;; *) status=4 ;; esac
    given=$(printf '%s\n' "${trace// \/ /$'\n'}" | tr -d . | bes judge "$dialect" "$formula" 2>&1; echo "status $?")
    compare "$table: $dialect $formula on $trace" "$answer"$'\n'"status $status" "$given"
  done < <(tail -n +2 "$table")
done

for document in README.md docs/GUIDE.md; do
  text=$(<"$document")
  shown=$(for out in examples/*.out; do
    command=$(<"${out%.out}.sh")
    [[ $text == *$'\n'"$ $command"$'\n'"$(sed '$d' "$out")"$'\n'[\$\`]* ]] && printf '%s\n' "$command"
  done | sort)
  compare "$document: the commands shown, and those with an example" "$(sed -n 's/^\$ //p' "$document" | sort)" "$shown"
done

echo "$passed passed, $failed failed"
[ "$failed" -eq 0 ]
