#!/usr/bin/env bash
# Runs commands of the program with each of their allocations refused in turn, first that one alone, then with all after it.
# A run must end with status 8, its message and no output. With one refusal alone it may also do without what was refused,
# and then end just as it does with none. Words that are none of the listed forms are refused whatever memory there is: each
# such run must end just as it does with none refused. Where `monitor` ends with status 8 it must have left all its input, since it takes
# memory before the first event only.
#   PROGRAM=FILE   runs this program in place of crates/bes/out/bes, which is built first
# (`rt try --fail-alloc N` refuses one allocation too, but builds the program anew for each N.)
set -u
cd "$(dirname "$0")/.." || exit 2
program=${PROGRAM:-crates/bes/out/bes}
built=0
[ -n "${PROGRAM:-}" ] || (cd crates/bes && rt run -- forms ltlf true >/dev/null 2>&1) || built=$?
if [ "$built" -ne 0 ] || [ ! -x "$program" ]; then
  echo "there is no program $program, or it was not built: try 'rt run' in crates/bes"
  echo "0 passed, 1 failed"
  exit 1
fi
scratch=$(mktemp -d) || exit 2
trap 'rm -rf "$scratch"' EXIT

compiler=${CC:-cc}
flags=()
if ! command -v "$compiler" >/dev/null; then
  compiler=$(dirname "$(readlink -f "$(command -v rt)")")/../toolchain/bin/clang
  flags=(-fuse-ld=lld)
fi
"$compiler" "${flags[@]}" -shared -fPIC -nostdlib -fno-builtin -o "$scratch/refuse.so" scripts/refuse.c || exit 2

input=$'request a\n\ngrant b\na\n'
printf %s "$input" >"$scratch/input"
passed=0
failed=0

# Runs the program with the allocations $1 to $2 refused. It leaves `status`, `rest`, and the files out, err and refusals.
run() {
  {
    REFUSE_FIRST=$1 REFUSE_LAST=$2 LD_PRELOAD=$scratch/refuse.so "$program" "${words[@]}" \
      >"$scratch/out" 2>"$scratch/err" 9>"$scratch/refusals"
    status=$?
    IFS= read -r -d '' rest
  } <"$scratch/input" 2>/dev/null
}

is_told() {
  [ "$status" -eq 8 ] && [ ! -s "$scratch/out" ] && [ "$(<"$scratch/err")" = 'bes: out of memory' ] &&
    { [ "${words[0]}" != monitor ] || [ "$rest" = "$input" ]; }
}

is_as_ever() {
  [ "$status" -eq "$usual" ] && cmp -s "$scratch/out" "$scratch/usual.out" && cmp -s "$scratch/err" "$scratch/usual.err"
}

fail() {
  failed=$((failed + 1))
  printf '  %s, %s refused: status %s, output %q, message %q, %s bytes of input taken\n' "${words[*]}" "$1" "$status" \
    "$(head -c 60 "$scratch/out")" "$(head -c 60 "$scratch/err")" "$((${#input} - ${#rest}))"
}

while IFS='|' read -r -a words; do
  before=$failed
  spared=0
  run 0 0
  usual=$status
  cp "$scratch/out" "$scratch/usual.out"
  cp "$scratch/err" "$scratch/usual.err"
  case $status in
    0 | 1 | 2 | 3 | 6) passed=$((passed + 1)) ;;
    *) fail none ;;
  esac
  for ((n = 1; ; n++)); do
    run "$n" "$n"
    [ -s "$scratch/refusals" ] || break
    if is_told && [ "$usual" -ne 2 ]; then
      passed=$((passed + 1))
    elif is_as_ever; then
      passed=$((passed + 1))
      spared=$((spared + 1))
    else
      fail "$n alone"
    fi
    run "$n" 999999999
    if [ "$usual" -eq 2 ] && is_as_ever || [ "$usual" -ne 2 ] && is_told; then
      passed=$((passed + 1))
    else
      fail "$n and all after"
    fi
  done
  echo "${words[*]}: $((n - 1)) allocations, $spared of them done without, $((failed - before)) wrong ends"
done <<'END'
judge|ltlf|F a
judge|ltlf|G(request -> F grant)
judge|ltlf|a &
judge|ldlf|<(true;true)*> end
judge|ldlf|<(a? + true?)*> end
judge|ldlf|[{request & !grant};true*] <(a?;b)*> true
forms|ltlf|!(a U X b)
forms|ldlf|!<(a?;{b -> c})*> !d
translate|ltlf|false
translate|ltlf|G a
translate|ltlf|G(request -> F grant)
translate|ltlf|a R N (b <-> X !a)
translate|ldlf|<(true;true)*> end
translate|ldlf|[{request & !grant};true*] <(a?;b)*> true
monitor|ltlf|G a
monitor|ltlf|G(request -> F grant)
monitor|ldlf|<(true;true)*> end
synth|examples/pump.spec
synth|examples/grant.spec
synth|examples/a_name_given_twice.spec
synth|examples/an_assumption_on_the_agent.spec
judge|ltlf
judge|mtl|a
watch|ltlf|a
monitor
a|b|c|d
END
echo "$passed passed, $failed failed"
[ "$failed" -eq 0 ]
