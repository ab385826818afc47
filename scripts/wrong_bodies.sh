#!/usr/bin/env bash
# Tries the wrong bodies of crates/NAME/wrong-bodies/, which the gate doesn't read: the prover must refuse each.
#   wrong_bodies.sh            those of every crate
#   wrong_bodies.sh NAME ..    those of these crates
#   wrong_bodies.sh --rotate   those of two crates, which the commit chooses: the same commit tries the same
# It works on a copy, which begins with what `rt check` and `rt ci` left in out/. Its last line is 'N refused, M not',
# and its status is 0 exactly where each was refused. Each crate is named as it begins, so a run that is cut off says where.
set -u
shopt -s nullglob
cd "$(dirname "$0")/.." || exit 2

holding=()
for folder in crates/*/wrong-bodies/; do
  name=${folder#crates/}
  holding+=("${name%%/*}")
done

case "${1:-}" in
  '') names=("${holding[@]}") ;;
  --rotate)
    many=${#holding[@]}
    commit=$(git rev-parse HEAD) || exit 2
    drawn=$((16#${commit:0:12}))
    first=$((drawn % many))
    second=$(((first + 1 + drawn / many % (many - 1)) % many))
    names=("${holding[first]}" "${holding[second]}")
    ;;
  *) names=("$@") ;;
esac
for name in "${names[@]}"; do
  if [ ! -d "crates/$name/wrong-bodies" ]; then
    echo "no wrong bodies: crates/$name/wrong-bodies"
    exit 2
  fi
done

scratch=$(mktemp -d) || exit 2
trap 'rm -rf "$scratch"' EXIT
trap 'exit 143' TERM INT HUP
mkdir "$scratch/copy" "$scratch/tmp"
cp -a crates crates.txt HANDLES "$scratch/copy" || exit 2
rm -rf "$scratch"/copy/crates/*/must-fail
export TMPDIR=$scratch/tmp
cd "$scratch/copy" || exit 2

refused=0
tried=0
for name in "${names[@]}"; do
  mv "crates/$name/wrong-bodies" "crates/$name/must-fail"
  edits=(crates/"$name"/must-fail/*)
  echo "$name: ${#edits[@]} wrong bodies"
  rt must-fail "$name" 2>&1 | tee "$scratch/said"
  tried=$((tried + ${#edits[@]}))
  refused=$((refused + $(grep -c "must-fail $name/.*\.edit: refused, as it must be" "$scratch/said")))
done
echo "$refused refused, $((tried - refused)) not"
[ "$refused" -eq "$tried" ]
