#!/usr/bin/env bash
# Measures the program, and prints tables for docs/PERFORMANCE.md.
#   BASELINE=FILE  another program with the same command line, to compare with
#   MONA=PROGRAM   translates LTLf formulas by MONA too, `mona` or another program, for 20 seconds each at most
#   PROGRAM=FILE   measures this program in place of crates/bes/out/bes
#   REPEAT=N       each time is the least of N runs, 5 without it
# Times are processor time of the one process. Peak memory needs GNU time, and is left out where there is none. It takes some
# minutes, 300 MB of disk for the traces, and 600 MB of memory, with MONA up to 2 GB.
set -eu
cd "$(dirname "$0")/.."
export PROGRAM=${PROGRAM:-crates/bes/out/bes}
if [ ! -x "$PROGRAM" ]; then
  echo "there is no program $PROGRAM: try 'rt run' in crates/bes" >&2
  exit 1
fi
scratch=$(mktemp -d)
trap 'rm -rf "$scratch"' EXIT
echo "Measured $(date +%F) at $(git rev-parse --short HEAD), $(grep -m 1 'model name' /proc/cpuinfo | cut -d: -f2- | xargs)," \
  "$(nproc) processors, load $(cut -d' ' -f1 /proc/loadavg) at the start."
python3 -B scripts/measure.py "$scratch"
