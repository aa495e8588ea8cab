#!/bin/bash
# Seconds of 10,000,000 evaluations of `x * 2 + y > z` and of a case_when of three arms, over a thousand rows.
# It drives the built program (crates/expression_runs/out/expression_runs, or the program given as the first word).
# Each number is the least of five runs. It tests nothing.
set -eu
cd "$(dirname "$0")/.."
program=$(realpath "${1:-crates/expression_runs/out/expression_runs}")
[ -x "$program" ] || { echo "build expression_runs first (rt run in its folder): $program is no program" >&2; exit 1; }
TIMEFORMAT=%R

least() { for _ in 1 2 3 4 5; do { time "$program" "$1" 10000 > /dev/null; } 2>&1; done | sort -n | head -n 1; }

echo "x * 2 + y > z: $(least compare) s"
echo "case_when of three arms: $(least cases) s"
