#!/bin/bash
# Times the reading of tables of orders, and the reading and printing of them as CSV, at 2,500,000 and 5,000,000 rows
# (about 120 MB). For each it prints the least seconds of five runs and the peak of its memory beside the file's bytes,
# then the ratio of the times at twice the rows, and what miller takes to copy the larger file, where it is installed. It
# tests nothing.
# It drives the built program crates/table_runs/out/table_runs (`rt run` in its folder leaves it). The tables stand in a
# temporary folder, which the system's memory may hold; what is printed goes to /dev/null.
# Usage: bench/tables.sh [ROWS], where ROWS is the number of rows of the smaller table.
set -eu
. "$(dirname "$0")/measure.sh"
rows=${1:-2500000}
program=$top/crates/table_runs/out/table_runs
[ -x "$program" ] || { echo "build table_runs first (rt run in its folder): $program is no program" >&2; exit 1; }

for size in "$rows" "$((2 * rows))"; do
    file=$folder/orders$size.csv
    python3 "$top/bench/table_orders.py" "$size" "$file"
    for word in read csv; do
        echo "$word $size $(wc -c <"$file")" >>"$folder/names"
        echo "$program $word $file" >>"$folder/commands"
    done
done
if [ -n "$(command -v mlr)" ]; then
    echo "mlr $((2 * rows)) $(wc -c <"$file")" >>"$folder/names"
    echo "mlr --icsv --ocsv cat $file" >>"$folder/commands"
fi
echo "processors: $(nproc)"
measure 5 <"$folder/commands" | paste -d ' ' "$folder/names" - | awk '{
    printf "%s, %d rows, %d bytes: %.3f s, peak %d kB, %.2f times the file (status %d)\n", $1, $2, $3, $4, $5, $5 * 1024 / $3, $6
    if ($1 in before) ratio[$1] = $4 / before[$1]
    before[$1] = $4
} END { printf "ratio of the times: read %.2f, csv %.2f\n", ratio["read"], ratio["csv"] }'
