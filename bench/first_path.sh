#!/bin/bash
# Times the proved program on tables of 2,000,000 and of 4,000,000 rows, and prints for each the least seconds of ten
# runs and the peak of its memory beside the table's bytes, and then the ratio of both times. It tests nothing.
# Usage: bench/first_path.sh [ROWS], where ROWS is the number of rows of the smaller table.
set -eu
. "$(dirname "$0")/measure.sh"
rows=${1:-2000000}
printf 't |> filter(x > 500000) |> select(id, x)\n' >"$folder/s.R"

# Makes sure that the program is built before it is timed; with no words it only answers that they are wrong.
"$top/acero_run" 2>/dev/null || true
program=$top/crates/acero_run/out/acero_run

make_table() {
    awk -v rows="$1" 'BEGIN {
        print "id:int,x:int"
        for (i = 1; i <= rows; i++) print i "," (i % 7 == 0 ? "NA" : (i * 48271) % 1000003)
    }'
}

for size in "$rows" "$((2 * rows))"; do
    make_table "$size" >"$folder/t$size.csv"
    echo "$size $(wc -c <"$folder/t$size.csv")" >>"$folder/names"
    echo "$program --format csv $folder/s.R t=$folder/t$size.csv" >>"$folder/commands"
done
echo "processors: $(nproc)"
measure 10 <"$folder/commands" | paste -d ' ' "$folder/names" - | awk '{
    printf "%d rows, %d bytes: %.3f s, peak %d kB, %.2f times the table (status %d)\n", $1, $2, $3, $4, $4 * 1024 / $2, $5
    before = last; last = $3
} END { printf "ratio of the times: %.2f\n", last / before }'
