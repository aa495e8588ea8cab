#!/bin/bash
# Times the proved program on a chain of verbs, filter, two mutates and select, over tables of 2,000,000 and of 4,000,000
# rows of four whole numbers, beside the same work in mawk: for each the least seconds of five runs and the peak of its
# memory, and then the ratios. It tests nothing but that both print the same bytes.
# Usage: bench/chain.sh [ROWS], where ROWS is the number of rows of the smaller table.
set -eu
. "$(dirname "$0")/measure.sh"
rows=${1:-2000000}
cat >"$folder/s.R" <<'R'
t |>
  filter(a > 100, b != 7) |>
  mutate(e = a * 2 + b) |>
  mutate(f = e - c) |>
  select(d, e, f)
R
cat >"$folder/s.awk" <<'A'
BEGIN { FS = ","; print "d:int,e:int,f:int" }
NR > 1 && $1 != "NA" && $1 > 100 && $2 != 7 { e = $1 * 2 + $2; f = e - $3; print $4 "," e "," f }
A

# Makes sure that the program is built before it is timed; with no words it only answers that they are wrong.
"$top/acero_run" 2>/dev/null || true
program=$top/crates/acero_run/out/acero_run

make_table() {
    awk -v rows="$1" 'BEGIN {
        print "a:int,b:int,c:int,d:int"
        for (i = 1; i <= rows; i++) print (i % 11 == 0 ? "NA" : (i * 271) % 1009) "," i % 10 "," (i * 48271) % 10007 "," i
    }'
}

for size in "$rows" "$((2 * rows))"; do
    make_table "$size" >"$folder/t$size.csv"
    for tool in acero_run mawk; do echo "$tool $size $(wc -c <"$folder/t$size.csv")"; done >>"$folder/names"
    echo "$program --format csv $folder/s.R t=$folder/t$size.csv" >>"$folder/commands"
    echo "mawk -f $folder/s.awk $folder/t$size.csv" >>"$folder/commands"
done
"$program" --format csv "$folder/s.R" "t=$folder/t$rows.csv" | cmp - <(mawk -f "$folder/s.awk" "$folder/t$rows.csv") && echo "the same bytes"
echo "processors: $(nproc)"
measure 5 <"$folder/commands" | paste -d ' ' "$folder/names" - | awk '{
    printf "%s, %d rows, %d bytes: %.3f s, peak %d kB, %.2f times the table (status %d)\n", $1, $2, $3, $4, $5, $5 * 1024 / $3, $6
    if ($1 in last) printf "%s, ratio of the times at twice the rows: %.2f\n", $1, $4 / last[$1]
    last[$1] = $4; seen[$1] = $4
} END { printf "acero_run to mawk: %.2f\n", seen["acero_run"] / seen["mawk"] }'
