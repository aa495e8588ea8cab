#!/bin/bash
# Seconds to scan scripts of 2^18, 2^19 and 2^20 bytes: of names, of one long text and of operators. Each is the least
# of twenty runs, and the last line says whether time is linear.
# It drives the built program (crates/syntax_check/out/syntax_check, or the program given as the first word) with scripts
# that are scanned whole and then refused by the grammar at one of their first tokens, so the time is the scan's.
set -u
. "$(dirname "$0")/measure.sh"
syntax_check "$@"

# So many bytes of the words, again and again.
fill() { yes "$1" | tr -d '\n' | head -c "$2"; }

for kind in names text operators; do
    for power in 18 19 20; do
        size=$((1 << power))
        case $kind in
            names) fill 'amount day.1 ' "$size" ;;
            text) printf "'"; fill 'a' $((size - 2)); printf "'" ;;
            operators) fill '+-*/' "$size" ;;
        esac > "$folder/$kind.$power"
        echo "$kind 2^$power" >> "$folder/names"
        echo "$program $folder/$kind.$power" >> "$folder/commands"
    done
done
measure 20 < "$folder/commands" | cut -d ' ' -f 1 | paste -d ' ' "$folder/names" - | judge
