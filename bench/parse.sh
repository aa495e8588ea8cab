#!/bin/bash
# Seconds to read scripts of 2^18, 2^19 and 2^20 bytes by the grammar: with long lists of arguments, with chains of
# operators below the limit, and with nested calls. Each is the least of ten runs, and the last line says whether time
# is linear.
# It drives the built program (crates/syntax_check/out/syntax_check, or the program given as the first word). The scripts
# are scanned and parsed whole.
set -u
. "$(dirname "$0")/measure.sh"
syntax_check "$@"

# So many times the word.
times() { yes "$1" | head -n "$2" | tr -d '\n'; }

# A script of about so many bytes: a first part, so many times the word as fit, and a last part.
script() {
    local room=$(($4 - ${#1} - ${#3}))
    printf '%s' "$1"
    times "$2" $((room / ${#2}))
    printf '%s' "$3"
}

for kind in arguments operators calls; do
    for power in 18 19 20; do
        size=$((1 << power))
        case $kind in
            arguments) script 't |> f(1' ', x' ')' "$size" ;;
            operators) script 't |> f(1' ", 1$(times '+1' 1000)" ')' "$size" ;;
            calls) script 't |> f(1' ", $(times 'g(' 100)1$(times ')' 100)" ')' "$size" ;;
        esac > "$folder/$kind.$power"
        echo "$kind 2^$power" >> "$folder/names"
        echo "$program $folder/$kind.$power" >> "$folder/commands"
    done
done
measure 10 < "$folder/commands" | cut -d ' ' -f 1 | paste -d ' ' "$folder/names" - | judge
