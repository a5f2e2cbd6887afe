#!/bin/sh
# Instructions per call of every side at every size, by valgrind: two runs of
# each side that differ only in the number of passes over the inputs.
# Usage: count.sh PATH-OF-BENCH > counts.tsv
set -eu

bench=$1
few=1
many=3
inputs=256

# Instructions of a whole run of so many passes.
instructions() {
    valgrind --tool=callgrind --callgrind-out-file=/dev/null \
        "$bench" --count "$1" "$2" "$3" "$4" 2>&1 </dev/null |
        sed -n 's/.*Collected *: *//p'
}

printf 'operation\tsize\tside\tinstructions\n'
"$bench" --list | while read -r operation size side; do
    less=$(instructions "$operation" "$size" "$side" $few)
    more=$(instructions "$operation" "$size" "$side" $many)
    per_call=$(((more - less) / ((many - few) * inputs)))
    printf '%s\t%s\t%s\t%s\n' "$operation" "$size" "$side" "$per_call"
done
