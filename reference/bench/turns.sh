#!/bin/sh
# Two benchmarks, linked with two libraries, in turn: how long interlocks take to be judged by the tables of the one and of
# the other. Of each the least of its turns counts.
# Usage: turns.sh BENCH-BEFORE BENCH-NOW [TURNS]
set -eu

before=$1
now=$2
turns=${3:-5}

turn=0
while [ "$turn" -lt "$turns" ]; do
    "$before" --interlocks | sed 's/^/before\t/'
    "$now" --interlocks | sed 's/^/now\t/'
    turn=$((turn + 1))
done | awk -F '\t' '
    { key = $2 "\t" $3 "\t" $4; nodes[$1, key] = $5; if (!(key in seen)) { seen[key] = 1; order[++count] = key } }
    !(($1, key) in least) || $6 < least[$1, key] { least[$1, key] = $6 }
    END {
        print "rule\tq\ttable\tnodes before\tnodes\tns before\tns\tratio"
        for (i = 1; i <= count; i++) {
            key = order[i]
            printf "%s\t%s\t%s\t%s\t%s\t%.2f\n", key, nodes["before", key], nodes["now", key], least["before", key], least["now", key], least["now", key] / least["before", key]
        }
    }'
