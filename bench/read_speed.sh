#!/bin/sh
# Measures how fast problems are read: megabytes per second, and the time for twice the input.
# Use: bench/read_speed.sh PROGRAM [MEGABYTES], where PROGRAM has the command `forms FILE`.
set -eu
program=$1
megabytes=${2:-8}
folder=$(mktemp -d)
trap 'rm -rf "$folder"' EXIT

# Clauses with terms and variables that pad 20,000 clauses to about so many megabytes.
make() {
    awk -v bytes="$2" 'BEGIN {
        clauses = 19000
        want = int(bytes / clauses / 40)
        for (i = 1; i <= clauses; i++) {
            line = "cnf(c" i ",axiom,~p(X,Y)"
            for (j = 0; j < want && j < 60; j++)
                line = line "|q" (i % 100) "(f" j "(X,g(a" (i % 50) ",b" j ",12)),Y)"
            print line ")."
        }
    }' > "$1"
}

# Seconds that one call takes. Each clause has one form, so the last line counts the clauses.
seconds() {
    start=$(date +%s%N)
    "$program" forms "$1" > "$folder/answer" || { echo "read_speed: forms failed" >&2; exit 1; }
    end=$(date +%s%N)
    [ "$(tail -n 1 "$folder/answer")" = '% Forms: 19000' ] || { echo "read_speed: other forms" >&2; exit 1; }
    awk -v ns=$((end - start)) 'BEGIN { print ns / 1000000000 }'
}

make "$folder/one.p" $((megabytes * 1000000 / 2))
make "$folder/two.p" $((megabytes * 1000000))
one=$(seconds "$folder/one.p")
two=$(seconds "$folder/two.p")
size=$(wc -c < "$folder/two.p")
awk -v one="$one" -v two="$two" -v size="$size" 'BEGIN {
    printf "%d bytes in %.2f s: %.1f megabytes per second\n", size, two, size / 1000000 / two
    printf "twice the input takes %.2f times as long\n", two / one
}'
