#!/bin/sh
# Measures how fast trees are checked: lines per second, and the time for twice the lines; once for a tree whose lines
# are all different, and once for one whose lines are all the same.
# Use: bench/check_speed.sh PROGRAM [LINES], with at most 1,000,000 lines.
set -eu
program=$1
lines=${2:-1000000}
folder=$(mktemp -d)
trap 'rm -rf "$folder"' EXIT

# A thousand constants, each with a fact; a pair of them gives a literal of its own.
awk 'BEGIN {
    for (i = 0; i < 1000; i++) print "cnf(fact" i ",axiom,a(c" i "))."
    print "cnf(pair,axiom,~a(X)|~a(Y)|p(X,Y))."
    print "cnf(stop,axiom,~a(c0))."
}' > "$folder/pairs.p"

# One branch: the facts, then as many pairs, so that each line adds a literal that the branch does not have.
make() {
    awk -v lines="$2" 'BEGIN {
        print "mgtp tree 1\nroot"
        for (i = 1; i <= 1000; i++) print "form " i " []"
        for (i = 0; i < lines; i++) print "form 1001 [c" int(i / 1000) ",c" (i % 1000) "]"
        print "form 1002 []"
    }' > "$1"
}

# One literal that each line adds again.
printf 'cnf(yes,axiom,p).\ncnf(no,axiom,~p).\n' > "$folder/same.p"
make_same() {
    awk -v lines="$2" 'BEGIN {
        print "mgtp tree 1\nroot"
        for (i = 0; i < lines; i++) print "form 1 []"
        print "form 2 []"
    }' > "$1"
}

# Seconds that the check of a tree of a problem takes.
seconds() {
    start=$(date +%s%N)
    "$program" check "$1" "$2" > "$folder/answer" || { echo "check_speed: not accepted" >&2; exit 1; }
    end=$(date +%s%N)
    grep -q 'Tree accepted' "$folder/answer" || { echo "check_speed: not accepted" >&2; exit 1; }
    awk -v ns=$((end - start)) 'BEGIN { print ns / 1000000000 }'
}

# A row of the answer: the seconds for half of the lines and for all of them, and what they are.
row() {
    one=$(seconds "$2" "$folder/one.tree")
    two=$(seconds "$2" "$folder/two.tree")
    awk -v what="$1" -v one="$one" -v two="$two" -v lines="$lines" 'BEGIN {
        printf "%d lines, %s, in %.2f s: %.0f lines per second\n", lines, what, two, lines / two
        printf "twice the lines take %.2f times as long\n", two / one
    }'
}

make "$folder/one.tree" $((lines / 2))
make "$folder/two.tree" "$lines"
row "all different" "$folder/pairs.p"
make_same "$folder/one.tree" $((lines / 2))
make_same "$folder/two.tree" "$lines"
row "all the same" "$folder/same.p"
