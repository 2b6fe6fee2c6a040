#!/usr/bin/env bash
# Times constant expressions, by the program that works their table: of up to 64 levels, of up to 60,000 tokens, and a register
# of up to 4,096 bits with a set of as many members. Twice the size should take about twice the time. It is a benchmark and no
# part of the gate. A time is that of one expression, read, parsed and worked, on the average of many in one run.
set -eu
cd "$(dirname "$0")/../crates/const_cases"
rt run < stdin > /dev/null
folder=$(mktemp -d)
trap 'rm -rf "$folder"' EXIT

# Piece after piece, so many times.
times() {
    awk -v count="$1" -v piece="$2" 'BEGIN { for (i = 0; i < count; i++) printf "%s", piece }'
}

# So many levels: that of each minus, or of each bracket.
minus() {
    printf '====\n%s1\n' "$(times "$1" '-')"
}

brackets() {
    printf '====\n%s1%s\n' "$(times "$1" '(')" "$(times "$1" ')')"
}

# About so many tokens: brackets of 64 brackets of 64 ones with + between.
tokens() {
    awk -v tokens="$1" 'BEGIN {
        print "===="
        ones = "(1"; for (i = 1; i < 64; i++) ones = ones "+1"; ones = ones ")"
        groups = int(tokens / 130)
        for (i = 0; i < groups; i++) {
            if (i % 64 == 0) printf "%s(", i == 0 ? "" : ")+"
            printf "%s%s", i % 64 == 0 ? "" : "+", ones
        }
        print ")"
    }'
}

# A register of so many bits, and all of them in a set.
members() {
    printf 'b = "%s";\n====\n' "$(times "$(($1 / 2))" '10')"
    awk -v members="$1" 'BEGIN {
        printf "b[{"
        for (i = 0; i < members; i++) printf "%s%d", i == 0 ? "" : ",", i
        print "}]"
    }'
}

# The time of one expression, of so many in one run.
measure() {
    local text=$1 count=$2 start end
    awk -v count="$count" 'NR == 1, /^====$/ { print; next } { for (i = 0; i < count; i++) print }' "$text" > "$folder/many"
    start=$(date +%s%N)
    out/const_cases < "$folder/many" > "$folder/answers"
    end=$(date +%s%N)
    printf ' %12d' "$(((end - start) / count / 1000))"
}

# A row: what makes the expression, how many of them a run has, and three sizes.
row() {
    local make=$1 count=$2 size
    shift 2
    printf '%-9s' "$make"
    for size in "$@"; do
        "$make" "$size" > "$folder/text"
        printf ' %7d' "$size"
        measure "$folder/text" "$count"
    done
    printf '   %s\n' "$(tail -n 1 "$folder/answers" | sed 's/.*: //' | cut -c 1-24)"
}

printf '%-9s %7s %12s %7s %12s %7s %12s   %s\n' text size microseconds size microseconds size microseconds 'the last answer'
row minus 4000 16 32 64
row brackets 4000 16 32 64
row tokens 8 15000 30000 60000
row members 50 1024 2048 4096
