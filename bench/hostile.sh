#!/usr/bin/env bash
# Times `check` on texts of one, two and four MiB that repeat one piece: brackets that never close or never open,
# statements, long lists, and 64 levels of each construct over and over. Twice the text should take about twice
# the time. It is a benchmark and no part of the gate.
. "$(dirname "$0")/setup.sh"

# A front, as many copies of a piece as fit into so many bytes, and an end.
repeated() {
    awk -v bytes="$1" -v front="$2" -v piece="$3" -v end="$4" 'BEGIN {
        printf "%s", front
        count = int((bytes - length(front) - length(end)) / length(piece))
        for (i = 0; i < count; i++) printf "%s", piece
        printf "%s", end
    }'
}

# A piece so many times.
times() {
    awk -v count="$1" -v piece="$2" 'BEGIN { for (i = 0; i < count; i++) printf "%s", piece }'
}

printf '%14s %9s %9s %9s   %s\n' text '1 MiB' '2 MiB' '4 MiB' 'answer at 4 MiB'
row() {
    printf '%14s' "$1"
    for bytes in 1048576 2097152 4194304; do
        repeated "$bytes" "$2" "$3" "$4" > "$folder/text.qasm"
        start=$(date +%s%N)
        bin/qasm_qir check < "$folder/text.qasm" > "$folder/answer" 2>&1 || true
        end=$(date +%s%N)
        printf ' %6d ms' "$(((end - start) / 1000000))"
    done
    printf '   %s\n' "$(cat "$folder/answer")"
}
row '(' 'x=' '(' ''
row '[' 'x=a' '[' ''
row '{' 'if(1)' '{' ''
row ')' 'x=1' ')' ''
row ']' 'x=1' ']' ''
row '}' 'x=1;' '}' ''
row '-' 'x=' '-' ''
row ';' '' ';' ''
row 'if(1)' '' 'if(1)' ''
row 'x q;' '' 'x q;' ''
row 'x q; .. @' '' 'x q;' '@'
row 'barrier a,..' 'barrier a' ',a' ';'
row 'f(1,..)' 'f(1' ',1' ');'
row 'x[0][0]..' 'x' '[0]' '=1;'
row '64 +1' '' "x=1$(times 64 '+1');" ''
row '64 **1' '' "x=1$(times 64 '**1');" ''
row '64 -' '' "x=$(times 64 '-')1;" ''
row '64 (' '' "x=$(times 64 '(')1$(times 64 ')');" ''
row '64 x[' '' "x=$(times 64 'x[')1$(times 64 ']');" ''
row '32 x[{' '' "x=$(times 32 'x[{')1$(times 32 '}]');" ''
row '64 f(' '' "x=$(times 64 'f(')1$(times 64 ')');" ''
row '64 int[' '' "x=$(times 64 'int[')1$(times 64 '](1)');" ''
row '64 if(1){' '' "$(times 64 'if(1){')$(times 64 '}')" ''
row '64 while(1){' '' "$(times 64 'while(1){')$(times 64 '}')" ''
row '64 for' '' "$(times 64 'for int i in{1}{')$(times 64 '}')" ''
row '64 def' '' "$(times 64 'def f(){')$(times 64 '}')" ''
row '64 inv@' '' "$(times 64 'inv@')x q;" ''
row 'gate, 63 inv@' '' "gate g q{$(times 63 'inv@')x q;}" ''
