#!/usr/bin/env bash
# Looks up each example of docs/LANGUAGE.md that says what an expression gives, or what a call of a gate expands to, in the
# tables of constant expressions and of calls of gates, which the gate runs.
set -eu
cd "$(dirname "$0")/.."
found=0
missing=0

# The rows of the form `A` WORDS `B` stand in a table as A, the mark and B.
look_up() {
    words=$1 table=$2 mark=$3
    while IFS= read -r row; do
        found=$((found + 1))
        grep -qxF -- "$row" "$table" || { echo "no row of $table: $row"; missing=$((missing + 1)); }
    done < <(tr '\n' ' ' < docs/LANGUAGE.md | tr -s ' ' | sed 's/\\|/|/g' \
        | grep -oE "\`[^\`]+\` $words \`[^\`]+\`" | sed -E "s/^\`(.*)\` $words \`(.*)\`\$/\1$mark\2/")
}

look_up gives crates/const_cases/stdout ': '
look_up 'expands to' crates/gate_cases/stdout ' => '
echo "$found examples of docs/LANGUAGE.md, $missing of them in no row"
[ "$found" -gt 0 ] && [ "$missing" -eq 0 ]
