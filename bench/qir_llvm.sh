#!/usr/bin/env bash
# Gives LLVM's assembler and verifier each text of `crates/qir_cases/stdin` that passes here; they must accept it. It needs
# Debian's llvm-16 or later; where there is none it says so and passes. It is no part of the gate.
set -eu
cd "$(dirname "$0")/.."

# The newest of the names that Debian gives a tool of LLVM, from version 16 on.
newest() {
    for version in 22 21 20 19 18 17 16; do
        if command -v "$1-$version" > /dev/null; then
            echo "$1-$version"
            return
        fi
    done
}
assembler=$(newest llvm-as)
optimizer=$(newest opt)
if [ -z "$assembler" ] || [ -z "$optimizer" ]; then
    echo "qir_llvm: skipped, since there is no LLVM from version 16 on"
    exit 0
fi

folder=$(mktemp -d)
trap 'rm -rf "$folder"' EXIT
(cd crates/qir_cases && rt run -- accepted < stdin > "$folder/texts")
# A text may end without a line feed, and then the line behind it begins on its last one.
awk -v folder="$folder" '/####$/ { if (sub(/####$/, "") && $0 != "") print > file; close(file); file = sprintf("%s/%04d.ll", folder, ++count); next } { print > file }' "$folder/texts"
accepted=0
refused=0
for text in "$folder"/*.ll; do
    if "$assembler" "$text" -o "$folder/text.bc" && "$optimizer" -passes=verify -disable-output "$folder/text.bc"; then
        accepted=$((accepted + 1))
    else
        refused=$((refused + 1))
        head -n 20 "$text"
    fi
done
echo "qir_llvm: $accepted accepted, $refused refused"
[ "$refused" -eq 0 ]
