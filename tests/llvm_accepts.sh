#!/usr/bin/env bash
# A yardstick beside the proofs: LLVM's own assembler and verifier are given the QIR of every program of
# examples/, and must accept it. It needs Debian's llvm-16 or later; where there is none it says so and
# passes.
set -u
cd "$(dirname "$0")/.." || exit 2

# The newest of the names that Debian gives a tool of LLVM, from version 16 on.
newest() {
    local version
    for version in 22 21 20 19 18 17 16; do
        if command -v "$1-$version" > /dev/null; then
            echo "$1-$version"
            return
        fi
    done
    if command -v "$1" > /dev/null && [ "$("$1" --version | grep -oE 'version [0-9]+' | grep -oE '[0-9]+')" -ge 16 ]; then
        echo "$1"
    fi
}

assembler=$(newest llvm-as)
optimizer=$(newest opt)
if [ -z "$assembler" ] || [ -z "$optimizer" ]; then
    echo "llvm_accepts: skipped, since there is no LLVM from version 16 on"
    exit 0
fi

make --no-print-directory build || exit 1
folder=$(mktemp -d)
trap 'rm -rf "$folder"' EXIT
failed=0
for program in examples/*.qasm; do
    name=$(basename "$program" .qasm)
    if bin/qasm_qir compile < "$program" > "$folder/$name.ll" \
        && "$assembler" "$folder/$name.ll" -o "$folder/$name.bc" \
        && "$optimizer" -passes=verify -disable-output "$folder/$name.bc"; then
        echo "llvm_accepts: $name accepted"
    else
        echo "llvm_accepts: $name REFUSED"
        failed=1
    fi
done
exit $failed
