#!/usr/bin/env bash
# Times the expansion of calls of gates: 20 gates that double, powers of powers, many controls over a long body, a call of
# 60,000 applications, and 64 nested definitions. The first three pass the limit of costs and stop there. It is a benchmark
# and no part of the gate.
set -eu
cd "$(dirname "$0")/.."
(cd crates/gate_cases && rt run < stdin > /dev/null)
folder=$(mktemp -d)
trap 'rm -rf "$folder"' EXIT

# A case of one line, behind declarations of 1,024 qubits.
row() {
    { printf 'include "stdgates.inc";\nqubit[1024] q;\n====\n'; printf '%s\n' "$2"; } > "$folder/case"
    start=$(date +%s%N)
    crates/gate_cases/out/gate_cases < "$folder/case" > "$folder/answer"
    end=$(date +%s%N)
    printf '%12s %6d ms   %s\n' "$1" "$(((end - start) / 1000000))" "$(sed 's/.* => //' "$folder/answer" | cut -c 1-60)"
}

doubling() {
    awk 'BEGIN { for (i = 0; i < 20; i++) { g = i == 0 ? "x" : "d" (i - 1); printf "gate d%d c { %s c; %s c; } ", i, g, g } printf "d19 q[0];" }'
}

nested() {
    awk 'BEGIN { for (i = 1; i < 64; i++) { g = i == 1 ? "x" : "n" (i - 1); printf "gate n%d c { %s c; } ", i, g } printf "n63 q[0];" }'
}

# A register of 60,000 places, by a set of as many members.
applications() {
    awk 'BEGIN { printf "x q[{"; for (i = 0; i < 60000; i++) printf "%s%d", i ? ", " : "", i % 1024; printf "}];" }'
}

# A body of 10,000 calls.
long_body() {
    awk 'BEGIN { printf "gate b c { "; for (i = 0; i < 10000; i++) printf "x c; "; printf "} ctrl(2) @ b q[0], q[1], q[2];" }'
}

row doubling "$(doubling)"
row powers 'pow(1024) @ pow(1024) @ x q[0];'
row controls 'ctrl(1024) @ x q[0];'
row 'long body' "$(long_body)"
row applications "$(applications)"
row nested "$(nested)"
