#!/usr/bin/env bash
# Times the compilation of thin programs of 1,250, 2,500, 5,000 and 10,000 lines: twice the lines should
# take about twice the time. It is a benchmark and no part of the gate.
. "$(dirname "$0")/setup.sh"

# A program of so many statements on 1,024 qubits and 4,096 bits.
program() {
    printf 'OPENQASM 3.0;\ninclude "stdgates.inc";\nqubit[1024] q;\nbit[4096] c;\n'
    awk -v lines="$1" 'BEGIN {
        for (i = 0; i < lines; i++) {
            a = (i * 7) % 1024; b = (a + 1 + i % 1000) % 1024
            if (i % 4 == 0) printf "h q[%d];\n", a
            else if (i % 4 == 1) printf "x q[%d];\n", a
            else if (i % 4 == 2) printf "cx q[%d], q[%d];\n", a, b
            else printf "c[%d] = measure q[%d];\n", i % 4096, a
        }
    }'
}

repeats=20
printf '%8s %10s %12s %14s\n' lines bytes 'ms a run' 'bytes a second'
for lines in 1250 2500 5000 10000; do
    program "$lines" > "$folder/thin.qasm"
    bytes=$(wc -c < "$folder/thin.qasm")
    start=$(date +%s%N)
    for _ in $(seq "$repeats"); do
        bin/qasm_qir compile < "$folder/thin.qasm" > "$folder/thin.ll"
    done
    end=$(date +%s%N)
    awk -v lines="$lines" -v bytes="$bytes" -v ns="$(((end - start) / repeats))" \
        'BEGIN { printf "%8d %10d %12.2f %14.0f\n", lines, bytes, ns / 1e6, bytes / (ns / 1e9) }'
done
