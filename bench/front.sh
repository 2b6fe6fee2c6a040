#!/usr/bin/env bash
# Times `check` on one, two and four MiB of declarations, gate calls and expressions: nanoseconds for each token, and
# the most memory for each byte of text. Twice the text should take about twice the time. It is a benchmark and no
# part of the gate.
. "$(dirname "$0")/setup.sh"

# As many statements as fit into so many bytes, and on the last line of standard error how many tokens they have.
statements() {
    awk -v bytes="$1" 'BEGIN {
        text[0] = "int[32] count_%d = 3 * (%d + 4);\n"; tokens[0] = 14
        text[1] = "cx q[%d], q[%d];\n"; tokens[1] = 11
        text[2] = "rz(pi / 4 + pi / 8) q[%d];  // turn %d\n"; tokens[2] = 15
        text[3] = "flag_%d = measure q[%d];\n"; tokens[3] = 8
        text[4] = "total += (a[%d] << 2) ^ ~b & 0xff | %d;\n"; tokens[4] = 18
        while (1) {
            line = sprintf(text[i % 5], i, i % 1024)
            if (size + length(line) > bytes) break
            printf "%s", line
            size += length(line); count += tokens[i % 5]; i++
        }
        print count > "/dev/stderr"
    }'
}

# The most memory, in bytes, of a command on a file, where the system can tell.
most_memory() {
    if [ -x /usr/bin/time ]; then
        /usr/bin/time -f '%M' bin/qasm_qir check < "$1" 2>&1 > /dev/null | tail -n 1 | awk '{ print $1 * 1024 }'
    else
        echo 0
    fi
}

repeats=5
printf '%9s %10s %10s %12s %14s\n' bytes tokens 'ms a run' 'ns a token' 'memory a byte'
for bytes in 1048576 2097152 4194304; do
    tokens=$(statements "$bytes" 2>&1 > "$folder/front.qasm")
    start=$(date +%s%N)
    for _ in $(seq "$repeats"); do
        bin/qasm_qir check < "$folder/front.qasm" > /dev/null 2>&1 || true
    done
    end=$(date +%s%N)
    awk -v bytes="$bytes" -v tokens="$tokens" -v ns="$(((end - start) / repeats))" -v memory="$(most_memory "$folder/front.qasm")" \
        'BEGIN { printf "%9d %10d %10.1f %12.1f %14.1f\n", bytes, tokens, ns / 1e6, ns / tokens, memory / bytes }'
done
