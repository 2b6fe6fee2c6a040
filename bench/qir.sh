#!/usr/bin/env bash
# Times QIR text: modules of 200,000 and 400,000 gate calls read, checked and written back, beside LLVM's assembler and
# verifier where they are installed; `verify` and `run` on these, on a module of 16,000 blocks with jumps back, and on a loop
# of 1,000,000 turns without events; and long hostile texts, which are refused or read. Twice the text should take about
# twice the time. It is a benchmark and no part of the gate. What is copied goes through the program of the reader's
# cases, which is no part of the product.
. "$(dirname "$0")/setup.sh"

copier=crates/qir_cases/out/qir_cases
(cd crates/qir_cases && printf '====\n' | rt run > /dev/null)

# The front of a module, its end, and that of one which measures one qubit.
front='define i64 @main() #0 {\nb0:\n  call void @__quantum__rt__initialize(ptr null)\n'
initializes='declare void @__quantum__rt__initialize(ptr)\n'
gates='declare void @__quantum__qis__cx__body(ptr, ptr)\n'
measures='declare i1 @__quantum__rt__read_result(ptr)\ndeclare void @__quantum__qis__mz__body(ptr, ptr) #1\n'
end='\nattributes #0 = { "entry_point" "qir_profiles"="adaptive_profile" "output_labeling_schema"="labeled" "required_num_qubits"="1024" "required_num_results"="1" }\nattributes #1 = { "irreversible" }\n\n!llvm.module.flags = !{!0, !1, !2, !3}\n\n!0 = !{i32 1, !"qir_major_version", i32 2}\n!1 = !{i32 7, !"qir_minor_version", i32 0}\n!2 = !{i32 1, !"dynamic_qubit_management", i1 false}\n!3 = !{i32 1, !"dynamic_result_management", i1 false}\n'

# A module with so many calls of `cx` in one block.
calls() {
    printf "$front"
    awk -v count="$1" 'BEGIN {
        for (i = 0; i < count; i++) {
            a = 1 + i * 7 % 1000; b = a + 1 + i % 20
            printf "  call void @__quantum__qis__cx__body(ptr inttoptr (i64 %d to ptr), ptr inttoptr (i64 %d to ptr))\n", a, b
        }
    }'
    printf "  ret i64 0\n}\n\n$initializes$gates$end"
}

# A module of so many blocks, each of which jumps to the next.
blocks() {
    printf "$front"
    awk -v count="$1" 'BEGIN {
        print "  br label %b1"
        for (i = 1; i < count - 1; i++) printf "b%d:\n  br label %%b%d\n", i, i + 1
        printf "b%d:\n", count - 1
    }'
    printf "  ret i64 0\n}\n\n$initializes$end"
}

# A module of so many blocks, each of which assigns a register and goes on, or back by the outcome.
jumps() {
    printf "$front"
    awk -v count="$1" 'BEGIN {
        print "  call void @__quantum__qis__mz__body(ptr null, ptr null)\n  %r0 = call i1 @__quantum__rt__read_result(ptr null)\n  br label %b1"
        for (i = 1; i < count - 1; i++)
            printf "b%d:\n  %%r%d = add i64 %d, 1\n  br i1 %%r0, label %%b%d, label %%b%d\n", i, i, i, i + 1, 1 + 829348951 % i
        printf "b%d:\n", count - 1
    }'
    printf "  ret i64 0\n}\n\n$initializes$measures$end"
}

# A loop whose body runs so many times.
turns() {
    printf "$front"
    awk -v count="$1" 'BEGIN {
        print "  br label %b1\nb1:\n  %r0 = phi i64 [ 0, %b0 ], [ %r1, %b1 ]\n  %r1 = add i64 %r0, 1"
        printf "  %%r2 = icmp slt i64 %%r1, %d\n  br i1 %%r2, label %%b1, label %%b2\nb2:\n", count
    }'
    printf "  ret i64 0\n}\n\n$initializes$end"
}

# A piece so many times.
times() {
    awk -v count="$1" -v piece="$2" 'BEGIN { for (i = 0; i < count; i++) printf "%s", piece }'
}

# Milliseconds, MB a second and bytes of memory for each byte of text, of a command on a text, and what it answers.
timed() {
    name=$1 text=$2
    shift 2
    bytes=$(wc -c < "$text")
    start=$(date +%s%N)
    "$@" < "$text" > "$folder/answer" 2>&1 || true
    end_time=$(date +%s%N)
    memory=0
    [ -x /usr/bin/time ] && memory=$(/usr/bin/time -f '%M' "$@" < "$text" 2>&1 > /dev/null | tail -n 1)
    awk -v name="$name" -v bytes="$bytes" -v ns="$((end_time - start))" -v memory="$memory" \
        'BEGIN { printf "%-32s %11d %9.0f %9.1f %9.1f   ", name, bytes, ns / 1e6, bytes / (ns / 1e3), memory * 1024 / bytes }'
    head -c 60 "$folder/answer" | head -n 1 | tr -d '\n'
    echo
}

# The newest of the names that Debian gives a tool of LLVM, from version 16 on.
newest() {
    for version in 22 21 20 19 18 17 16; do
        if command -v "$1-$version" > /dev/null; then
            echo "$1-$version"
            return
        fi
    done
}
assembler=$(newest llvm-as)
optimizer=$(newest opt)

# A text in each of the ways.
each_way() {
    timed "$1, copied" "$2" "$copier" copy
    timed "$1, verify" "$2" bin/qasm_qir verify
    timed "$1, run" "$2" bin/qasm_qir run 1 1000000
    if [ -n "$assembler" ]; then timed "$1, $assembler" "$2" "$assembler" -o /dev/null; fi
    if [ -n "$optimizer" ]; then timed "$1, $optimizer" "$2" "$optimizer" -passes=verify -disable-output; fi
}

printf '%-32s %11s %9s %9s %9s   %s\n' text bytes ms 'MB a s' memory answer
for count in 200000 400000; do
    calls "$count" > "$folder/text.ll"
    each_way "$count calls" "$folder/text.ll"
done
for count in 8000 16000; do
    jumps "$count" > "$folder/text.ll"
    each_way "$count blocks" "$folder/text.ll"
done
turns 1000001 > "$folder/text.ll"
each_way '1,000,000 turns' "$folder/text.ll"

# A hostile text, in half and in whole.
hostile() {
    timed "$1, copied" "$folder/text.ll" "$copier" copy
    timed "$1, verify" "$folder/text.ll" bin/qasm_qir verify
}
for count in 500000 1000000; do
    blocks "$count" > "$folder/text.ll"
    hostile "$count blocks"
done
for bytes in 33554432 67108864; do
    for piece in '[' '"' ';' '@0'; do
        times $((bytes / ${#piece})) "$piece" > "$folder/text.ll"
        hostile "$((bytes / 1048576)) MiB of $piece"
    done
    {
        printf '@0 = internal constant [%d x i8] c"' "$bytes"
        times $((bytes - 1)) x
        printf '\\00"\n\n'
        calls 1
    } > "$folder/text.ll"
    hostile "a label of $((bytes / 1048576)) MiB"
done
head -c 1073741825 /dev/zero | tr '\0' ' ' > "$folder/text.ll"
timed 'a byte over 1 GiB, verify' "$folder/text.ll" bin/qasm_qir verify
