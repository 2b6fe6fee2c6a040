#!/usr/bin/env bash
# Times the lowering of cores up to the limits, from a 64th of each limit on: twice the number should take about twice the
# time. It goes on until the limit, or until a core has no answer in 60 seconds. The memory is the most that the program took,
# which holds the core and the module. It is a benchmark and no part of the gate. The program of the cases of lowering, which
# is no part of the product, makes the cores and first sees that they fit; the seconds of the whole have that too.
set -eu
cd "$(dirname "$0")/../crates/lower_cases"
rt run < stdin > /dev/null
folder=$(mktemp -d)
trap 'rm -rf "$folder"' EXIT

# The most memory of a process, looked up until it ends.
peak() {
    local most=0 now
    while now=$(awk '/^VmHWM/ { print $2 }' "/proc/$1/status" 2> /dev/null) && [ -n "$now" ]; do
        most=$now
        sleep 0.01
    done
    if [ "$most" -gt 0 ]; then echo "$((most / 1024)) MiB"; else echo 'memory not seen'; fi
}

# A core of a word and a number, and whether it has an answer.
measure() {
    local start program memory status=0
    echo "large $1 $2" > "$folder/case"
    start=$(date +%s%N)
    timeout 60 out/lower_cases < "$folder/case" > "$folder/answer" 2> "$folder/fault" &
    program=$!
    sleep 0.01
    memory=$(peak "$(pgrep -P "$program" || echo "$program")")
    wait "$program" || status=$?
    printf '%-8s %8d  ' "$1" "$2"
    if [ "$status" = 0 ]; then
        printf '%s, %s, %d s in all\n' "$(tail -n 1 "$folder/answer")" "$memory" "$((($(date +%s%N) - start) / 1000000000))"
    else
        printf 'no answer: status %d\n' "$status"
    fi
    return "$status"
}

for row in 'weight 1000000' 'calls 1000000' 'joints 4000' 'blocks 16000' 'loops 3200'; do
    read -r word limit <<< "$row"
    for parts in 64 32 16 8 4 2 1; do
        measure "$word" "$((limit / parts))" || break
    done
done
