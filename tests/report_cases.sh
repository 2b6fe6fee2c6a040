#!/usr/bin/env bash
# Tests tools/qasm_qir_report on the cases of tests/report: NAME.text is the file, NAME.answer what the program says on
# standard error (its first line) and its status (the second line), and NAME.shown what the report must show. A stand-in
# takes the program's place, so that the report alone is tested.
set -u
cd "$(dirname "$0")/report" || exit 2
folder=$(mktemp -d) || exit 2
trap 'rm -rf "$folder"' EXIT
cat > "$folder/program" <<'PROGRAM'
#!/usr/bin/env bash
cat > /dev/null
[ -z "$(head -n 1 "$ANSWER")" ] || head -n 1 "$ANSWER" >&2
exit "$(sed -n 2p "$ANSWER")"
PROGRAM
chmod +x "$folder/program"
failed=0
cases=0
for text in *.text; do
    name=${text%.text}
    ANSWER=$PWD/$name.answer QASM_QIR=$folder/program ../../tools/qasm_qir_report "$text" > "$folder/out" 2> "$folder/shown"
    status=$?
    cases=$((cases + 1))
    if [ "$status" != "$(sed -n 2p "$name.answer")" ] || [ -s "$folder/out" ] || ! cmp -s "$folder/shown" "$name.shown"; then
        echo "report_cases: $name FAILED"
        diff "$name.shown" "$folder/shown"
        failed=1
    fi
done
echo "report_cases: $cases cases"
[ "$cases" -gt 0 ] && exit $failed
