#!/bin/sh
# Runs the examples through the built program, and compares what they print and the status. It is skipped where the program
# hasn't been built by ./caf since its sources changed.
#
# NAME.f90 is run by `step NAME.f90 1 1 100000`, or by the words in NAME.args, and is to print NAME.out and to end with status
# 0, or the one in NAME.status.
top=$(cd "$(dirname "$0")/.." && pwd)
program=$top/crates/caf/out/caf
if [ ! -x "$program" ] || [ -n "$(find "$top"/crates/*/src -newer "$program" | head -n 1)" ]; then
    echo "check of the examples: skipped, since ./caf hasn't built the program"
    exit 0
fi
folder=$(mktemp -d) || exit 1
trap 'rm -rf "$folder"' EXIT
cd "$top/examples" || exit 1
failed=0

# holds FILE ELSE: what the file holds, or else this
holds() {
    if [ -e "$1" ]; then cat "$1"; else echo "$2"; fi
}

for file in *.f90; do
    name=${file%.f90}
    wanted=$(holds "$name.status" 0)
    # The words are split at blanks.
    # shellcheck disable=SC2046
    "$top/caf" $(holds "$name.args" "step $file 1 1 100000") >"$folder/out" 2>"$folder/err"
    got=$?
    if [ "$got" -ne "$wanted" ] || [ -s "$folder/err" ]; then
        echo "check of the examples: $file: status $got, wanted $wanted"
        failed=1
    fi
    if ! diff "$name.out" "$folder/out"; then
        echo "check of the examples: $file printed the lines with > in place of those with <"
        failed=1
    fi
done

[ "$failed" -eq 0 ] && echo "check of the examples: passed"
exit "$failed"
