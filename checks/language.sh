#!/bin/sh
# Runs the programs of docs/LANGUAGE.md through the built program, and compares each report with the one that stands behind
# the program. It is skipped where the program hasn't been built by ./caf since its sources changed.
top=$(cd "$(dirname "$0")/.." && pwd)
program=$top/crates/caf/out/caf
if [ ! -x "$program" ] || [ -n "$(find "$top"/crates/*/src -newer "$program" | head -n 1)" ]; then
    echo "check of the language's page: skipped, since ./caf hasn't built the program"
    exit 0
fi
folder=$(mktemp -d) || exit 1
trap 'rm -rf "$folder"' EXIT
cd "$folder" || exit 1
failed=0

# Each block of Fortran is written to a file, and the block behind it is its report.
awk '
    /^```fortran$/ { count += 1; file = count ".f90"; report = 1; next }
    /^```$/ && file != "" { file = ""; next }
    /^```$/ && report { file = count ".out"; report = 0; next }
    file != "" { print > file }
' "$top/docs/LANGUAGE.md"

for file in *.f90; do
    "$top/caf" step "$file" 1 1 100000 >report 2>&1
    if ! diff "${file%.f90}.out" report; then
        echo "check of the language's page: the program that begins with '$(head -n 1 "$file")' printed the lines with >"
        failed=1
    fi
done

[ "$failed" -eq 0 ] && echo "check of the language's page: passed"
exit "$failed"
