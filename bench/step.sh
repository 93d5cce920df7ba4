#!/usr/bin/env bash
# Times the program on its first example and on the longest text that it loads, a hundred runs each.
set -euo pipefail
top=$(cd "$(dirname "$0")/.." && pwd)
folder=$(mktemp -d)
trap 'rm -rf "$folder"' EXIT
"$top/caf" step "$top/examples/one.f90" 1 1 100 > /dev/null
head -c 1048576 /dev/zero | tr '\0' '\n' > "$folder/longest"
TIMEFORMAT='%3R seconds for 100 runs'
for file in "$top/examples/one.f90" "$folder/longest"; do
    echo "$(wc -c < "$file") bytes:"
    time for _ in $(seq 100); do "$top/caf" step "$file" 1 1 100 > /dev/null || true; done
done
