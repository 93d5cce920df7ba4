#!/usr/bin/env bash
# Times traces of 1,000,000 lines, the most that a trace has, in the release build of the tests of caf_journal:
# the shortest lines, read twice, and the longest, read and printed. The times include the making of the text.
set -euo pipefail
cd "$(dirname "$0")/../crates/caf_journal"
rt test > /dev/null
TIMEFORMAT='%3R seconds'
for name in the_line_after_the_last the_longest_trace; do
    echo "$name:"
    time out/caf_journal_tests "tests::$name" > /dev/null
done
