#!/usr/bin/env bash
# Times 100,000 turns at one lock, taken by four workers, in the release build of the tests of caf_seatlock. Each turn adds
# an entry to the list under the lock. The time includes a look at all entries.
set -euo pipefail
cd "$(dirname "$0")/../crates/caf_seatlock"
rt test > /dev/null
TIMEFORMAT='%3R seconds'
for turn in 1 2 3; do
    time out/caf_seatlock_tests "tests::a_hundred_thousand_turns_over_four_workers" > /dev/null
done
