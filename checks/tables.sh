#!/bin/sh
# Carries the texts of checks/tables/ through the built program, and compares what it writes. Programs that run are run by both
# machines: by `step`, and by `check` with a trace of as many steps as there are. It is skipped where the program hasn't been
# built by ./caf since its sources changed.
#
# A table has a comment, and then blocks with a line for each part, in which \n, \t, \\ and \0ooo stand for bytes. In the traces
# and reports of traces.txt a line `N times A; B` stands for A and B, N times over, with the number of the turn in place of #.
top=$(cd "$(dirname "$0")/.." && pwd)
program=$top/crates/caf/out/caf
if [ ! -x "$program" ] || [ -n "$(find "$top"/crates/*/src -newer "$program" | head -n 1)" ]; then
    echo "check of the tables: skipped, since ./caf hasn't built the program"
    exit 0
fi
folder=$(mktemp -d) || exit 1
trap 'rm -rf "$folder"' EXIT
cd "$folder" || exit 1
failed=0

# wrong TEXT WHAT: tells a text whose answer isn't the one that is wanted
wrong() {
    echo "check of the tables: $2 of '$1' wrote '$(head -n 3 out)'"
    failed=1
}

# refusals FILE: blocks of a text and a line
refusals() {
    while read -r blank && IFS= read -r text && IFS= read -r line; do
        printf '%b' "$text" >text
        "$program" list text >out
        case $line in
        accepted) grep -q '^caf code 3$' out || wrong "$text" list ;;
        *) [ "$(cat out)" = "$line" ] || wrong "$text" list ;;
        esac
    done <<TABLE
$(tail -n +2 "$1")
TABLE
}

# listings FILE: blocks of a text and its listing
listings() {
    while read -r blank && IFS= read -r text && IFS= read -r listing; do
        printf '%b' "$text" >text
        printf '%b' "$listing" >listing
        "$program" list text >out
        cmp -s out listing || wrong "$text" list
    done <<TABLE
$(tail -n +2 "$1")
TABLE
}

# by_trees TEXT: what the source machine comes to, with as many steps as are defined, and then the end of the program
by_trees() {
    last=$("$program" check text 1 steps | sed -n 's/^trace refused at line //p')
    head -n "$((last - 1))" steps >trace
    echo 'leave 0' >>trace
    "$program" check text 1 trace >out
    if grep -q '^trace refused' out; then
        head -n "$((last - 1))" steps >trace
        "$program" check text 1 trace >out
    fi
    cmp -s out report || wrong "$1" check
}

# runs FILE: blocks of a number, a text and a report
runs() {
    awk 'BEGIN { for (i = 0; i < 20000; i++) print "step 0 0" }' >steps
    while read -r blank && IFS= read -r events && IFS= read -r text && IFS= read -r report; do
        printf '%b' "$text" >text
        printf '%b' "$report" >report
        "$program" step text 1 1 "$events" >out
        cmp -s out report || wrong "$text" step
        grep -q '^going' report || by_trees "$text"
    done <<TABLE
$(tail -n +2 "$1")
TABLE
}

# spelled PART: the bytes that a trace or a report stands for
spelled() {
    case $1 in
    *' times '*)
        printf '%b' "$1" | awk '
            $2 == "times" {
                count = split(substr($0, index($0, " times ") + 7), part, "; ")
                for (turn = 1; turn <= $1; turn++)
                    for (i = 1; i <= count; i++) {
                        line = part[i]
                        while ((at = index(line, "#")) > 0)
                            line = substr(line, 1, at - 1) turn substr(line, at + 1)
                        print line
                    }
                next
            }
            { print }'
        ;;
    *) printf '%b' "$1" ;;
    esac
}

# traces FILE: blocks of a number of images, a text, a trace, a report and a status
traces() {
    while read -r blank && read -r images && IFS= read -r text && IFS= read -r trace && IFS= read -r report && read -r status; do
        printf '%b' "$text" >text
        spelled "$trace" >trace
        spelled "$report" >report
        "$program" check text "$images" trace >out
        got=$?
        { [ "$got" -eq "$status" ] && cmp -s out report; } || wrong "$trace' in '$text" check
    done <<TABLE
$(tail -n +2 "$1")
TABLE
}

refusals "$top/checks/tables/refused.txt"
refusals "$top/checks/tables/kinds.txt"
listings "$top/checks/tables/listings.txt"
runs "$top/checks/tables/runs.txt"
traces "$top/checks/tables/traces.txt"
[ "$failed" -eq 0 ] && echo "check of the tables: passed"
exit "$failed"
