#!/bin/sh
# Runs the built program as a user does: on files good and bad, on words that are no text, and with an output that takes
# nothing. It is skipped where the program hasn't been built by ./caf since its sources changed.
top=$(cd "$(dirname "$0")/.." && pwd)
program=$top/crates/caf/out/caf
if [ ! -x "$program" ] || [ -n "$(find "$top"/crates/*/src -newer "$program" | head -n 1)" ]; then
    echo "check of the program: skipped, since ./caf hasn't built it"
    exit 0
fi
folder=$(mktemp -d) || exit 1
trap 'rm -rf "$folder"' EXIT
cd "$folder" || exit 1
failed=0

# wants STATUS OUTPUT WORDS..: the program ends so, and writes this line first
wants() {
    status=$1
    line=$2
    shift 2
    "$top/caf" "$@" >out 2>err
    got=$?
    if [ "$got" -ne "$status" ] || [ "$(head -n 1 out)" != "$line" ] || [ -s err ]; then
        echo "check of the program: caf $*: status $got, wanted $status; first line '$(head -n 1 out)', wanted '$line'"
        failed=1
    fi
}

report='0: 14'
usage='usage: caf run FILE IMAGES WORKERS EVENTS [--trace NAME]'
one=$top/examples/one.f90
cp "$one" 'a name with blanks.f90'
: >empty
head -c 1048577 /dev/zero >long
head -c 1048576 /dev/zero >full
awk 'BEGIN { for (i = 0; i < 256; i++) printf "%c", i }' >bytes
mkdir folder
wants 0 "$report" step 'a name with blanks.f90' 1 1 100
wants 0 "$report" step "$one" 01 18446744073709551615 1000000
wants 0 "$report" step "$one" 1 0 4
wants 5 "$report" step "$one" 1 0 3
printf 'program p\ndo while (.true.)\nend do\nend program\n' >endless
wants 5 'going: images 1, lines 0, traps 0' step endless 1 0 1000000
wants 0 'caf code 3' list "$one"
wants 3 'refused: line 1: syntax' step empty 1 1 100
wants 3 'refused: line 1: syntax' list empty
wants 3 'refused: line 1: bad token' step bytes 1 1 100
wants 3 'refused: line 1: long line' step full 1 1 100
wants 10 'too long long' step long 1 1 100
wants 10 'too long long' list long
wants 10 'too long /dev/zero' step /dev/zero 1 1 100
wants 7 'cannot read folder' step folder 1 1 100
wants 7 'cannot read nothing' step nothing 1 1 100
wants 7 'cannot read nothing' list nothing
wants 7 'cannot read ' step '' 1 1 100
wants 2 "$usage"
wants 2 "$usage" step
wants 2 "$usage" list
wants 2 "$usage" list empty empty
wants 2 "$usage" step empty 1 1 0
wants 2 "$usage" step empty 1 1 1000001
wants 2 "$usage" step empty 1 1 +9
wants 2 "$usage" step empty 1 18446744073709551616 9
wants 2 "$usage" step empty 0 1 100
wants 2 "$usage" step empty 1 1 100 --trace t --trace=t
wants 2 "$usage" step empty 1 1 100 --trace
wants 2 "$usage" step -- 1 1 100
wants 2 "$usage" --version
wants 2 "$usage" --help
wants 2 "$usage" step "$(printf '\377')" 1 1 100
# well formed, but not built yet
wants 2 "$usage" step empty 1 1 100 --trace t
wants 2 "$usage" step empty 2 1 100
wants 2 "$usage" run empty 1 1 100
wants 2 "$usage" replay empty 1 t
wants 7 'cannot read t' check "$one" 2 t
printf 'step 0 0\nstep 1 0\n' >trace
wants 6 '0: 14' check "$one" 2 trace
printf 'step 0 0\nstep 0 0\n' >twice
wants 11 'trace refused at line 2' check "$one" 2 twice
wants 3 'refused: line 1: syntax' check empty 1 trace
wants 2 "$usage" check "$one" 65 trace
wants 2 "$usage" gen 7

# the longest text, which is one.f90 and then comments, and the same text with the line ends of other systems
room=$((1048576 - $(wc -c <"$one")))
{ cat "$one" && yes '!' | head -c "$room"; } >longest
wants 0 "$report" step longest 1 1 100
awk '{ printf "%s\r\n", $0 }' "$one" >returns
wants 0 "$report" step returns 1 1 100

# refuses LINE WHAT TEXT: a text is refused so, whichever command reads it. TEXT is a format of printf.
refuses() {
    # shellcheck disable=SC2059
    printf "$3" >refused.f90
    wants 3 "refused: line $1: $2" step refused.f90 1 1 100
    wants 3 "refused: line $1: $2" list refused.f90
}
end='program p\nend program'
signs=$(printf '%0133d' 0)
refuses 1 'not ascii' '\303\244\nend program\n'
refuses 3 'not ascii' "$end\n\303\244"
refuses 1 'long line' "$signs\n$end\n"
refuses 3 'long line' "$end\n!$signs"
refuses 1 'bad token' "\$\n$end\n"
refuses 3 'bad token' "$end\n'"
refuses 1 'bad number' "9223372036854775808\n$end\n"
refuses 3 'bad number' "$end\n9223372036854775808"
refuses 1 'open continuation' 'program p &'
refuses 3 'open continuation' "$end\nend & ! no more"
refuses 1 'syntax' "1\n$end\n"
refuses 3 'syntax' "$end\nend"
opened=$(printf '(%.0s' $(seq 101))
closed=$(printf ')%.0s' $(seq 101))
refuses 2 'deep' "program p; x = &\n${opened}1 &\n$closed\nend"
refuses 3 'undeclared x' "program p\nimplicit none\nx = 1; end program\n"
printf 'program p\nevent :: e\nprint *, 1\nevent_wait(e)\nprint *, 2\nend program\n' >waits.f90
wants 3 'refused: line 4: not yet' step waits.f90 1 1 100

# closed or full outputs
for output in '>&-' '>/dev/full'; do
    for words in 'step empty 1 1 100' 'step nothing 1 1 100' ''; do
        eval "\"$top/caf\" $words $output" 2>err
        got=$?
        if [ "$got" -ne 8 ] || [ -s err ]; then
            echo "check of the program: caf $words $output: status $got, wanted 8"
            failed=1
        fi
    done
done

[ "$failed" -eq 0 ] && echo "check of the program: passed"
exit "$failed"
