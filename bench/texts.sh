#!/usr/bin/env bash
# Times the built program on large texts: of nearly 1,048,576 bytes, of 10,000 names, of 10,000 statements, and texts that are
# refused late or are hard to read. Each is listed, and those that run are run to their end as well. Tells the bytes, the
# seconds and the peak of memory.
set -euo pipefail
top=$(cd "$(dirname "$0")/.." && pwd)
built=$top/crates/caf/out/caf
"$top/caf" step "$top/examples/one.f90" 1 1 100 > /dev/null
folder=$(mktemp -d)
trap 'rm -rf "$folder"' EXIT

# signs COUNT SIGN: the sign so many times
signs() {
    printf -- "$2%.0s" $(seq "$1")
}

# text NAME FRONT LINE BACK: a program with so many of this line between those that it has at most 1,048,576 bytes
text() {
    local room=$((1048576 - ${#2} - ${#4} - 24))
    {
        printf 'program p\n%s\n' "$2"
        LINE=$3 awk -v count=$((room / (${#3} + 1))) 'BEGIN { for (i = 0; i < count; i++) print ENVIRON["LINE"] }'
        printf '%s\nend program\n' "$4"
    } > "$folder/$1"
}

# numbered LINE: this line 10,000 times, each % in it its number and each & the next one, where 1 is behind the last
numbered() {
    seq 10000 | LINE=$1 awk '{ line = ENVIRON["LINE"]; gsub(/%/, $1, line); gsub(/&/, $1 % 10000 + 1, line); print line }'
}

# program NAME: a program with what standard input has
program() {
    { printf 'program p\n'; cat; printf 'end program\n'; } > "$folder/$1"
}

# a sum in 99 parentheses, each line with 33 of them
opened="$(signs 33 '(1+')&"
nest="y=&"$'\n'"$opened"$'\n'"$opened"$'\n'"$opened"$'\n'"1$(signs 99 ')')"

# texts of nearly the greatest length that run
text statements 'integer :: y' "$(signs 33 'y=1;')" ''
text nests 'integer :: y' "$nest" ''
text sum 'integer :: y; y = 1 &' "$(signs 65 '+1')&" '+1'
text loops 'integer :: i' 'do i=1,0;print *;end do;do while(.false.);i=1;enddo' ''
text branches 'integer :: y' 'if(y==0)then;else if(y<0)then;else;y=1;endif;if(y>9)y=1' ''

# 10,000 of a kind
{ numbered 'integer :: name%'; numbered 'name% = name& + %'; } | program names
{ echo 'integer :: x, a(10000)'; numbered 'x = x + % - a(%) * (x - 1)'; } | program assignments
{ printf 'integer :: x\ncontains\n'; numbered 'subroutine f%(n); integer, intent(in) :: n; x = x + n; end'; } | program subroutines

# a line that is too long, and texts that are refused
text printed 'print * &' "$(signs 65 ',1')&" ',1'
text mistake 'integer :: y' "$(signs 33 'y=1;')" 'y='
text undeclared 'integer :: y' "$(signs 33 'y=1;')" 'y=z'
text parentheses 'integer :: y; y = &' "$(signs 131 '(')&" '1'
text unclosed 'integer :: y; y = abs(1 &' "$(signs 16 '+abs(1)')&" '+1'
text blocks 'integer :: y' 'if (y == 0) then' ''
text elseifs 'integer :: y; if (y == 0) then' 'else if (y == 0) then' 'end if'
text declarations '' "$(signs 16 'team::t;')" ''
{ numbered 'spawn f%()[0]'; echo contains; numbered 'subroutine f%; call f&; end'; } | program ring

# take STATUS NAME COMMAND WORDS..: what the command takes for this text
take() {
    local status=$1 name=$2 command=$3 measured
    shift 3
    measured=$(python3 "$top/bench/measure.py" "$status" "$built" "$command" "$folder/$name" "$@")
    read -r seconds memory <<< "$measured"
    printf '%-14s %-5s %9s %9s %9s\n' "$name" "$command" "$(wc -c < "$folder/$name")" "$seconds" "$memory"
}

printf '%-14s %-5s %9s %9s %9s\n' text does bytes seconds MB
for name in statements nests sum loops branches names assignments subroutines; do
    take 0 "$name" list
    take 0 "$name" step 1 1 1000000
done
take 0 printed list
take 1 printed step 1 1 1000000
for name in mistake undeclared parentheses unclosed blocks elseifs declarations ring; do
    take 3 "$name" list
done
