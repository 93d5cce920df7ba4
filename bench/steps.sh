#!/usr/bin/env bash
# Times the built program on loops that go on for ever, cut off after 10,000, 100,000 and 1,000,000 entries of the journal:
# one loop for each statement. Tells the seconds, how many times longer a run is than the one with a tenth of its entries,
# and the peak of memory.
set -euo pipefail
top=$(cd "$(dirname "$0")/.." && pwd)
program=$top/crates/caf/out/caf
"$top/caf" step "$top/examples/one.f90" 1 1 100 > /dev/null
folder=$(mktemp -d)
trap 'rm -rf "$folder"' EXIT

# body NAME: a program that runs the statements on standard input over and over, with a subroutine at hand
body() {
    {
        printf 'program endless\ninteger :: i, j, x, a(100)\ndo while (.true.)\n'
        cat
        printf 'end do\ncontains\nsubroutine f(n, m)\ninteger, intent(in) :: n\ninteger, intent(inout) :: m\n'
        printf 'm = n + 1\nend subroutine\nend program\n'
    } > "$folder/$1"
}
body assignments <<'TEXT'
x = mod(x * 31 + 7, 1000003)
TEXT
body elements <<'TEXT'
i = mod(i, 100) + 1
a(i) = a(101 - i) + i
TEXT
body branches <<'TEXT'
x = x + 1
if (mod(x, 3) == 0) then
else if (mod(x, 3) == 1) then
else
end if
TEXT
body loops <<'TEXT'
do i = 1, 3
do j = i, 1, -1
end do
end do
TEXT
body calls <<'TEXT'
call f(x, x)
call f(a(1), a(2))
TEXT
# A line has one byte, and every twentieth entry prints one, so that the output has room for 1,000,000 entries.
body lines <<'TEXT'
print *
do i = 1, 17
end do
TEXT

printf '%-12s %9s %9s %7s %9s\n' loop entries seconds ratio MB
for loop in assignments elements branches loops calls lines; do
    before=
    for entries in 10000 100000 1000000; do
        measured=$(python3 "$top/bench/measure.py" 5 "$program" step "$folder/$loop" 1 1 "$entries")
        read -r seconds memory <<< "$measured"
        ratio=$(awk -v now="$seconds" -v before="${before:-0}" 'BEGIN { if (before > 0) printf "%.1f", now / before; else print "-" }')
        printf '%-12s %9s %9s %7s %9s\n' "$loop" "$entries" "$seconds" "$ratio" "$memory"
        before=$seconds
    done
done
