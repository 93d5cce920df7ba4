#!/usr/bin/env bash
# Times `check` on eight images, with traces of about 10,000, 100,000 and 1,000,000 choices: finishes, splits, writes of another
# image's memory, notices that are taken at once, notices that are first all begun and then taken from the oldest on and from
# the newest on, and fences while copies are pending. Tells the seconds, how many times longer a trace takes than the one with a
# tenth of its choices, and the peak of memory.
set -euo pipefail
top=$(cd "$(dirname "$0")/.." && pwd)
program=$top/crates/caf/out/caf
"$top/caf" step "$top/examples/one.f90" 1 1 100 > /dev/null
folder=$(mktemp -d)
trap 'rm -rf "$folder"' EXIT
cd "$folder"

# text NAME: a program that goes on for ever with the statements on standard input
text() {
    {
        printf 'program endless\ninteger :: x[*], b\nevent :: e[*]\nteam :: t\ndo while (.true.)\n'
        cat
        printf 'end do\nend program\n'
    } > "$1"
}
text finishes <<'TEXT'
finish
end finish
TEXT
text splits <<'TEXT'
team_split(team_world, 0, 0, t)
TEXT
text writes <<'TEXT'
x[mod(team_rank() + 1, team_size())] = 1
TEXT
text notices <<'TEXT'
event_notify(e[mod(team_rank() + 1, team_size())])
TEXT
cp notices oldest
cp notices newest
text fences <<'TEXT'
copy_async(x[mod(team_rank() + 1, team_size())], b)
cofence
TEXT

# trace NAME CHOICES: the choices for so many of them or a few less; an image begins at most 65,535 operations
trace() {
    python3 - "$1" "$2" <<'PYTHON'
import sys

kind, choices = sys.argv[1], int(sys.argv[2])
images = range(8)


def steps(count):
    return [f"step {i} 0" for i in images for _ in range(count)]


def touches(number, stage, place):
    return [f"touch {place(i)} {i}.{number} {stage}" for i in images]


def here(i):
    return i


def beside(i):
    return (i + 1) % 8


each = {
    "finishes": lambda n: steps(2) + [f"leave {i}" for i in images],
    "splits": lambda n: steps(2) + [f"part {i}" for i in images],
    "writes": lambda n: steps(2) + touches(n, "write", beside),
    "notices": lambda n: steps(2) + touches(n, "notice", beside),
    "oldest": lambda n: steps(2),
    "newest": lambda n: steps(2),
    "fences": lambda n: steps(2) + touches(n, "start", here) + steps(1),
}[kind]
per = {"oldest": 24, "newest": 24}.get(kind, len(each(1)))
turns = range(1, choices // per + 1)
for n in turns:
    print("\n".join(each(n)))
if kind in ("oldest", "newest"):
    for n in turns if kind == "oldest" else reversed(turns):
        print("\n".join(touches(n, "notice", beside)))
PYTHON
}

printf '%-10s %9s %9s %7s %9s\n' trace choices seconds ratio MB
for kind in finishes splits writes notices oldest newest fences; do
    before=
    for choices in 10000 100000 1000000; do
        trace "$kind" "$choices" > "$kind.trace"
        measured=$(python3 "$top/bench/measure.py" 6 "$program" check "$kind" 8 "$kind.trace")
        read -r seconds memory <<< "$measured"
        ratio=$(awk -v now="$seconds" -v before="${before:-0}" 'BEGIN { if (before > 0) printf "%.1f", now / before; else print "-" }')
        printf '%-10s %9s %9s %7s %9s\n' "$kind" "$(wc -l < "$kind.trace")" "$seconds" "$ratio" "$memory"
        before=$seconds
    done
done
