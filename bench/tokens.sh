#!/usr/bin/env bash
# Times the lexer on texts of 1,048,576 bytes of several kinds. The program that is timed is made in a folder of its own
# over copies of the crates, so that the repository holds no program for it.
set -euo pipefail
top=$(cd "$(dirname "$0")/.." && pwd)
folder=$(mktemp -d)
trap 'rm -rf "$folder"' EXIT
mkdir -p "$folder/crates/timed/src"
for crate in caf_base caf_lexer; do
    mkdir "$folder/crates/$crate"
    cp -r "$top/crates/$crate/src" "$top/crates/$crate/specs" "$top/crates/$crate/proofs" "$folder/crates/$crate/"
done
printf 'caf_base: thiserror\ncaf_lexer: caf_base thiserror\ntimed: caf_lexer\n' > "$folder/crates.txt"
cat > "$folder/crates/timed/src/main.rt" <<'PROGRAM'
//! Reads a text's tokens five times, and prints the milliseconds of each reading.
#![tactic(auto)]

use caf_lexer::tokens;
use std::time::Instant;
use std::{env, fs, io};

fn main(rt: HostRuntime) -> io::Result<()> {
    let alloc = rt.alloc();
    for name in env::args(&rt)?.skip(1) {
        let text = fs::read(&rt, name.as_str())?;
        if text.len() > 1_048_576 {
            continue;
        }
        for _ in 0..5 {
            let start = Instant::now(&rt)?;
            let read = tokens(alloc, &text).is_ok();
            let time = start.elapsed(&rt)?.as_millis();
            println!(rt; "{time} ms, read: {read}")?;
        }
    }
    Ok(())
}
PROGRAM
(cd "$folder/crates/timed" && rt run > "$folder/build.log" 2>&1) || { tail -n 20 "$folder/build.log"; exit 1; }

# a text of 1,048,576 bytes of this line over and over
text() {
    { yes "$2" 2> /dev/null || true; } | head -c 1048576 > "$folder/$1"
}
text names 'a;b;c'
text signs "$(printf '+%.0s' $(seq 132))"
text statements 'x(i) = x(i - 1) + 4 * team_rank() ! more'
text texts "print *, 'it''s', \"a text\""
text ends ''
for kind in names signs statements texts ends; do
    echo "$kind:"
    "$folder/crates/timed/out/timed" "$folder/$kind"
done
