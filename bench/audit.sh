#!/usr/bin/env bash
# Times the audit of a kept list of 1,000,000 finish events over 64 ranks. The program that is timed is made in a folder of
# its own over copies of the crates, so that the repository holds no program for it.
set -euo pipefail
top=$(cd "$(dirname "$0")/.." && pwd)
folder=$(mktemp -d)
trap 'rm -rf "$folder"' EXIT
mkdir -p "$folder/crates/timed/src"
for crate in caf_base caf_epochs caf_reduce caf_team caf_finish; do
    mkdir "$folder/crates/$crate"
    for part in src specs proofs; do
        [ ! -d "$top/crates/$crate/$part" ] || cp -r "$top/crates/$crate/$part" "$folder/crates/$crate/"
    done
done
cat > "$folder/crates.txt" <<'CRATES'
caf_base: thiserror
caf_epochs: caf_base
caf_team: caf_base
caf_reduce: caf_base
caf_finish: caf_base caf_epochs caf_reduce caf_team
timed: caf_finish anyhow
CRATES
cat > "$folder/crates/timed/src/main.rt" <<'PROGRAM'
//! Makes a kept list of 1,000,000 events over 64 ranks, audits it five times, and prints the milliseconds of each audit.
//! In each wave one message runs: the rank that has it open sends the next one to a rank that has contributed already,
//! and completes its own. So no sum is 0, and there are as many waves as the list has room for.
#![tactic(auto)]

use anyhow::Result;
use caf_finish::FinishEvent::{Ack, Complete, Contribute, Relay, Send, Stand, Take};
use caf_finish::{FinishEvent, Four, audit};
use std::alloc::Global;
use std::time::Instant;

const RANKS: u32 = 64;
const EVENTS: usize = 1_000_000;
// How many messages are sent and completed at once in each wave.
const SHORT: u32 = 64;

// The events, and the numbers of messages of each rank.
#[derive(Drop)]
struct List {
    events: Vec<FinishEvent>,
    fours: Vec<Four>,
    messages: u32,
}

impl List {
    fn new(alloc: Global) -> Result<List> {
        let mut fours = Vec::new(alloc);
        for _rank in 0..RANKS {
            fours.push(Four {
                sent: 0,
                delivered: 0,
                received: 0,
                completed: 0,
            })?;
        }
        Ok(List {
            events: Vec::new(alloc),
            fours,
            messages: 0,
        })
    }

    // A message is sent, taken and acked.
    fn pass(&mut self, origin: u32, target: u32, by: Option<u32>) -> Result<u32> {
        let message = self.messages;
        self.messages = message.wrapping_add(1);
        self.events.push(Send {
            message,
            origin,
            target,
            by,
        })?;
        self.events.push(Take(message))?;
        self.events.push(Ack(message))?;
        if let Some(four) = self.fours.get_mut(origin as usize) {
            four.sent = four.sent.wrapping_add(1);
            four.delivered = four.delivered.wrapping_add(1);
        }
        if let Some(four) = self.fours.get_mut(target as usize) {
            four.received = four.received.wrapping_add(1);
        }
        Ok(message)
    }

    fn complete(&mut self, message: u32, target: u32) -> Result<()> {
        self.events.push(Complete(message))?;
        if let Some(four) = self.fours.get_mut(target as usize) {
            four.completed = four.completed.wrapping_add(1);
        }
        Ok(())
    }

    fn contribute(&mut self, rank: u32) -> Result<()> {
        if let Some(four) = self.fours.get(rank as usize).copied() {
            self.events.push(Contribute(rank, four))?;
        }
        Ok(())
    }

    // A wave, in which the open message passes from one rank to the next.
    fn wave(&mut self, from: u32, open: u32) -> Result<u32> {
        let next = from.wrapping_add(1) % RANKS;
        self.contribute(next)?;
        for step in 0..SHORT {
            let target = from.wrapping_add(step) % RANKS;
            if target != next {
                let message = self.pass(from, target, Some(open))?;
                self.complete(message, target)?;
            }
        }
        let passed = self.pass(from, next, Some(open))?;
        self.complete(open, from)?;
        for rank in 0..RANKS {
            if rank != next {
                self.contribute(rank)?;
            }
        }
        for rank in 1..RANKS {
            self.events.push(Relay(0, rank))?;
        }
        for rank in 0..RANKS {
            self.events.push(FinishEvent::Result(rank, 1))?;
        }
        Ok(passed)
    }
}

fn kept_list(alloc: Global) -> Result<Vec<FinishEvent>> {
    let mut list = List::new(alloc)?;
    let mut open = list.pass(0, 0, None)?;
    for rank in 0..RANKS {
        list.events.push(Stand(rank))?;
    }
    for wave in 0..EVENTS as u32 {
        if list.events.len() >= EVENTS {
            break;
        }
        open = list.wave(wave % RANKS, open)?;
    }
    list.events.truncate(EVENTS);
    Ok(list.events)
}

fn main(rt: HostRuntime) -> Result<()> {
    let alloc = rt.alloc();
    let events = kept_list(alloc)?;
    for _ in 0..5 {
        if events.len() <= EVENTS {
            let start = Instant::now(&rt)?;
            let found = audit(alloc, RANKS, &events)?;
            let time = start.elapsed(&rt)?.as_millis();
            println!(rt; "{time} ms, {} events: {found:?}", events.len())?;
        }
    }
    Ok(())
}
PROGRAM
(cd "$folder/crates/timed" && rt run > "$folder/build.log" 2>&1) || { tail -n 20 "$folder/build.log"; exit 1; }
"$folder/crates/timed/out/timed"
