//! A scout's promises.
use crate::measure::{compare, timed};
use std::collections::BTreeMap;
use std::collections::btree_map::Entry;

unsafe extern "C" {
    fn bench_promises(slots: u64, is_own: bool) -> u64;
}

const NODES: u8 = 9;

#[derive(Clone, Copy, PartialEq, Eq, PartialOrd, Ord)]
struct Ballot {
    round: u64,
    leader: u8,
}

#[derive(PartialEq, Eq)]
struct PValue {
    ballot: Ballot,
    slot: u64,
    command: u64,
}

struct Promise {
    asked: Ballot,
    ballot: Ballot,
    accepted: Vec<PValue>,
}

enum Progress {
    Waiting,
    Adopted(Vec<PValue>),
    Preempted,
    Stale,
}

/// The scout as Rust has it, with the same calls.
struct Scout {
    size: u8,
    ballot: Ballot,
    heard: Vec<u8>,
    pvalues: Vec<PValue>,
    places: BTreeMap<(u64, Ballot), usize>,
    has_ended: bool,
}

impl Scout {
    fn new(size: u8, ballot: Ballot) -> Self {
        Scout {
            size,
            ballot,
            heard: Vec::new(),
            pvalues: Vec::new(),
            places: BTreeMap::new(),
            has_ended: false,
        }
    }

    fn add(&mut self, pvalue: PValue) {
        match self.places.entry((pvalue.slot, pvalue.ballot)) {
            Entry::Vacant(entry) => {
                entry.insert(self.pvalues.len());
            }
            Entry::Occupied(mut entry) => {
                if self.pvalues[*entry.get()] == pvalue || self.pvalues.contains(&pvalue) {
                    return;
                }
                entry.insert(self.pvalues.len());
            }
        }
        self.pvalues.push(pvalue);
    }

    fn hear(&mut self, from: u8, promise: Promise) -> Progress {
        if self.has_ended || from > self.size || promise.asked != self.ballot {
            return Progress::Stale;
        }
        if self.ballot < promise.ballot {
            self.has_ended = true;
            return Progress::Preempted;
        }
        if promise.ballot < self.ballot || self.heard.contains(&from) {
            return Progress::Stale;
        }
        for pvalue in promise.accepted {
            self.add(pvalue);
        }
        self.heard.push(from);
        if 2 * self.heard.len() > usize::from(self.size) {
            self.has_ended = true;
            return Progress::Adopted(std::mem::take(&mut self.pvalues));
        }
        Progress::Waiting
    }
}

fn promise_of(asked: Ballot, ballot: Ballot, slots: u64) -> Promise {
    let mut accepted = Vec::new();
    for below in 0..slots {
        accepted.push(PValue {
            ballot,
            slot: below + 1,
            command: below,
        });
    }
    Promise {
        asked,
        ballot: asked,
        accepted,
    }
}

fn progress_value(progress: &Progress) -> u64 {
    match progress {
        Progress::Waiting => 1,
        Progress::Stale => 2,
        Progress::Preempted => 3,
        Progress::Adopted(pvalues) => {
            let values = pvalues.iter().map(|pvalue| pvalue.slot + pvalue.ballot.round + pvalue.command);
            pvalues.len() as u64 + values.sum::<u64>()
        }
    }
}

#[inline(never)]
fn rust_promises(slots: u64, is_own: bool) -> u64 {
    let asked = Ballot { round: 100, leader: 1 };
    let mut scout = Scout::new(NODES, asked);
    let mut total = 0;
    for from in 1..=NODES {
        let round = if is_own { u64::from(from) } else { 1 };
        let promise = promise_of(asked, Ballot { round, leader: 1 }, slots);
        total += progress_value(&scout.hear(from, promise));
    }
    total
}

pub fn compare_all() {
    let slots = 10_000;
    for (name, is_own) in [
        ("Scout, 9 promises of the same 10,000", false),
        ("Scout, each of a ballot of its own", true),
    ] {
        compare(
            name,
            || timed(|| unsafe { bench_promises(slots, is_own) }),
            || timed(|| rust_promises(slots, is_own)),
        );
    }
}
