//! A replica's calls.
use crate::measure::{compare, processor_time, timed};
use std::collections::{BTreeMap, BTreeSet, VecDeque};
use std::hint::black_box;

const WINDOW: u64 = 10;
const NODES: u8 = 3;

unsafe extern "C" {
    fn bench_decisions(count: u64, block: u64) -> u64;
}

#[derive(Clone, Copy)]
enum Message {
    Propose(u64, u64),
}

struct Outgoing {
    _to: u8,
    _message: Message,
}

/// The replica as Rust has it, with the same calls.
struct Replica {
    slot_in: u64,
    slot_out: u64,
    requests: VecDeque<u64>,
    proposals: BTreeMap<u64, u64>,
    decisions: BTreeMap<u64, u64>,
    performed: Vec<(u64, u64)>,
    identities: BTreeSet<u64>,
    awaited: BTreeMap<u64, Option<u64>>,
}

impl Replica {
    fn new() -> Self {
        Replica {
            slot_in: 1,
            slot_out: 1,
            requests: VecDeque::new(),
            proposals: BTreeMap::new(),
            decisions: BTreeMap::new(),
            performed: Vec::new(),
            identities: BTreeSet::new(),
            awaited: BTreeMap::new(),
        }
    }

    fn request(&mut self, command: u64) -> Vec<Outgoing> {
        if !self.identities.contains(&command) {
            self.awaited.insert(command, None);
        }
        self.requests.push_back(command);
        self.propose()
    }

    fn decision(&mut self, slot: u64, command: u64) -> Vec<Outgoing> {
        if self.decisions.contains_key(&slot) {
            return Vec::new();
        }
        self.decisions.insert(slot, command);
        while let Some(&command) = self.decisions.get(&self.slot_out) {
            self.perform(command);
        }
        self.propose()
    }

    fn perform(&mut self, command: u64) {
        let slot = self.slot_out;
        self.slot_out += 1;
        if let Some(own) = self.proposals.remove(&slot)
            && own != command
        {
            self.requests.push_front(own);
        }
        if self.identities.insert(command) {
            if let Some(answer) = self.awaited.get_mut(&command) {
                *answer = Some(command);
            }
            self.performed.push((slot, command));
        }
    }

    fn propose(&mut self) -> Vec<Outgoing> {
        let mut sends = Vec::new();
        while self.slot_in < self.slot_out + WINDOW && !self.requests.is_empty() {
            let slot = self.slot_in;
            self.slot_in += 1;
            if self.decisions.contains_key(&slot) {
                continue;
            }
            let Some(command) = self.requests.pop_front() else {
                return sends;
            };
            sends.extend((1..=NODES).map(|to| Outgoing {
                _to: to,
                _message: Message::Propose(slot, command),
            }));
            self.proposals.insert(slot, command);
        }
        sends
    }

    fn take_answer(&mut self, identity: u64) -> Option<u64> {
        match self.awaited.get(&identity) {
            Some(Some(_)) => self.awaited.remove(&identity).flatten(),
            _ => None,
        }
    }
}

#[inline(never)]
fn rust_decisions(count: u64, block: u64) -> u64 {
    let mut replica = Replica::new();
    let mut total = 0u64;
    for place in 0..count {
        let within = place % block;
        let number = place - within + (block - within);
        let sent = replica.request(number).len() + replica.decision(number, number).len();
        total += sent as u64 + replica.take_answer(number).unwrap_or(0);
    }
    total + replica.performed.len() as u64
}

pub fn compare_all() {
    let count = 1_000_000;
    for (name, block) in [
        ("Replica, 1,000,000 decisions in order", 1),
        ("Replica, in blocks of 100 reversed", 100),
    ] {
        compare(
            name,
            || timed(|| unsafe { bench_decisions(count, block) }),
            || timed(|| rust_decisions(count, block)),
        );
    }
    let here = by_performed(|count| unsafe { bench_decisions(count, 1) });
    let rust = by_performed(|count| rust_decisions(count, 1));
    println!(
        "{:<40} rattle {:>6.0} ns, from the 100,000th on {:>6.0} ns   rust {:>6.0} ns, {:>6.0} ns",
        "A decision, up to 100 performed", here.0, here.1, rust.0, rust.1
    );
}

/// How many decisions replicas take that have performed few commands, and one that has performed many.
const FEW: u64 = 100;
const MANY: u64 = 100_000;

/// The nanoseconds of processor time of a decision: of the first 100 of each of many replicas, and of those from the
/// 100,000th on of one. A run takes so many decisions of one replica.
fn by_performed(run: impl Fn(u64) -> u64) -> (f64, f64) {
    let few = least(|| (0..MANY / FEW).map(|_| run(FEW)).sum());
    let many = least(|| run(MANY));
    let more = least(|| run(2 * MANY));
    (few / MANY as f64, (more - many) / MANY as f64)
}

/// The nanoseconds of processor time of a run, the least of five.
fn least(run: impl Fn() -> u64) -> f64 {
    let time = || {
        let start = processor_time();
        black_box(run());
        (processor_time() - start).as_nanos() as f64
    };
    (0..5).map(|_| time()).fold(f64::MAX, f64::min)
}
