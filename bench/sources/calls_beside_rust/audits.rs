//! Audits of what three nodes in one thread and their sessions leave. Each run has a process of its own, so that the memory
//! of one is not counted for another. A run without an audit is taken off one with it.
use crate::measure::{memory, processor_time};
use std::process::Command;

unsafe extern "C" {
    fn bench_audits(sessions: u64, audits: u64) -> u64;
}

const FEW: u64 = 10_000;
const MANY: u64 = 100_000;

/// Events of a session: it connects, says four lines and takes two answers, and each of its two commands takes twelve
/// messages.
const EVENTS: u64 = 7 + 2 * 12;

/// Events of the first node's way to lead: it asks, and is heard and answered by three.
const FIRST: u64 = 1 + 3 + 3;

/// Has what so many sessions leave audited so often, and prints the milliseconds of processor time, and the most memory
/// that the process had besides what it had before, in bytes.
pub fn measure(sessions: &str, audits: &str) {
    let sessions: u64 = sessions.parse().expect("a number of sessions");
    let audits: u64 = audits.parse().expect("a number of audits");
    let before = memory("VmRSS").expect("a status of the process");
    let start = processor_time();
    let value = unsafe { bench_audits(sessions, audits) };
    let time = processor_time() - start;
    assert_eq!(value, audits * (FIRST + sessions * EVENTS), "other events");
    let peak = memory("VmHWM").expect("a status of the process");
    println!("{} {}", time.as_secs_f64() * 1e3, peak.saturating_sub(before));
}

/// The milliseconds of processor time and the memory of a run in a process of its own.
fn run(sessions: u64, audits: u64) -> (f64, f64) {
    let program = std::env::current_exe().expect("the path of this program");
    let output = Command::new(program)
        .args(["audits", &sessions.to_string(), &audits.to_string()])
        .output()
        .expect("a run of this program");
    let text = String::from_utf8(output.stdout).expect("two numbers");
    let numbers: Vec<f64> = text.split_whitespace().filter_map(|word| word.parse().ok()).collect();
    let [time, peak] = numbers[..] else {
        panic!("the run of {sessions} sessions ended without an answer");
    };
    (time, peak)
}

/// The shortest of three times, and the least memory.
fn best(sessions: u64, audits: u64) -> (f64, f64) {
    let runs: Vec<(f64, f64)> = (0..3).map(|_| run(sessions, audits)).collect();
    let least = |numbers: fn(&(f64, f64)) -> f64| runs.iter().map(numbers).fold(f64::MAX, f64::min);
    (least(|run| run.0), least(|run| run.1))
}

/// The time of an audit, and the most memory with it and without it.
fn audit(sessions: u64) -> (f64, f64, f64) {
    let (without, kept) = best(sessions, 0);
    let (with, peak) = best(sessions, 1);
    (with - without, peak, kept)
}

pub fn tell() {
    let (few, ..) = audit(FEW);
    let (many, peak, kept) = audit(MANY);
    let each = |memory: f64| memory / 1e3 / MANY as f64;
    println!(
        "{:<40} {:>10.3} s   of 100,000: {:.3} s   ratio {:.1}",
        "Audit, three nodes, 10,000 sessions",
        few / 1e3,
        many / 1e3,
        many / few
    );
    println!(
        "{:<40} {:>10.2} kB a session   without an audit: {:.2}   (of 100,000, by the system's pages)",
        "the process at most",
        each(peak),
        each(kept)
    );
}
