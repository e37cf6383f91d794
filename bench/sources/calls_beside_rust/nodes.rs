//! Three nodes in one thread. Each run has a process of its own, so that the memory of one is not counted for another.
use crate::measure::{memory, processor_time};
use std::process::Command;

unsafe extern "C" {
    fn bench_nodes(pairs: u64) -> u64;
}

/// Pairs of commands of three nodes: few, many, and twice as many, so that what the last ones cost is half of the longest run.
const FEW: u64 = 500;
const MANY: u64 = 50_000;
const MORE: u64 = 2 * MANY;

/// How often nodes that perform few pairs are started in one process: they perform as many pairs together as those that
/// perform many, so what the start of the process costs weighs as little.
const STARTS: u64 = MANY / FEW;

/// Has so many pairs of commands performed by each of so many starts of three nodes, and prints the milliseconds of processor
/// time, and the most memory that the process had besides what it had before, in bytes.
pub fn measure(pairs: &str, starts: &str) {
    let pairs = pairs.parse().expect("a number of pairs");
    let starts: u64 = starts.parse().expect("a number of starts");
    let before = memory("VmRSS").expect("a status of the process");
    let start = processor_time();
    let value: u64 = (0..starts).map(|_| unsafe { bench_nodes(pairs) }).sum();
    let time = processor_time() - start;
    assert_eq!(value, 2 * pairs * starts, "a command isn't performed");
    let peak = memory("VmHWM").expect("a status of the process");
    println!("{} {}", time.as_secs_f64() * 1e3, peak.saturating_sub(before));
}

/// The milliseconds of processor time and the memory of a run in a process of its own.
fn run(pairs: u64, starts: u64) -> (f64, f64) {
    let program = std::env::current_exe().expect("the path of this program");
    let output = Command::new(program)
        .args(["nodes", &pairs.to_string(), &starts.to_string()])
        .output()
        .expect("a run of this program");
    let text = String::from_utf8(output.stdout).expect("two numbers");
    let numbers: Vec<f64> = text.split_whitespace().filter_map(|word| word.parse().ok()).collect();
    let [time, peak] = numbers[..] else {
        panic!("the run of {pairs} pairs ended without an answer");
    };
    (time, peak)
}

/// The shortest of five times, and the least memory.
fn best(pairs: u64, starts: u64) -> (f64, f64) {
    let runs: Vec<(f64, f64)> = (0..5).map(|_| run(pairs, starts)).collect();
    let least = |numbers: fn(&(f64, f64)) -> f64| runs.iter().map(numbers).fold(f64::MAX, f64::min);
    (least(|run| run.0), least(|run| run.1))
}

pub fn tell() {
    let (few, _) = best(FEW, STARTS);
    let (many, peak) = best(MANY, 1);
    let (more, _) = best(MORE, 1);
    let commands = |pairs: u64| 2.0 * pairs as f64;
    let each = |time: f64, pairs: u64| time * 1e3 / commands(pairs);
    println!(
        "{:<40} {:>10.2} us a command   {:.0} a second   of the first 1,000: {:.2}   of the second 100,000: {:.2}",
        "Three nodes, 100,000 commands",
        each(many, MANY),
        1e6 / each(many, MANY),
        each(few, FEW * STARTS),
        each(more - many, MORE - MANY)
    );
    println!(
        "{:<40} {:>10.2} kB a command   (at most, by the system's pages)",
        "their memory",
        peak / 1e3 / commands(MANY)
    );
}
