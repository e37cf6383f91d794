//! The readers of mailboxes. Each of its runs has a process of its own, so that the memory of one is not counted for the
//! other.
use crate::measure::{memory, timed};
use crate::shared::{find, line_value};
use std::process::Command;
use std::sync::Arc;

unsafe extern "C" {
    fn bench_mailbox(bytes: *const u8, len: usize) -> u64;
    fn bench_reader(bytes: *const u8, len: usize) -> u64;
}

type Text = Arc<Vec<Vec<u8>>>;

/// A mailbox of 100 MB: lines of 60 bytes with their line feeds, of which each hundredth begins a message.
fn mailbox() -> Vec<u8> {
    let from = format!("From {:54}\n", "a@b Thu Jan  1 00:00:00 1970");
    let line: Vec<u8> = (0..59u8).map(|i| b'a' + i % 26).chain([b'\n']).collect();
    let message: Vec<u8> = from.into_bytes().into_iter().chain(line.repeat(99)).collect();
    message.iter().copied().cycle().take(100_000_000).collect()
}

fn next_line(bytes: &[u8]) -> Option<(&[u8], &[u8])> {
    match find(b'\n', bytes) {
        Some(end) => {
            let line = &bytes[..end];
            Some((line.strip_suffix(b"\r").unwrap_or(line), &bytes[end + 1..]))
        }
        None if bytes.is_empty() => None,
        None => Some((bytes, &[])),
    }
}

fn is_quotable(line: &[u8]) -> bool {
    let quotes = line.iter().take_while(|byte| **byte == b'>').count();
    line[quotes..].starts_with(b"From ")
}

fn unquoted(line: &[u8]) -> &[u8] {
    match line.strip_prefix(b">") {
        Some(rest) if is_quotable(rest) => rest,
        _ => line,
    }
}

/// The text of these lines, without one empty line at their end.
fn text_of(mut lines: Vec<Vec<u8>>) -> Text {
    if lines.last().is_some_and(Vec::is_empty) {
        lines.pop();
    }
    Arc::new(lines)
}

/// The reader as Rust has it.
fn read(bytes: &[u8]) -> Option<Vec<Text>> {
    let Some((first, mut rest)) = next_line(bytes) else {
        return Some(Vec::new());
    };
    if !first.starts_with(b"From ") {
        return None;
    }
    let mut texts = Vec::new();
    let mut lines = Vec::new();
    while let Some((line, behind)) = next_line(rest) {
        if line.starts_with(b"From ") {
            texts.push(text_of(std::mem::take(&mut lines)));
        } else {
            lines.push(unquoted(line).to_vec());
        }
        rest = behind;
    }
    texts.push(text_of(lines));
    Some(texts)
}

/// The same as `bench_mailbox`.
fn rust_mailbox(bytes: &[u8]) -> u64 {
    let Some(texts) = read(bytes) else {
        return 0;
    };
    texts
        .iter()
        .flat_map(|text| text.iter())
        .map(|line| line_value(line))
        .sum()
}

/// Reads the mailbox once, and prints the milliseconds, the most memory that the process had besides what it had
/// before, in bytes, and what came of it.
pub fn measure(reader: &str) {
    let bytes = mailbox();
    let before = memory("VmRSS").expect("a status of the process");
    let (time, value) = match reader {
        "rattle" => timed(|| unsafe { bench_mailbox(bytes.as_ptr(), bytes.len()) }),
        "pieces" => timed(|| unsafe { bench_reader(bytes.as_ptr(), bytes.len()) }),
        _ => timed(|| rust_mailbox(&bytes)),
    };
    let peak = memory("VmHWM").expect("a status of the process");
    println!("{} {} {value}", time.as_secs_f64() * 1e3, peak.saturating_sub(before));
}

/// The milliseconds, the memory and the value of a run in a process of its own.
fn run(reader: &str) -> (f64, f64, u64) {
    let program = std::env::current_exe().expect("the path of this program");
    let output = Command::new(program)
        .arg(reader)
        .output()
        .expect("a run of this program");
    let text = String::from_utf8(output.stdout).expect("three numbers");
    let numbers: Vec<&str> = text.split_whitespace().collect();
    let [time, peak, value] = numbers[..] else {
        panic!("the run of {reader} ended without an answer");
    };
    let number = |text: &str| text.parse::<f64>().expect("a number");
    (number(time), number(peak), value.parse().expect("a number"))
}

/// The shortest of five times of each, in turn, and the most memory.
pub fn compare() {
    let mut times = [f64::MAX; 3];
    let mut peaks = [0f64; 3];
    let mut values = [0; 3];
    for _ in 0..5 {
        for (i, reader) in ["rattle", "rust", "pieces"].into_iter().enumerate() {
            let (time, peak, value) = run(reader);
            times[i] = times[i].min(time);
            peaks[i] = peaks[i].max(peak);
            values[i] = value;
        }
        assert_eq!(values[0], values[1], "mboxrd::read: the two differ");
        assert_eq!(values[0], values[2], "mboxrd::Reader: another value");
    }
    for (name, i) in [("mboxrd::read", 0), ("mboxrd::Reader, by 4,096 bytes", 2)] {
        println!(
            "{:<40} rattle {:>10.3} ms   rust {:>10.3} ms   ratio {:.2}",
            format!("{name}, 100 MB"),
            times[i],
            times[1],
            times[i] / times[1]
        );
        println!(
            "{:<40} rattle {:>10.2}      rust {:>10.2}      (parts of the file's size, besides the file)",
            "its memory",
            peaks[i] / 1e8,
            peaks[1] / 1e8
        );
    }
}
