//! The wire's calls.
use crate::measure::{compare, timed};
use crate::shared::{find, line_value};
use std::hint::black_box;
use std::sync::Arc;
use std::time::Duration;

unsafe extern "C" {
    fn bench_lines(stream: *const u8, len: usize) -> u64;
    fn bench_stuffed(bytes: *const u8, len: usize, rounds: u32) -> u64;
    fn bench_reply(bytes: *const u8, len: usize, rounds: u32) -> u64;
}

struct LineBytes {
    bytes: [u8; 511],
    len: usize,
}

enum Line {
    Whole(LineBytes),
    TooLong,
}

/// The reader as Rust has it, with the same calls.
struct LineReader {
    bytes: [u8; 512],
    len: usize,
    is_finished: bool,
}

impl LineReader {
    fn new() -> Self {
        LineReader {
            bytes: [0; 512],
            len: 0,
            is_finished: false,
        }
    }

    fn keep(&mut self, bytes: &[u8]) {
        let fitting = bytes.len().min(512 - self.len);
        self.bytes[self.len..self.len + fitting].copy_from_slice(&bytes[..fitting]);
        self.len += fitting;
    }

    fn feed(&mut self, piece: &[u8]) -> usize {
        if self.is_finished {
            return 0;
        }
        match find(b'\n', piece) {
            None => {
                self.keep(piece);
                piece.len()
            }
            Some(end) => {
                self.keep(&piece[..end]);
                self.is_finished = true;
                end + 1
            }
        }
    }

    fn next_line(&mut self) -> Option<Line> {
        if !self.is_finished {
            return None;
        }
        self.is_finished = false;
        let line = &self.bytes[..self.len];
        self.len = 0;
        if line.len() > 511 {
            return Some(Line::TooLong);
        }
        let line = line.strip_suffix(b"\r").unwrap_or(line);
        let mut bytes = [0; 511];
        bytes[..line.len()].copy_from_slice(line);
        Some(Line::Whole(LineBytes { bytes, len: line.len() }))
    }
}

fn rust_lines(stream: &[u8]) -> u64 {
    let mut reader = LineReader::new();
    let mut total = 0;
    for piece in stream.chunks(4096) {
        let mut rest = piece;
        while !rest.is_empty() {
            let taken = reader.feed(rest);
            rest = &rest[taken..];
            if let Some(Line::Whole(line)) = reader.next_line() {
                total += line_value(&line.bytes[..line.len]);
            }
        }
    }
    total
}

type Text = Arc<Vec<Vec<u8>>>;

fn wire_octets(text: &Text) -> usize {
    text.iter()
        .map(|line| line.len() + 2 + usize::from(line.first() == Some(&b'.')))
        .sum::<usize>()
        + 3
}

fn put_wire(bytes: &mut Vec<u8>, text: &Text) {
    for line in text.iter() {
        if line.first() == Some(&b'.') {
            bytes.push(b'.');
        }
        bytes.extend_from_slice(line);
        bytes.extend_from_slice(b"\r\n");
    }
    bytes.extend_from_slice(b".\r\n");
}

#[inline(never)]
fn rust_stuffed(text: &Text) -> Vec<u8> {
    let mut bytes = Vec::with_capacity(wire_octets(text));
    put_wire(&mut bytes, text);
    bytes
}

#[inline(never)]
fn rust_reply(octets: u64, text: &Text) -> Vec<u8> {
    let mut bytes = Vec::with_capacity(80 + wire_octets(text));
    bytes.extend_from_slice(b"+OK ");
    bytes.extend_from_slice(octets.to_string().as_bytes());
    bytes.extend_from_slice(b" octets\r\n");
    put_wire(&mut bytes, text);
    bytes
}

fn text_of(bytes: &[u8]) -> Text {
    Arc::new(bytes.chunks(60).map(<[u8]>::to_vec).collect())
}

/// The time of `rounds` rounds without the making of the text, which both runs have.
fn rounds_of(run: unsafe extern "C" fn(*const u8, usize, u32) -> u64, bytes: &[u8], rounds: u32) -> (Duration, u64) {
    let (none, _) = timed(|| unsafe { run(bytes.as_ptr(), bytes.len(), 0) });
    let (all, total) = timed(|| unsafe { run(bytes.as_ptr(), bytes.len(), rounds) });
    (all.saturating_sub(none), total)
}

pub fn compare_all() {
    let line = b"USER somebody-abcd\r\n";
    let stream: Vec<u8> = line.iter().copied().cycle().take(100_000_000).collect();
    compare(
        "LineReader, 100 MB in lines of 20",
        || timed(|| unsafe { bench_lines(stream.as_ptr(), stream.len()) }),
        || timed(|| rust_lines(&stream)),
    );

    let bytes: Vec<u8> = (0..1_000_000u32).map(|i| b'a' + (i % 26) as u8).collect();
    let text = text_of(&bytes);
    let rounds = 100;
    compare(
        "stuffed, 100 times 1 MB in lines of 60",
        || rounds_of(bench_stuffed, &bytes, rounds),
        || timed(|| (0..rounds).map(|_| black_box(rust_stuffed(&text)).len() as u64).sum()),
    );
    compare(
        "Reply::text, 100 times the same text",
        || rounds_of(bench_reply, &bytes, rounds),
        || {
            timed(|| {
                (0..rounds)
                    .map(|_| black_box(rust_reply(1_000_000, &text)).len() as u64)
                    .sum()
            })
        },
    );
}
