//! Drives a POP3 server on this machine, and tells how fast it is.
//!
//! load PORT sessions CONNECTIONS SECONDS     sessions of USER, PASS, STAT, QUIT, one after another on each connection's thread
//! load PORT many CONNECTIONS COUNT           the same, so many on each thread
//! load PORT noop CONNECTIONS SECONDS         round trips of NOOP
//! load PORT retr CONNECTIONS COUNT           each connection retrieves messages 1 to COUNT
//! load PORT hold CONNECTIONS                 logs in so many at once, and holds them until its input ends
//!
//! Each but `hold` prints one line: how many, how many a second, the times in milliseconds that half of them and 99 of 100
//! stayed within, megabytes a second, and how many connections failed. Its status is 0 where none failed.
//!
//! Connection number K, from 0, logs in as user `uK` with the secret `s`, so that no two wait for one lock.

use std::env;
use std::io::{BufRead, BufReader, Read, Write};
use std::net::TcpStream;
use std::process::ExitCode;
use std::thread;
use std::time::{Duration, Instant};

type Failure = Box<dyn std::error::Error + Send + Sync>;

struct Client {
    stream: TcpStream,
    replies: BufReader<TcpStream>,
    line: String,
}

impl Client {
    fn connect(port: u16) -> Result<Client, Failure> {
        let stream = TcpStream::connect(("127.0.0.1", port))?;
        stream.set_nodelay(true)?;
        stream.set_read_timeout(Some(Duration::from_secs(60)))?;
        let replies = BufReader::with_capacity(65_536, stream.try_clone()?);
        let mut client = Client { stream, replies, line: String::new() };
        client.expect_ok()?;
        Ok(client)
    }

    fn expect_ok(&mut self) -> Result<(), Failure> {
        self.line.clear();
        self.replies.read_line(&mut self.line)?;
        if self.line.starts_with("+OK") { Ok(()) } else { Err(format!("not +OK: {:?}", self.line).into()) }
    }

    fn say(&mut self, line: &str) -> Result<(), Failure> {
        self.stream.write_all(line.as_bytes())?;
        self.expect_ok()
    }

    fn log_in(&mut self, user: usize) -> Result<(), Failure> {
        self.say(&format!("USER u{user}\r\n"))?;
        self.say("PASS s\r\n")
    }

    /// Retrieves a message. Gives how many octets came.
    fn retrieve(&mut self, number: usize) -> Result<usize, Failure> {
        self.say(&format!("RETR {number}\r\n"))?;
        let mut octets = 0;
        let mut line = Vec::new();
        loop {
            line.clear();
            if self.replies.read_until(b'\n', &mut line)? == 0 {
                return Err("closed in a message".into());
            }
            if line == b".\r\n" {
                return Ok(octets);
            }
            octets += line.len();
        }
    }
}

/// What one connection did.
#[derive(Default)]
struct Work {
    times: Vec<f64>,
    octets: usize,
}

fn sessions(port: u16, user: usize, goes_on: impl Fn(usize) -> bool) -> Result<Work, Failure> {
    let mut work = Work::default();
    while goes_on(work.times.len()) {
        let start = Instant::now();
        let mut client = Client::connect(port)?;
        client.log_in(user)?;
        client.say("STAT\r\n")?;
        client.say("QUIT\r\n")?;
        work.times.push(start.elapsed().as_secs_f64());
    }
    Ok(work)
}

fn noop(port: u16, user: usize, until: Instant) -> Result<Work, Failure> {
    let mut work = Work::default();
    let mut client = Client::connect(port)?;
    client.log_in(user)?;
    while Instant::now() < until {
        let start = Instant::now();
        client.say("NOOP\r\n")?;
        work.times.push(start.elapsed().as_secs_f64());
    }
    client.say("QUIT\r\n")?;
    Ok(work)
}

fn retr(port: u16, user: usize, count: usize) -> Result<Work, Failure> {
    let mut work = Work::default();
    let mut client = Client::connect(port)?;
    client.log_in(user)?;
    for number in 1..=count {
        let start = Instant::now();
        work.octets += client.retrieve(number)?;
        work.times.push(start.elapsed().as_secs_f64());
    }
    client.say("QUIT\r\n")?;
    Ok(work)
}

fn hold(port: u16, count: usize) -> Result<(), Failure> {
    let start = Instant::now();
    let mut clients = Vec::new();
    for user in 0..count {
        let mut client = Client::connect(port)?;
        client.log_in(user)?;
        clients.push(client);
    }
    println!("{count} logged in at once after {:.2} s", start.elapsed().as_secs_f64());
    std::io::stdin().read_to_end(&mut Vec::new())?;
    for client in &mut clients {
        client.say("QUIT\r\n")?;
    }
    Ok(())
}

/// What the threads do.
#[derive(Clone, Copy)]
enum Mode {
    Sessions(Duration),
    Many(usize),
    Noop(Duration),
    Retr(usize),
}

impl Mode {
    fn new(word: &str, amount: usize) -> Option<Mode> {
        let seconds = Duration::from_secs(amount as u64);
        match word {
            "sessions" => Some(Mode::Sessions(seconds)),
            "many" => Some(Mode::Many(amount)),
            "noop" => Some(Mode::Noop(seconds)),
            "retr" => Some(Mode::Retr(amount)),
            _ => None,
        }
    }

    fn work(self, port: u16, user: usize) -> Result<Work, Failure> {
        let start = Instant::now();
        match self {
            Mode::Sessions(time) => sessions(port, user, |_| start.elapsed() < time),
            Mode::Many(count) => sessions(port, user, |done| done < count),
            Mode::Noop(time) => noop(port, user, start + time),
            Mode::Retr(count) => retr(port, user, count),
        }
    }
}

/// Runs so many connections at once, and prints what they did. Gives how many failed.
fn load(port: u16, mode: Mode, connections: usize) -> usize {
    let start = Instant::now();
    let threads: Vec<_> = (0..connections).map(|user| thread::spawn(move || mode.work(port, user))).collect();
    let (mut times, mut octets, mut failures) = (Vec::new(), 0, 0);
    for thread in threads {
        match thread.join().expect("a client's thread panicked") {
            Ok(work) => {
                times.extend(work.times);
                octets += work.octets;
            }
            Err(error) => {
                failures += 1;
                eprintln!("{error}");
            }
        }
    }
    let seconds = start.elapsed().as_secs_f64();
    times.sort_by(f64::total_cmp);
    let within = |part: f64| times.get((times.len() as f64 * part) as usize).map_or(0.0, |time| time * 1000.0);
    println!(
        "{} done, {:.0} a second, half within {:.3} ms, 99 of 100 within {:.3} ms, {:.0} MB a second, {failures} failed",
        times.len(),
        times.len() as f64 / seconds,
        within(0.5),
        within(0.99),
        octets as f64 / seconds / 1e6
    );
    failures
}

fn main() -> ExitCode {
    let words: Vec<String> = env::args().collect();
    let number = |at: usize| words.get(at).and_then(|word| word.parse::<usize>().ok());
    let (Some(port), Some(word), Some(connections)) = (words.get(1).and_then(|word| word.parse().ok()), words.get(2), number(3))
    else {
        eprintln!("load PORT sessions|many|noop|retr|hold CONNECTIONS [SECONDS|COUNT]");
        return ExitCode::from(2);
    };
    if word == "hold" {
        return match hold(port, connections) {
            Ok(()) => ExitCode::SUCCESS,
            Err(error) => {
                eprintln!("{error}");
                ExitCode::FAILURE
            }
        };
    }
    match number(4).and_then(|amount| Mode::new(word, amount)) {
        None => ExitCode::from(2),
        Some(mode) if load(port, mode, connections) == 0 => ExitCode::SUCCESS,
        Some(_) => ExitCode::FAILURE,
    }
}
