//! Runs the program of crates/cluster_load, which has nodes on threads decide the commands of clients on threads of their own,
//! and beside it threads of plain Rust that pass on the messages of a command that nothing contends with, and decide nothing. Each run is a process of its own.
use std::collections::VecDeque;
use std::process::{Child, Command, Stdio};
use std::sync::mpsc::{Receiver, Sender, channel};
use std::sync::{Arc, Condvar, Mutex};
use std::time::{Duration, Instant};

/// How many messages a node hears at most under one lock.
const BATCH: usize = 32;

/// How many clients there are at most.
const CLIENTS: usize = 99;

/// A message between nodes about the command of a client.
#[derive(Clone, Copy)]
enum Message {
    Propose(usize),
    Ask(usize, usize),
    Vote(usize),
    Decision(usize),
}

/// What lies under a node's lock: how many votes each client's command has, and the answers that are there.
struct State {
    votes: [usize; CLIENTS],
    decided: [bool; CLIENTS],
    sends: VecDeque<(usize, Message)>,
}

struct Node {
    me: usize,
    inboxes: Vec<Sender<Message>>,
    state: Mutex<State>,
    waiters: Vec<Condvar>,
}

impl Node {
    /// One step, behind which the node has heard what it sends to itself. Gives the client whose command is decided.
    fn step(&self, state: &mut State, message: Message) -> Option<usize> {
        let leader = 0;
        let all = 0..self.inboxes.len();
        let mut woken = None;
        let mut own = Some(message);
        while let Some(message) = own.take() {
            match message {
                Message::Propose(client) if self.me == leader => {
                    state.votes[client] = 0;
                    state.sends.extend(all.clone().map(|to| (to, Message::Ask(leader, client))));
                }
                Message::Propose(_) => {}
                Message::Ask(from, client) => state.sends.push_back((from, Message::Vote(client))),
                Message::Vote(client) => {
                    state.votes[client] += 1;
                    if state.votes[client] == all.len() / 2 + 1 {
                        state.sends.extend(all.clone().map(|to| (to, Message::Decision(client))));
                    }
                }
                Message::Decision(client) => {
                    state.decided[client] = true;
                    woken = Some(client);
                }
            }
            let place = state.sends.iter().position(|(to, _)| *to == self.me);
            own = place.and_then(|place| state.sends.remove(place)).map(|(_, message)| message);
        }
        woken
    }

    fn send(&self, sends: VecDeque<(usize, Message)>) {
        for (to, message) in sends {
            let _lost = self.inboxes[to].send(message);
        }
    }

    /// Hears what comes, until nobody sends any more.
    fn hear(&self, inbox: Receiver<Message>) {
        while let Ok(first) = inbox.recv() {
            let mut woken = [false; CLIENTS];
            let mut state = self.state.lock().unwrap();
            let mut next = Some(first);
            for _ in 0..BATCH {
                let Some(message) = next.take() else { break };
                if let Message::Decision(usize::MAX) = message {
                    return;
                }
                if let Some(client) = self.step(&mut state, message) {
                    woken[client] = true;
                }
                next = inbox.try_recv().ok();
            }
            if let Some(message) = next {
                let _woken = self.step(&mut state, message).map(|client| woken[client] = true);
            }
            let sends = std::mem::take(&mut state.sends);
            drop(state);
            for (client, is_woken) in woken.iter().enumerate() {
                if *is_woken {
                    self.waiters[client].notify_all();
                }
            }
            self.send(sends);
        }
    }

    /// One command of a client, from its submit to its outcome.
    fn ask(&self, client: usize) {
        let mut state = self.state.lock().unwrap();
        state.decided[client] = false;
        let others = (0..self.inboxes.len()).filter(|to| *to != self.me);
        state.sends.extend(others.map(|to| (to, Message::Propose(client))));
        let _own = self.step(&mut state, Message::Propose(client));
        let sends = std::mem::take(&mut state.sends);
        drop(state);
        self.send(sends);
        let mut state = self.state.lock().unwrap();
        while !state.decided[client] {
            state = self.waiters[client].wait(state).unwrap();
        }
    }
}

/// Nodes of plain Rust, and clients that ask them. Tells what the program over the cluster tells.
fn limit(nodes: usize, clients: usize, commands: usize, first: usize) {
    let (inboxes, receivers): (Vec<_>, Vec<_>) = (0..nodes).map(|_| channel()).unzip();
    let new_node = |me| {
        Arc::new(Node {
            me,
            inboxes: inboxes.clone(),
            state: Mutex::new(State {
                votes: [0; CLIENTS],
                decided: [false; CLIENTS],
                sends: VecDeque::new(),
            }),
            waiters: (0..CLIENTS).map(|_| Condvar::new()).collect(),
        })
    };
    let all: Vec<Arc<Node>> = (0..nodes).map(new_node).collect();
    let threads: Vec<_> = receivers
        .into_iter()
        .zip(all.iter().cloned())
        .map(|(inbox, node)| std::thread::spawn(move || node.hear(inbox)))
        .collect();
    let start = Instant::now();
    let mut times: Vec<u128> = Vec::new();
    let asking: Vec<_> = (0..clients)
        .map(|client| {
            let node = all[(first - 1 + client) % nodes].clone();
            std::thread::spawn(move || {
                let one = |_| {
                    let start = Instant::now();
                    node.ask(client);
                    start.elapsed().as_micros()
                };
                (0..commands).map(one).collect::<Vec<u128>>()
            })
        })
        .collect();
    for thread in asking {
        times.extend(thread.join().unwrap());
    }
    let took = start.elapsed().as_micros();
    times.sort();
    eprintln!("{} {took} {} {}", times.len(), times[times.len() / 2], times[times.len() * 99 / 100]);
    for inbox in &inboxes {
        let _last = inbox.send(Message::Decision(usize::MAX));
    }
    for thread in threads {
        thread.join().unwrap();
    }
}

/// What was measured of a run: its rounds, each with its commands, microseconds, and those within which half of its commands
/// and 99 of 100 were there; and the processor time and the most memory of the whole.
struct Measured {
    rounds: Vec<[f64; 4]>,
    processor: Duration,
    bytes: f64,
}

/// Waits for the end of a process, and gives its processor time and its most memory in bytes.
fn end_of(child: Child) -> (Duration, f64) {
    #[repr(C)]
    #[derive(Default)]
    struct Usage {
        user: [i64; 2],
        system: [i64; 2],
        most_kilobytes: i64,
        others: [i64; 13],
    }
    unsafe extern "C" {
        fn wait4(process: i32, status: *mut i32, options: i32, usage: *mut Usage) -> i32;
    }
    let mut usage = Usage::default();
    let mut status = 0;
    let ended = unsafe { wait4(child.id() as i32, &mut status, 0, &mut usage) };
    assert!(ended > 0 && status == 0, "a run has failed");
    let time = |part: [i64; 2]| Duration::new(part[0] as u64, part[1] as u32 * 1000);
    (time(usage.user) + time(usage.system), usage.most_kilobytes as f64 * 1024.0)
}

/// A run of a program with these numbers.
fn run(program: &str, numbers: &[usize]) -> Measured {
    let mut child = Command::new(program)
        .args(numbers.iter().map(|number| number.to_string()))
        .stdout(Stdio::null())
        .stderr(Stdio::piped())
        .spawn()
        .expect("a run of the program");
    let text = std::io::read_to_string(child.stderr.take().unwrap()).expect("rounds");
    let (processor, bytes) = end_of(child);
    let numbers = |line: &str| -> [f64; 4] {
        let words: Vec<f64> = line.split(' ').filter_map(|word| word.parse().ok()).collect();
        words.try_into().expect("four numbers")
    };
    Measured { rounds: text.lines().map(numbers).collect(), processor, bytes }
}

/// Of five runs the one with the most commands a second.
fn best(program: &str, numbers: &[usize]) -> Measured {
    (0..5)
        .map(|_| run(program, numbers))
        .min_by(|one, other| one.rounds[0][1].total_cmp(&other.rounds[0][1]))
        .unwrap()
}

fn cells(measured: &Measured) -> String {
    let [commands, took, half, most] = measured.rounds[0];
    let processor = measured.processor.as_micros() as f64 / commands;
    format!("{:>9.0} {half:>6} {most:>6} {processor:>6.1}", commands / took * 1e6)
}

fn row(load: &str, own: &str, nodes: usize, clients: usize, first: usize) {
    let commands = 40_000 / clients;
    let ours = best(load, &[nodes, clients, commands, 1, first]);
    let theirs = best(own, &[nodes, clients, commands, first]);
    println!("{nodes:>5} {clients:>7} {first:>5} | {} | {}", cells(&ours), cells(&theirs));
}

/// The commands of the first round beside those of the last, and the bytes that a command leaves.
fn growth(load: &str) {
    let rounds = 100;
    let commands = 250;
    let long = run(load, &[3, 16, commands, rounds, 1]);
    let short = run(load, &[3, 16, commands, rounds / 4, 1]);
    let each = |round: &[f64; 4]| round[0] / round[1] * 1e6;
    let mean = |part: &[[f64; 4]]| part.iter().map(each).sum::<f64>() / part.len() as f64;
    let more = (16 * commands * (rounds - rounds / 4)) as f64;
    println!(
        "of 400,000 commands from 16 clients: the first 40,000 {:.0} a second, the last 40,000 {:.0}",
        mean(&long.rounds[..10]),
        mean(&long.rounds[rounds - 10..])
    );
    println!("bytes that a command leaves in all three nodes: {:.0}", (long.bytes - short.bytes) / more);
}

fn compare(load: &str) {
    let own = std::env::current_exe().expect("the path of this program");
    let own = own.to_str().expect("a path in letters");
    let load_now = std::fs::read_to_string("/proc/loadavg").unwrap_or_default();
    println!("load: {}", load_now.trim());
    println!("                    | nodes that decide              | plain Rust that decides nothing");
    println!("nodes clients first |  a second    p50    p99   cpu |  a second    p50    p99   cpu   (microseconds)");
    for (nodes, clients, first) in [
        (1, 1, 1),
        (1, 16, 1),
        (3, 1, 1),
        (3, 1, 2),
        (3, 4, 1),
        (3, 16, 1),
        (5, 16, 1),
        (9, 16, 1),
    ] {
        row(load, own, nodes, clients, first);
    }
    growth(load);
    let load_now = std::fs::read_to_string("/proc/loadavg").unwrap_or_default();
    println!("load: {}", load_now.trim());
}

fn main() {
    let arguments: Vec<String> = std::env::args().skip(1).collect();
    match arguments.as_slice() {
        [load] => compare(load),
        [nodes, clients, commands, first] => {
            let number = |word: &String| word.parse().expect("a number");
            limit(number(nodes), number(clients), number(commands), number(first));
        }
        _ => panic!("the path of cluster_load"),
    }
}
