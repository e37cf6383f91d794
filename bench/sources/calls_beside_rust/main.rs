//! Measures calls of this repository beside a plain Rust version of each, in one run.
mod audits;
mod decisions;
mod deliveries;
mod mailbox;
mod measure;
mod nodes;
mod promises;
mod shared;
mod wire;

fn main() {
    let arguments: Vec<String> = std::env::args().skip(1).collect();
    match arguments.as_slice() {
        [word, pairs, starts] if word == "nodes" => nodes::measure(pairs, starts),
        [word, sessions, audits] if word == "audits" => audits::measure(sessions, audits),
        [word] if word == "audits" => audits::tell(),
        [reader, ..] => mailbox::measure(reader),
        [] => {
            promises::compare_all();
            decisions::compare_all();
            deliveries::compare_all();
            nodes::tell();
            audits::tell();
            wire::compare_all();
            mailbox::compare();
        }
    }
}
