//! Deliveries under keys.
use crate::measure::{compare, timed};
use std::collections::HashMap;
use std::sync::Arc;

unsafe extern "C" {
    fn bench_deliveries(keys: u64, times: u64) -> u64;
}

const DIGITS: usize = 20;

#[derive(Clone, Copy)]
struct Bytes<const N: usize> {
    bytes: [u8; N],
    len: usize,
}

impl<const N: usize> Bytes<N> {
    fn new(bytes: &[u8]) -> Option<Self> {
        if bytes.is_empty() || bytes.len() > N || !bytes.iter().all(u8::is_ascii_graphic) {
            return None;
        }
        let mut own = [0; N];
        own[..bytes.len()].copy_from_slice(bytes);
        Some(Bytes {
            bytes: own,
            len: bytes.len(),
        })
    }

    fn get(&self) -> &[u8] {
        &self.bytes[..self.len]
    }
}

impl<const N: usize> PartialEq for Bytes<N> {
    fn eq(&self, other: &Self) -> bool {
        self.get() == other.get()
    }
}

impl<const N: usize> Eq for Bytes<N> {}

impl<const N: usize> std::hash::Hash for Bytes<N> {
    fn hash<H: std::hash::Hasher>(&self, state: &mut H) {
        state.write(self.get());
        state.write_u8(0xFF);
    }
}

type Key = Bytes<64>;
type Name = Bytes<40>;
type Text = Arc<Vec<u8>>;

/// The maildrop as Rust has it, as far as deliveries go.
struct Maildrop {
    messages: Vec<(u64, Text)>,
    octets: u64,
    next_uid: u64,
    keys: HashMap<Key, u64>,
    limits: (u64, u64, u64),
}

impl Maildrop {
    fn mail(&mut self, text: &Text, key: Option<Key>) -> Option<u64> {
        if let Some(uid) = key.and_then(|key| self.keys.get(&key)) {
            return Some(*uid);
        }
        let (messages, octets, ids) = self.limits;
        let size = text.len() as u64;
        if size > octets
            || self.messages.len() as u64 >= messages
            || self.octets + size > octets
            || self.next_uid > ids
        {
            return None;
        }
        let uid = self.next_uid;
        if let Some(key) = key {
            self.keys.insert(key, uid);
        }
        self.messages.push((uid, Arc::clone(text)));
        self.octets += size;
        self.next_uid += 1;
        Some(uid)
    }
}

struct Delivery {
    office: HashMap<Name, Maildrop>,
    user: Name,
    text: Text,
}

impl Delivery {
    fn new() -> Self {
        let user = Name::new(b"abcdefghij").expect("a name");
        let maildrop = Maildrop {
            messages: Vec::new(),
            octets: 0,
            next_uid: 1,
            keys: HashMap::new(),
            limits: (999_999_999, 1 << 40, 1 << 63),
        };
        Delivery {
            office: HashMap::from([(user, maildrop)]),
            user,
            text: Arc::new(b"Subject: x\r\n".to_vec()),
        }
    }

    fn deliver(&mut self, number: u64) -> u64 {
        let mut digits = [b'0'; DIGITS];
        let mut rest = number;
        for digit in &mut digits {
            *digit = b'0' + (rest % 10) as u8;
            rest /= 10;
        }
        let text = Arc::clone(&self.text);
        let maildrop = self.office.get_mut(&self.user).expect("the user");
        maildrop.mail(&text, Key::new(&digits)).unwrap_or(0)
    }

    fn deliver_all(&mut self, keys: u64) -> u64 {
        (0..keys).map(|number| self.deliver(number)).sum()
    }
}

#[inline(never)]
fn rust_deliveries(keys: u64, times: u64) -> u64 {
    let mut delivery = Delivery::new();
    (0..times).map(|_| delivery.deliver_all(keys)).sum()
}

pub fn compare_all() {
    for (name, keys, times) in [
        ("Mails under 1,000 keys, each 1,000 times", 1_000, 1_000),
        ("Mails under 100,000 keys, each 10 times", 100_000, 10),
        ("Mails under 200,000 keys, each once", 200_000, 1),
    ] {
        compare(
            name,
            || timed(|| unsafe { bench_deliveries(keys, times) }),
            || timed(|| rust_deliveries(keys, times)),
        );
    }
}
