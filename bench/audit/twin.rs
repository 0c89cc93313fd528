//! The twin of `program.txt` in plain Rust: the same words, the same history, and the same lines. Its
//! audit keeps a count by process, a table by call, and the calls that returned, in maps of std.

use std::collections::{HashMap, HashSet};
use std::env;
use std::hint::black_box;
use std::time::Instant;

#[derive(Clone, Copy, PartialEq, Eq, Hash)]
struct CallId {
    process: u32,
    nth: u64,
}

struct Entry {
    _seq: u64,
    call: CallId,
    inv: u32,
    reply: Option<u32>,
}

struct Return {
    call: CallId,
    reply: u32,
}

#[derive(PartialEq)]
enum Verdict {
    Agrees,
    BadCall(u64),
    BadReply(u64),
    Missing(CallId),
    BadReturn(CallId),
    Twice(CallId),
}

/// The audit of an object that keeps the last number, from 0.
fn audit(entries: &[Entry], returns: &[Return]) -> Verdict {
    let mut state = 0;
    let mut counts: HashMap<u32, u64> = HashMap::new();
    let mut replies: HashMap<CallId, Option<u32>> = HashMap::new();
    for (place, entry) in entries.iter().enumerate() {
        let count = counts.entry(entry.call.process).or_insert(0);
        if entry.call.nth != *count {
            return Verdict::BadCall(place as u64);
        }
        *count += 1;
        if entry.reply.is_some_and(|reply| reply != state) {
            return Verdict::BadReply(place as u64);
        }
        replies.insert(entry.call, entry.reply);
        state = entry.inv;
    }
    let mut returned = HashSet::new();
    for Return { call, reply } in returns {
        if !returned.insert(*call) {
            return Verdict::Twice(*call);
        }
        match replies.get(call).copied().flatten() {
            None => return Verdict::Missing(*call),
            Some(right) if right != *reply => return Verdict::BadReturn(*call),
            Some(_) => {}
        }
    }
    Verdict::Agrees
}

/// The history of so many calls by `n` processes in turn.
fn history(calls: u64, n: u64) -> (Vec<Entry>, Vec<Return>) {
    let mut entries = Vec::new();
    let mut returns = Vec::new();
    let mut last = 0;
    for place in 0..calls {
        let call = CallId {
            process: (place % n) as u32,
            nth: place / n,
        };
        let inv = (place % 1000) as u32;
        entries.push(Entry {
            _seq: place + 2,
            call,
            inv,
            reply: Some(last),
        });
        returns.push(Return { call, reply: last });
        last = inv;
    }
    (entries, returns)
}

fn main() {
    let words: Vec<u64> = env::args().skip(1).map(|word| word.parse().unwrap()).collect();
    let (entries, returns) = history(words[0], words[1]);
    for _ in 0..words[2] {
        let began = Instant::now();
        let verdict = audit(black_box(&entries), black_box(&returns));
        let taken = began.elapsed().as_nanos();
        println!("{}", if verdict == Verdict::Agrees { taken } else { 0 });
    }
}
