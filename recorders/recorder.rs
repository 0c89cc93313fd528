//! Records what threads do with an object, as lines that `unicheck` reads: NAME CALL -> REPLY BEGIN END.
//!
//! A number is drawn from one counter before a call begins, and another after it has returned, so calls that the lines put
//! one after the other were made so. Each thread has a log of its own, and the logs are printed after the join.

use std::fmt::{self, Display};
use std::sync::atomic::{AtomicU64, Ordering};

static CLOCK: AtomicU64 = AtomicU64::new(0);

struct Call {
    words: String,
    begin: u64,
    end: Option<(String, u64)>,
}

/// The part of one thread.
pub struct Log {
    name: String,
    calls: Vec<Call>,
}

impl Log {
    /// Of a thread whose name is 1 to 20 letters and digits.
    pub fn new(name: impl Into<String>) -> Log {
        Log { name: name.into(), calls: Vec::new() }
    }

    /// Makes a call whose body returns the reply, as `log.call("deq", || queue.pop())`, and returns that.
    pub fn call<R: Display>(&mut self, words: impl Into<String>, body: impl FnOnce() -> R) -> R {
        self.calls.push(Call { words: words.into(), begin: 0, end: None });
        let at = self.calls.len() - 1;
        self.calls[at].begin = CLOCK.fetch_add(1, Ordering::SeqCst);
        let reply = body();
        let end = CLOCK.fetch_add(1, Ordering::SeqCst);
        self.calls[at].end = Some((reply.to_string(), end));
        reply
    }
}

impl Display for Log {
    fn fmt(&self, f: &mut fmt::Formatter) -> fmt::Result {
        for Call { words, begin, end } in &self.calls {
            match end {
                Some((reply, end)) => writeln!(f, "{} {words} -> {reply} {begin} {end}", self.name)?,
                None => writeln!(f, "{} {words} -> ? {begin}", self.name)?,
            }
        }
        Ok(())
    }
}
