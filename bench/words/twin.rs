// A plain twin of the form over atomic words, and a lock round the object, beside which it is measured:
// `twin FORM OBJECT N T K R`, with FORM `words` or `lock` and the rest as in program.txt. It prints the
// nanoseconds that each round took.
//
// The twin has the words of the proved form, in their order: two columns over the processes, announce and
// head, and five over the cells, inv, seq, before, after and new. Each of its thirteen kinds of step is one
// operation on one of them, and all are sequentially consistent.

use std::sync::Mutex;
use std::sync::atomic::{AtomicU64, AtomicUsize, Ordering::SeqCst};
use std::time::Instant;


fn tally(state: u32, inv: u64) -> (u32, u32) {
    (((u64::from(state) + inv % (1 << 31)) % (1 << 31)) as u32, state)
}

fn sticky(state: u32, inv: u64) -> (u32, u32) {
    let next = if state == 0 && inv <= 1_000_000_000 { inv as u32 } else { state };
    (next, next)
}

trait Form: Sync {
    fn apply(&self, p: usize, nth: usize, inv: u64) -> u32;
}

struct Locked<F> {
    step: F,
    state: Mutex<u32>,
}

impl<F: Fn(u32, u64) -> (u32, u32) + Sync> Form for Locked<F> {
    fn apply(&self, _p: usize, _nth: usize, inv: u64) -> u32 {
        let mut state = self.state.lock().unwrap();
        let (next, reply) = (self.step)(*state, inv);
        *state = next;
        reply
    }
}

struct Words<F> {
    step: F,
    n: usize,
    cells: usize,
    words: Vec<AtomicU64>,
}

impl<F: Fn(u32, u64) -> (u32, u32) + Sync> Words<F> {
    fn new(step: F, n: usize, k: usize) -> Words<F> {
        let cells = n * k + 1;
        let words: Vec<AtomicU64> = (0..2 * n + 5 * cells).map(|_| AtomicU64::new(0)).collect();
        words[2 * n + cells].store(1, SeqCst);
        words[2 * n + 4 * cells].store(1, SeqCst);
        Words { step, n, cells, words }
    }

    fn announced(&self, p: usize) -> &AtomicU64 {
        &self.words[p]
    }

    fn head(&self, p: usize) -> &AtomicU64 {
        &self.words[self.n + p]
    }

    fn field(&self, column: usize, cell: usize) -> &AtomicU64 {
        &self.words[2 * self.n + column * self.cells + cell]
    }

    /// One turn at the end of the list: the cell that is linked after c.
    fn turn(&self, p: usize, mine: usize, c: usize, c_seq: u64) -> usize {
        let help = self.announced(c_seq as usize % self.n).load(SeqCst) as usize;
        let prefer = if self.field(1, help).load(SeqCst) == 0 { help } else { mine };
        let d = match self.field(3, c).compare_exchange(0, prefer as u64 + 1, SeqCst, SeqCst) {
            Ok(_) => prefer,
            Err(found) => found as usize - 1,
        };
        let inv = self.field(0, d).load(SeqCst);
        let state = (self.field(4, c).load(SeqCst) >> 32) as u32;
        let (next, reply) = (self.step)(state, inv);
        let new = 1 + 2 * u64::from(reply) + (u64::from(next) << 32);
        let _ = self.field(4, d).compare_exchange(0, new, SeqCst, SeqCst);
        self.field(2, d).store(1 + c as u64, SeqCst);
        self.field(1, d).store(c_seq + 1, SeqCst);
        self.head(p).store(d as u64, SeqCst);
        d
    }
}

impl<F: Fn(u32, u64) -> (u32, u32) + Sync> Form for Words<F> {
    fn apply(&self, p: usize, nth: usize, inv: u64) -> u32 {
        let mine = 1 + nth * self.n + p;
        self.field(0, mine).store(inv, SeqCst);
        self.announced(p).store(mine as u64, SeqCst);
        let (mut c, mut c_seq) = (0, 0);
        for q in 0..self.n {
            let h = self.head(q).load(SeqCst) as usize;
            let s = self.field(1, h).load(SeqCst);
            if s > c_seq {
                (c, c_seq) = (h, s);
            }
        }
        self.head(p).store(c as u64, SeqCst);
        let mut mine_seq = self.field(1, mine).load(SeqCst);
        while mine_seq == 0 {
            c = self.turn(p, mine, c, c_seq);
            c_seq += 1;
            mine_seq = self.field(1, mine).load(SeqCst);
        }
        let reply = (self.field(4, mine).load(SeqCst) as u32) >> 1;
        if mine_seq > c_seq {
            self.head(p).store(mine as u64, SeqCst);
        }
        reply
    }
}

/// One round: its nanoseconds, from the first thread's first call to the last thread's last one.
fn round(form: &dyn Fn() -> Box<dyn Form>, callers: usize, k: usize) -> u128 {
    let object = form();
    let ready = AtomicUsize::new(0);
    let began = Instant::now();
    let spans: Vec<(u128, u128)> = std::thread::scope(|scope| {
        let threads: Vec<_> = (0..callers)
            .map(|p| {
                let (object, ready, began) = (&object, &ready, &began);
                scope.spawn(move || calls(object.as_ref(), p, (callers, k), ready, began))
            })
            .collect();
        threads.into_iter().map(|thread| thread.join().unwrap()).collect()
    });
    spans.iter().map(|span| span.1).max().unwrap() - spans.iter().map(|span| span.0).min().unwrap()
}

fn calls(object: &dyn Form, p: usize, (callers, k): (usize, usize), ready: &AtomicUsize, began: &Instant) -> (u128, u128) {
    let mut word = 0x9e37_79b9_7f4a_7c15u64;
    ready.fetch_add(1, SeqCst);
    while ready.load(SeqCst) < callers {}
    let from = began.elapsed().as_nanos();
    for nth in 0..k {
        word ^= word << 13;
        word ^= word >> 7;
        word ^= word << 17;
        std::hint::black_box(object.apply(p, nth, word % 1000));
    }
    (from, began.elapsed().as_nanos())
}

/// A new object of a form. The object's step is a type, so that calls of it can be inlined.
fn opened<F: Fn(u32, u64) -> (u32, u32) + Sync + Copy + 'static>(form: &str, step: F, n: usize, k: usize) -> Box<dyn Form> {
    match form {
        "words" => Box::new(Words::new(step, n, k)),
        _ => Box::new(Locked { step, state: Mutex::new(0) }),
    }
}

fn main() {
    let words: Vec<String> = std::env::args().collect();
    let number = |at: usize| words[at].parse::<usize>().unwrap();
    let (n, callers, k) = (number(3), number(4), number(5));
    let form = words[1].clone();
    let make: Box<dyn Fn() -> Box<dyn Form>> = match words[2].as_str() {
        "tally" => Box::new(move || opened(&form, |state, inv| tally(state, inv), n, k)),
        _ => Box::new(move || opened(&form, |state, inv| sticky(state, inv), n, k)),
    };
    for _ in 0..number(6) {
        println!("{}", round(&*make, callers, k));
    }
}
