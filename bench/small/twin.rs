// A plain twin of the wait-free form for objects of several words, and two locks round the same object, beside which
// it is measured: `twin FORM OBJECT N T K R`, with FORM `small`, `mutex`, `ticket` or `rwlock` and the rest as in program.txt; a
// read is a call that changes nothing, or under `rwlock` the question alone. It prints the nanoseconds that each round took.
//
// The twin has the words of the proved form, in their order: S, the announcements, the arguments, and 2n buffers, each
// with how many calls of each process are in, a reply for each, and the state. Each of its kinds of step is one
// operation on one of them, and all are sequentially consistent. A thread keeps what its own two buffers hold, loads no
// word of them, and stores only the words that differ. A call is attempted directly before it is announced.

use std::cell::UnsafeCell;
use std::hint::{black_box, spin_loop};
use std::sync::{Mutex, RwLock};
use std::sync::atomic::{AtomicU64, AtomicUsize, Ordering::SeqCst};
use std::time::Instant;

trait Object: Sync {
    /// How many words a state, an invocation and a reply have.
    const WIDTHS: (usize, usize, usize);
    fn apply(state: &mut [u64], inv: &[u64], reply: &mut [u64]);
    /// Writes the words of the call that a word stands for.
    fn fill(word: u64, inv: &mut [u64]);
    /// A word that stands for a call which changes nothing.
    fn reading(_word: u64) -> u64 {
        0
    }
    /// What such a call is answered.
    fn answer(state: &[u64], _inv: &[u64], reply: &mut [u64]) {
        reply[0] = state[0];
    }
}

struct Counter;
struct Book;
struct Queue;
struct Map;

const ROOM: usize = 64;

impl Object for Counter {
    const WIDTHS: (usize, usize, usize) = (1, 1, 1);
    fn apply(state: &mut [u64], inv: &[u64], reply: &mut [u64]) {
        reply[0] = state[0];
        state[0] = state[0].wrapping_add(inv[0]);
    }
    fn fill(word: u64, inv: &mut [u64]) {
        inv[0] = word % 1000;
    }
}

const MOST: u64 = 999_999_999_999;

impl Object for Book {
    const WIDTHS: (usize, usize, usize) = (16, 4, 2);
    fn apply(state: &mut [u64], inv: &[u64], reply: &mut [u64]) {
        let (a, b, v) = (inv[1] as usize, inv[2] as usize, inv[3]);
        let told = match inv[0] {
            0 if state[a] + v > MOST => (1, 0),
            0 => {
                state[a] += v;
                (0, state[a])
            }
            1 | 2 if state[a] < v => (2, 0),
            1 => {
                state[a] -= v;
                (0, state[a])
            }
            2 if a == b => (3, 0),
            2 if state[b] + v > MOST => (1, 0),
            2 => {
                state[a] -= v;
                state[b] += v;
                (3, 0)
            }
            _ => (4, state.iter().sum()),
        };
        (reply[0], reply[1]) = told;
    }
    fn fill(word: u64, inv: &mut [u64]) {
        inv.copy_from_slice(&[word % 4, word / 4 % 16, word / 64 % 16, word / 1024 % 1000]);
    }
}

/// The slot that a place is, which is one of the first round or the next.
fn slot_of(place: u64) -> usize {
    let place = place as usize;
    if place < ROOM { place } else { place - ROOM }
}

impl Object for Queue {
    const WIDTHS: (usize, usize, usize) = (2 + ROOM, 1, 1);
    fn apply(state: &mut [u64], inv: &[u64], reply: &mut [u64]) {
        let (count, start) = (state[0], state[1]);
        reply[0] = if inv[0] == 0 {
            if count == 0 {
                0
            } else {
                state[1] = slot_of(start + 1) as u64;
                state[0] = count - 1;
                std::mem::take(&mut state[2 + start as usize])
            }
        } else if count as usize >= ROOM {
            0
        } else {
            state[2 + slot_of(start + count)] = inv[0];
            state[0] = count + 1;
            1
        };
    }
    fn fill(word: u64, inv: &mut [u64]) {
        inv[0] = word % 2 * (1 + word / 2 % 1000);
    }
}

impl Object for Map {
    const WIDTHS: (usize, usize, usize) = (1 + 2 * ROOM, 3, 2);
    fn apply(state: &mut [u64], inv: &[u64], reply: &mut [u64]) {
        let count = state[0] as usize;
        let found = (0..count).find(|i| state[1 + 2 * i] == inv[1]);
        let told = match (inv[0], found) {
            (1, Some(i)) => (1, std::mem::replace(&mut state[2 + 2 * i], inv[2])),
            (1, None) if count >= ROOM => (2, 0),
            (1, None) => {
                state[1 + 2 * count] = inv[1];
                state[2 + 2 * count] = inv[2];
                state[0] += 1;
                (0, 0)
            }
            (_, None) => (0, 0),
            (2, Some(i)) => {
                let value = state[2 + 2 * i];
                state.copy_within(3 + 2 * i..1 + 2 * count, 1 + 2 * i);
                state[2 * count - 1..=2 * count].fill(0);
                state[0] -= 1;
                (1, value)
            }
            (_, Some(i)) => (1, state[2 + 2 * i]),
        };
        (reply[0], reply[1]) = told;
    }
    fn fill(word: u64, inv: &mut [u64]) {
        inv.copy_from_slice(&[word % 3, word / 3 % 64, word / 192 % 1000]);
    }
    fn reading(word: u64) -> u64 {
        word - word % 3
    }
    fn answer(state: &[u64], inv: &[u64], reply: &mut [u64]) {
        let found = (0..state[0] as usize).find(|i| state[1 + 2 * i] == inv[1]);
        (reply[0], reply[1]) = found.map_or((0, 0), |i| (1, state[2 + 2 * i]));
    }
}

/// What a thread keeps for its process.
struct Seat {
    p: usize,
    made: u64,
    spare: u64,
    copy: Vec<u64>,
    due: Vec<bool>,
    invs: Vec<u64>,
    /// What its own two buffers hold.
    held: [Vec<u64>; 2],
}

trait Form: Sync {
    fn apply(&self, seat: &mut Seat, inv: &[u64], reply: &mut [u64]);
    fn read(&self, seat: &mut Seat, inv: &[u64], reply: &mut [u64]) {
        self.apply(seat, inv, reply);
    }
}

struct Small<O> {
    n: usize,
    words: Vec<AtomicU64>,
    object: std::marker::PhantomData<O>,
}

impl<O: Object> Small<O> {
    fn new(n: usize) -> Small<O> {
        let (w, i, r) = O::WIDTHS;
        let words = 1 + n + n * i + 2 * n * (n + n * r + w);
        Small {
            n,
            words: (0..words).map(|_| AtomicU64::new(0)).collect(),
            object: std::marker::PhantomData,
        }
    }

    fn announced(&self, p: usize) -> &AtomicU64 {
        &self.words[1 + p]
    }

    fn argument(&self, p: usize, k: usize) -> &AtomicU64 {
        &self.words[1 + self.n + p * O::WIDTHS.1 + k]
    }

    fn buffer(&self, b: usize, k: usize) -> &AtomicU64 {
        let (w, i, r) = O::WIDTHS;
        &self.words[1 + self.n + self.n * i + b * (self.n + self.n * r + w) + k]
    }

    /// An attempt, direct where the call is handed in: the word that names a buffer in which the call is.
    fn attempt(&self, seat: &mut Seat, own: Option<&[u64]>) -> Option<u64> {
        let (_, i, r) = O::WIDTHS;
        let n = self.n;
        let s = self.words[0].load(SeqCst);
        let b = (s % 128) as usize;
        if b / 2 == seat.p {
            seat.copy.copy_from_slice(&seat.held[b % 2]);
        } else {
            for k in 0..seat.copy.len() {
                seat.copy[k] = self.buffer(b, k).load(SeqCst);
            }
        }
        for q in 0..n {
            seat.due[q] = self.announced(q).load(SeqCst) > seat.copy[q];
            if seat.due[q] {
                for k in 0..i {
                    seat.invs[q * i + k] = self.argument(q, k).load(SeqCst);
                }
            }
        }
        if self.words[0].load(SeqCst) != s {
            return None;
        }
        if let Some(inv) = own {
            seat.due[seat.p] = true;
            seat.invs[seat.p * i..(seat.p + 1) * i].copy_from_slice(inv);
        } else if seat.copy[seat.p] == seat.made {
            return Some(s);
        }
        let (applied, rest) = seat.copy.split_at_mut(n);
        let (replies, state) = rest.split_at_mut(n * r);
        for q in (0..n).filter(|q| seat.due[*q]) {
            applied[q] += 1;
            O::apply(state, &seat.invs[q * i..(q + 1) * i], &mut replies[q * r..(q + 1) * r]);
        }
        let own = 2 * seat.p as u64 + seat.spare;
        let held = &mut seat.held[seat.spare as usize];
        for k in 0..seat.copy.len() {
            if held[k] != seat.copy[k] {
                self.buffer(own as usize, k).store(seat.copy[k], SeqCst);
                held[k] = seat.copy[k];
            }
        }
        let new = 128 * (s / 128 + 1) + own;
        self.words[0].compare_exchange(s, new, SeqCst, SeqCst).ok()?;
        seat.spare = 1 - seat.spare;
        Some(new)
    }
}

impl<O: Object> Form for Small<O> {
    fn apply(&self, seat: &mut Seat, inv: &[u64], reply: &mut [u64]) {
        seat.made += 1;
        let s = self.attempt(seat, Some(inv)).unwrap_or_else(|| {
            for (k, word) in inv.iter().enumerate() {
                self.argument(seat.p, k).store(*word, SeqCst);
            }
            self.announced(seat.p).store(seat.made, SeqCst);
            self.attempt(seat, None)
                .or_else(|| self.attempt(seat, None))
                .unwrap_or_else(|| self.words[0].load(SeqCst))
        });
        let at = self.n + seat.p * O::WIDTHS.2;
        for (k, word) in reply.iter_mut().enumerate() {
            *word = self.buffer((s % 128) as usize, at + k).load(SeqCst);
        }
    }
}

struct Locked<O> {
    state: Mutex<Vec<u64>>,
    object: std::marker::PhantomData<O>,
}

impl<O: Object> Form for Locked<O> {
    fn apply(&self, _seat: &mut Seat, inv: &[u64], reply: &mut [u64]) {
        O::apply(&mut self.state.lock().unwrap(), inv, reply);
    }
}

/// A lock that many readers have at once.
struct ManyRead<O> {
    state: RwLock<Vec<u64>>,
    object: std::marker::PhantomData<O>,
}

impl<O: Object> Form for ManyRead<O> {
    fn apply(&self, _seat: &mut Seat, inv: &[u64], reply: &mut [u64]) {
        O::apply(&mut self.state.write().unwrap(), inv, reply);
    }
    fn read(&self, _seat: &mut Seat, inv: &[u64], reply: &mut [u64]) {
        O::answer(&self.state.read().unwrap(), inv, reply);
    }
}

/// A lock that is taken in the order of tickets. A thread that waits for long lets others run.
struct Ticket<O> {
    next: AtomicU64,
    serving: AtomicU64,
    state: UnsafeCell<Vec<u64>>,
    object: std::marker::PhantomData<O>,
}

unsafe impl<O: Sync> Sync for Ticket<O> {}

impl<O: Object> Form for Ticket<O> {
    fn apply(&self, _seat: &mut Seat, inv: &[u64], reply: &mut [u64]) {
        let mine = self.next.fetch_add(1, SeqCst);
        let mut spins = 0;
        while self.serving.load(SeqCst) != mine {
            spins += 1;
            if spins % 1024 == 0 {
                std::thread::yield_now();
            }
            spin_loop();
        }
        // No other thread has this ticket.
        O::apply(unsafe { &mut *self.state.get() }, inv, reply);
        self.serving.store(mine + 1, SeqCst);
    }
}

fn opened<O: Object + 'static>(form: &str, n: usize) -> Box<dyn Form> {
    let (object, state) = (std::marker::PhantomData::<O>, vec![0; O::WIDTHS.0]);
    match form {
        "small" => Box::new(Small::<O>::new(n)),
        "mutex" => Box::new(Locked { state: Mutex::new(state), object }),
        "rwlock" => Box::new(ManyRead { state: RwLock::new(state), object }),
        _ => Box::new(Ticket {
            next: AtomicU64::new(0),
            serving: AtomicU64::new(0),
            state: UnsafeCell::new(state),
            object,
        }),
    }
}

/// How many processes there are, how many of them call, and how many calls each makes.
#[derive(Clone, Copy)]
struct Plan {
    processes: usize,
    callers: usize,
    calls: usize,
    reads: bool,
}

fn calls<O: Object>(form: &dyn Form, p: usize, plan: Plan, ready: &AtomicUsize, began: &Instant) -> (u128, u128) {
    let (w, i, r) = O::WIDTHS;
    let n = plan.processes;
    let mut seat = Seat {
        p,
        made: 0,
        spare: 1,
        copy: vec![0; n + n * r + w],
        due: vec![false; n],
        invs: vec![0; n * i],
        held: [vec![0; n + n * r + w], vec![0; n + n * r + w]],
    };
    let (mut inv, mut reply) = (vec![0; i], vec![0; r]);
    let mut make = |count: usize, reads: bool| {
        let mut word = 0x9e37_79b9_7f4a_7c15u64;
        for _ in 0..count {
            word ^= word << 13;
            word ^= word >> 7;
            word ^= word << 17;
            O::fill(if reads { O::reading(word) } else { word }, &mut inv);
            if reads {
                form.read(&mut seat, &inv, &mut reply);
            } else {
                form.apply(&mut seat, &inv, &mut reply);
            }
            black_box(&reply);
        }
    };
    if plan.reads {
        make(64, false);
    }
    ready.fetch_add(1, SeqCst);
    while ready.load(SeqCst) < plan.callers {}
    let from = began.elapsed().as_nanos();
    make(plan.calls, plan.reads);
    (from, began.elapsed().as_nanos())
}

/// One round: its nanoseconds, from the first thread's first call to the last thread's last one.
fn round<O: Object + 'static>(form: &str, plan: Plan) -> u128 {
    let form = opened::<O>(form, plan.processes);
    let ready = AtomicUsize::new(0);
    let began = Instant::now();
    let spans: Vec<(u128, u128)> = std::thread::scope(|scope| {
        let threads: Vec<_> = (0..plan.callers)
            .map(|p| {
                let (form, ready, began) = (&form, &ready, &began);
                scope.spawn(move || calls::<O>(form.as_ref(), p, plan, ready, began))
            })
            .collect();
        threads.into_iter().map(|thread| thread.join().unwrap()).collect()
    });
    spans.iter().map(|span| span.1).max().unwrap() - spans.iter().map(|span| span.0).min().unwrap()
}

fn main() {
    let words: Vec<String> = std::env::args().collect();
    let number = |at: usize| words[at].parse::<usize>().unwrap();
    let plan = Plan {
        processes: number(3),
        callers: number(4),
        calls: number(5),
        reads: words[2].ends_with("_read"),
    };
    let form = words[1].as_str();
    for _ in 0..number(6) {
        let taken = match words[2].as_str() {
            "book" => round::<Book>(form, plan),
            "queue" => round::<Queue>(form, plan),
            "map" | "map_read" => round::<Map>(form, plan),
            _ => round::<Counter>(form, plan),
        };
        println!("{taken}");
    }
}
