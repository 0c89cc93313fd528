// A mutex and a read-write lock round the same objects as in program.txt, changed in place: `twin FORM OBJECT SIZE N K R`,
// with FORM `mutex` or `rwlock` and the rest as there. It prints the nanoseconds that each round took.

use std::collections::BTreeMap;
use std::hint::black_box;
use std::sync::atomic::{AtomicUsize, Ordering::SeqCst};
use std::sync::{Mutex, RwLock};
use std::time::Instant;

trait Object: Send + Sync + 'static {
    type Inv;
    fn start(size: u64) -> Self;
    /// The call that a word stands for, the one of this number.
    fn drawn(size: u64, word: u64, number: u64) -> Self::Inv;
    /// Whether a call may change the state.
    fn changes(inv: &Self::Inv) -> bool;
    /// The reply to a call that doesn't.
    fn read(&self, inv: &Self::Inv) -> u64;
    fn apply(&mut self, inv: &Self::Inv) -> u64;
}

struct Deep(Vec<u64>);

enum Turn {
    Push(u64),
    Pop,
}

impl Object for Deep {
    type Inv = Turn;
    fn start(size: u64) -> Deep {
        Deep((0..size).collect())
    }
    fn drawn(_size: u64, word: u64, number: u64) -> Turn {
        if number % 2 == 0 { Turn::Push(word % 1000) } else { Turn::Pop }
    }
    fn changes(_inv: &Turn) -> bool {
        true
    }
    fn read(&self, _inv: &Turn) -> u64 {
        u64::MAX
    }
    fn apply(&mut self, inv: &Turn) -> u64 {
        match inv {
            Turn::Push(number) => {
                self.0.push(*number);
                0
            }
            Turn::Pop => self.0.pop().unwrap_or(u64::MAX),
        }
    }
}

/// A stack of which the newest number is read.
struct Looks(Vec<u64>);

impl Object for Looks {
    type Inv = ();
    fn start(size: u64) -> Looks {
        Looks((0..size).collect())
    }
    fn drawn(_size: u64, _word: u64, _number: u64) {}
    fn changes(_inv: &()) -> bool {
        false
    }
    fn read(&self, _inv: &()) -> u64 {
        self.0.last().copied().unwrap_or(0)
    }
    fn apply(&mut self, inv: &()) -> u64 {
        self.read(inv)
    }
}

struct Texts(BTreeMap<String, u64>);

enum Ask {
    Get(String),
    Insert(String, u64),
}

fn text_of(number: u64) -> String {
    format!("the text of number {number}")
}

impl Object for Texts {
    type Inv = Ask;
    fn start(size: u64) -> Texts {
        Texts((0..size).map(|number| (text_of(number), number)).collect())
    }
    fn drawn(size: u64, word: u64, number: u64) -> Ask {
        let text = text_of(word / 64 % size);
        if number % 2 == 0 { Ask::Get(text) } else { Ask::Insert(text, word % 1000) }
    }
    fn changes(inv: &Ask) -> bool {
        matches!(inv, Ask::Insert(..))
    }
    fn read(&self, inv: &Ask) -> u64 {
        let (Ask::Get(text) | Ask::Insert(text, _)) = inv;
        self.0.get(text).copied().unwrap_or(u64::MAX)
    }
    fn apply(&mut self, inv: &Ask) -> u64 {
        match inv {
            Ask::Get(_) => self.read(inv),
            Ask::Insert(text, number) => self.0.insert(text.clone(), *number).unwrap_or(u64::MAX),
        }
    }
}

enum Form<O> {
    Mutex(Mutex<O>),
    RwLock(RwLock<O>),
}

impl<O: Object> Form<O> {
    fn apply(&self, inv: &O::Inv) -> u64 {
        match self {
            Form::Mutex(state) => state.lock().unwrap().apply(inv),
            Form::RwLock(state) if O::changes(inv) => state.write().unwrap().apply(inv),
            Form::RwLock(state) => state.read().unwrap().read(inv),
        }
    }
}

#[derive(Clone, Copy)]
struct Plan {
    size: u64,
    threads: usize,
    calls: u64,
}

/// When a thread that waits for all made its calls.
fn calls<O: Object>(form: &Form<O>, plan: Plan, ready: &AtomicUsize, began: &Instant) -> (u128, u128) {
    let mut word = 0x9e37_79b9_7f4a_7c15u64;
    ready.fetch_add(1, SeqCst);
    while ready.load(SeqCst) < plan.threads {}
    let from = began.elapsed().as_nanos();
    for number in 0..plan.calls {
        word ^= word << 13;
        word ^= word >> 7;
        word ^= word << 17;
        black_box(form.apply(&O::drawn(plan.size, word, number)));
    }
    (from, began.elapsed().as_nanos())
}

/// One round: its nanoseconds, from the first thread's first call to the last thread's last one.
fn round<O: Object>(form: &str, plan: Plan) -> u128 {
    let state = O::start(plan.size);
    let form = if form == "mutex" { Form::Mutex(Mutex::new(state)) } else { Form::RwLock(RwLock::new(state)) };
    let ready = AtomicUsize::new(0);
    let began = Instant::now();
    let spans: Vec<(u128, u128)> = std::thread::scope(|scope| {
        let threads: Vec<_> =
            (0..plan.threads).map(|_| scope.spawn(|| calls(&form, plan, &ready, &began))).collect();
        threads.into_iter().map(|thread| thread.join().unwrap()).collect()
    });
    spans.iter().map(|span| span.1).max().unwrap() - spans.iter().map(|span| span.0).min().unwrap()
}

fn main() {
    let words: Vec<String> = std::env::args().collect();
    let number = |at: usize| words[at].parse::<u64>().unwrap();
    let plan = Plan { size: number(3), threads: number(4) as usize, calls: number(5) };
    for _ in 0..number(6) {
        let taken = match words[2].as_str() {
            "texts" => round::<Texts>(&words[1], plan),
            "looks" => round::<Looks>(&words[1], plan),
            _ => round::<Deep>(&words[1], plan),
        };
        println!("{taken}");
    }
}
