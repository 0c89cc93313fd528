// A lock round the plain object, beside which the form under a lock is measured: `twin OBJECT N K R`, as in
// program.txt. It prints the nanoseconds that each round took.

use std::sync::Mutex;
use std::sync::atomic::{AtomicUsize, Ordering::SeqCst};
use std::thread;
use std::time::Instant;

trait Object: Send {
    fn apply(&mut self, number: u64) -> u64;
}

struct Sticky(Option<u64>);

impl Object for Sticky {
    fn apply(&mut self, number: u64) -> u64 {
        *self.0.get_or_insert(number % 1000)
    }
}

struct Book([u64; 16]);

impl Object for Book {
    fn apply(&mut self, number: u64) -> u64 {
        let balance = &mut self.0[(number % 16) as usize];
        if *balance < 999_999_999_999 {
            *balance += 1;
        }
        *balance
    }
}

fn round(object: Box<dyn Object>, n: usize, k: u64) -> u128 {
    let shared = Mutex::new(object);
    let ready = AtomicUsize::new(0);
    let began = Instant::now();
    let spans: Vec<(u128, u128)> = thread::scope(|scope| {
        let calls = || {
            ready.fetch_add(1, SeqCst);
            while ready.load(SeqCst) < n {}
            let from = began.elapsed().as_nanos();
            for number in 0..k {
                std::hint::black_box(shared.lock().unwrap().apply(number));
            }
            (from, began.elapsed().as_nanos())
        };
        let threads: Vec<_> = (0..n).map(|_| scope.spawn(calls)).collect();
        threads.into_iter().map(|one| one.join().unwrap()).collect()
    });
    let from = spans.iter().map(|span| span.0).min().unwrap();
    let to = spans.iter().map(|span| span.1).max().unwrap();
    to - from
}

fn main() {
    let words: Vec<String> = std::env::args().collect();
    let number = |at: usize| words[at].parse::<u64>().unwrap();
    for _ in 0..number(4) {
        let object: Box<dyn Object> = match words[1].as_str() {
            "book" => Box::new(Book([0; 16])),
            _ => Box::new(Sticky(None)),
        };
        println!("{}", round(object, number(2) as usize, number(3)));
    }
}
