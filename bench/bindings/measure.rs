//! Calls on a shared tally, counter or queue by the Rust crate: `measure OBJECT FORM N K R`, as in measure.c.
use std::collections::VecDeque;
use std::hint::black_box;
use std::num::NonZeroU64;
use std::sync::{Barrier, Mutex};
use std::thread::scope;
use std::time::Instant;
use universal::small::{Counter, Queue};
use universal::Log;

const CAPACITY: u32 = 64;

/// Each worker's calls in a thread of its own: the nanoseconds from the first to the last.
fn round<W: Send>(workers: Vec<W>, calls: u64, call: impl Fn(&mut W, u64) + Sync) -> u128 {
    let (barrier, call) = (&Barrier::new(workers.len()), &call);
    let spans: Vec<(Instant, Instant)> = scope(|threads| {
        let start = |mut worker: W| {
            threads.spawn(move || {
                barrier.wait();
                let first = Instant::now();
                (0..calls).for_each(|nth| call(&mut worker, nth));
                (first, Instant::now())
            })
        };
        let started: Vec<_> = workers.into_iter().map(start).collect();
        started.into_iter().map(|thread| thread.join().unwrap()).collect()
    });
    let first = spans.iter().map(|span| span.0).min().unwrap();
    let last = spans.iter().map(|span| span.1).max().unwrap();
    (last - first).as_nanos()
}

fn measure(object: &str, form: &str, n: u64, calls: u64) -> u128 {
    match (object, form) {
        ("tally", "universal") => {
            let seats = Log::tally(n, calls).unwrap().into_seats().unwrap();
            let drawing = seats.into_iter().map(|seat| (seat, 0x9e3779b97f4a7c15u64)).collect();
            round(drawing, calls, |(seat, word), _| {
                *word ^= *word << 13;
                *word ^= *word >> 7;
                *word ^= *word << 17;
                black_box(seat.apply(*word % 1000).unwrap());
            })
        }
        ("counter", "universal") => {
            let seats = Counter::open(n).unwrap().into_seats().unwrap();
            round(seats, calls, |seat, nth| {
                black_box(seat.add(nth + 1).unwrap());
            })
        }
        ("queue", "universal") => {
            let seats = Queue::open(n, CAPACITY).unwrap().into_seats().unwrap();
            round(seats, calls, |seat, nth| {
                if nth % 2 == 0 {
                    let _ = black_box(seat.put(NonZeroU64::new(nth + 1).unwrap()));
                } else {
                    black_box(seat.take().unwrap());
                }
            })
        }
        ("queue", _) => {
            let row = &Mutex::new(VecDeque::with_capacity(CAPACITY as usize));
            round((0..n).collect(), calls, |_, nth| {
                let mut row = row.lock().unwrap();
                match nth % 2 {
                    0 if row.len() < CAPACITY as usize => row.push_back(nth + 1),
                    0 => {}
                    _ => {
                        black_box(row.pop_front());
                    }
                }
            })
        }
        _ => {
            let sum = &Mutex::new(0);
            round((0..n).collect(), calls, |_, nth| {
                let mut sum = sum.lock().unwrap();
                black_box(*sum);
                *sum += nth + 1;
            })
        }
    }
}

fn main() {
    let words: Vec<String> = std::env::args().skip(1).collect();
    let number = |at: usize| words[at].parse::<u64>().unwrap();
    for _ in 0..number(4) {
        println!("{}", measure(&words[0], &words[1], number(2), number(3)));
    }
}
