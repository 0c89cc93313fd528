//! Threads that count, that agree on a value, and that run a machine by its tables.
use std::thread::scope;
use universal::{Entry, Log, Machine, Seat};

const THREADS: u64 = 4;
const CALLS: u64 = 1000;

/// Each seat in a thread of its own; then all calls in their order.
fn shared(log: Log, inv: fn(&Seat, u64) -> u64) -> Vec<Entry> {
    let mut seats = log.into_seats().expect("memory");
    scope(|threads| {
        for seat in &mut seats {
            threads.spawn(move || {
                for i in 0..CALLS {
                    seat.apply(inv(seat, i)).expect("there is room for each call");
                }
            });
        }
    });
    let last = seats.pop().expect("there are four");
    drop(seats);
    last.close().expect("it is the last that has the log")
}

fn main() {
    let calls = shared(Log::tally(THREADS, CALLS).expect("a log"), |seat, _| seat.process() + 1);
    let sum: u64 = calls.iter().map(|call| call.inv).sum();
    println!("count: {} calls, sum {sum}", calls.len());

    let calls = shared(Log::sticky(THREADS, CALLS).expect("a log"), |seat, _| seat.process() + 1);
    let first = calls[0].inv as u32;
    println!("agree: one value {}", calls.iter().all(|call| call.reply() == Some(first)));

    // A turnstile of two states, locked and unlocked: a coin (0) unlocks it, and a push (1) locks it. The reply is 1 to
    // a push that passes.
    let turnstile = Machine { states: 2, invocations: 2, next: &[1, 0, 1, 0], reply: &[0, 0, 0, 1] };
    let calls = shared(Log::machine(THREADS, CALLS, turnstile).expect("a log"), |seat, _| seat.process() % 2);
    let mut unlocked = false;
    let mut told = true;
    for call in &calls {
        told &= call.reply() == Some(u32::from(unlocked && call.inv == 1));
        unlocked = call.inv == 0;
    }
    println!("machine: {} calls, as its tables say {told}", calls.len());
}
