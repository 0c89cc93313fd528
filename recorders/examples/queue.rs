//! A queue under a lock, which four threads share: right.

#[path = "../recorder.rs"]
mod recorder;

use recorder::Log;
use std::collections::VecDeque;
use std::sync::Mutex;
use std::thread;

fn work(queue: &Mutex<VecDeque<u32>>, thread: u32) -> Log {
    let mut log = Log::new(format!("T{thread}"));
    for call in 0..2000 {
        let number = thread * 2000 + call;
        if call % 2 == 0 {
            log.call(format!("enq {number}"), || {
                queue.lock().unwrap().push_back(number);
                "ok"
            });
        } else {
            log.call("deq", || match queue.lock().unwrap().pop_front() {
                Some(taken) => taken.to_string(),
                None => "empty".to_string(),
            });
        }
    }
    log
}

fn main() {
    let queue = Mutex::new(VecDeque::new());
    let logs: Vec<Log> = thread::scope(|scope| {
        let workers: Vec<_> = (0..4).map(|i| scope.spawn({ let queue = &queue; move || work(queue, i) })).collect();
        workers.into_iter().map(|worker| worker.join().unwrap()).collect()
    });
    for log in logs {
        print!("{log}");
    }
}
