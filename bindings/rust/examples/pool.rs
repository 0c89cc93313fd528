//! More threads than seats: a pool lends each seat to one thread at a time. It is the program of docs/bindings.md.
use std::sync::mpsc::{channel, Receiver, Sender};
use std::sync::Mutex;
use std::thread::scope;
use universal::small::{Counter, SmallSeat};

struct Pool<K> {
    lent: Mutex<Receiver<SmallSeat<K>>>,
    back: Sender<SmallSeat<K>>,
}

impl<K> Pool<K> {
    fn new(seats: Vec<SmallSeat<K>>) -> Pool<K> {
        let (back, lent) = channel();
        for seat in seats {
            back.send(seat).expect("the pool has the other end");
        }
        Pool { lent: Mutex::new(lent), back }
    }

    /// Works with a seat. It waits while all are lent.
    fn with<R>(&self, work: impl FnOnce(&mut SmallSeat<K>) -> R) -> R {
        let mut seat = self.lent.lock().unwrap().recv().expect("the pool has the other end");
        let result = work(&mut seat);
        self.back.send(seat).expect("the pool has the other end");
        result
    }

    /// The seats, when none is lent any more.
    fn into_seats(self) -> Vec<SmallSeat<K>> {
        drop(self.back);
        self.lent.into_inner().unwrap().iter().collect()
    }
}

fn main() {
    let pool = Pool::new(Counter::open(4).unwrap().into_seats().unwrap());
    scope(|threads| {
        for _ in 0..1000 {
            threads.spawn(|| pool.with(|seat| seat.add(5).unwrap()));
        }
    });
    let mut seats = pool.into_seats();
    let last = seats.pop().unwrap();
    drop(seats);
    assert_eq!(last.close().unwrap(), 5000);
}
