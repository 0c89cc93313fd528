//! Threads over one counter, one map and one queue: the calls' order is legal, and agrees with what the threads told each
//! other and followed. The arguments are how many calls each thread makes, and how many threads there are, once or more.
use std::num::NonZeroU64;
use std::sync::atomic::{AtomicU64, Ordering::SeqCst};
use std::thread::scope;
use universal::small::{Counter, Map, Queue, SmallSeat};

const KEYS: u64 = 8;

/// What each process tells of its latest call, and then a version that this call is in.
struct Board(Vec<[AtomicU64; 2]>);

impl Board {
    fn new(threads: u64) -> Board {
        Board((0..threads).map(|_| Default::default()).collect())
    }

    fn tell(&self, process: u64, what: u64, version: u64) {
        let [mark, told] = &self.0[process as usize];
        mark.store(what, SeqCst);
        told.store(version, SeqCst);
    }

    /// What another process told, and its version, in 1 of 16 turns.
    fn told(&self, process: u64, turn: u64) -> Option<(u64, u64)> {
        let [mark, told] = &self.0[((process + 1 + turn / 16) % self.0.len() as u64) as usize];
        (turn % 16 == 0).then(|| (mark.load(SeqCst), told.load(SeqCst)))
    }
}

/// Each seat's work in a thread of its own: what each one gives.
fn in_threads<K: Send, R: Send>(seats: &mut [SmallSeat<K>], work: impl Fn(&mut SmallSeat<K>) -> Vec<R> + Sync) -> Vec<R>
where
    SmallSeat<K>: Send,
{
    scope(|threads| {
        let running: Vec<_> = seats.iter_mut().map(|seat| threads.spawn(|| work(seat))).collect();
        running.into_iter().flat_map(|thread| thread.join().unwrap()).collect()
    })
}

/// Each call adds 1, so its reply is its place.
fn counter(threads: u64, calls: u64) {
    let board = Board::new(threads);
    let mut seats = Counter::open(threads).unwrap().into_seats().unwrap();
    let mut places = in_threads(&mut seats, |seat| {
        let one = |turn| {
            let told = board.told(seat.process(), turn);
            told.inspect(|(_, version)| assert!(seat.follows(*version)));
            let place = seat.add(1).unwrap();
            assert!(place >= told.map_or(0, |(mark, _)| mark), "a call stands after what its thread followed");
            board.tell(seat.process(), place + 1, seat.version());
            place
        };
        (0..calls).map(one).collect()
    });
    places.sort_unstable();
    assert!(places.into_iter().eq(0..threads * calls), "each place is one call's");
}

/// Each call gives a key a value that no other call gives, and is answered the value before: so these tell the order.
fn map(threads: u64, calls: u64) {
    let board = Board::new(threads);
    let mut seats = Map::open(threads, KEYS as u32).unwrap().into_seats().unwrap();
    let made = in_threads(&mut seats, |seat| {
        let one = |turn| {
            let told = board.told(seat.process(), turn);
            told.inspect(|(_, version)| assert!(seat.follows(*version)));
            let earlier = told.map_or(0, |(mark, _)| mark);
            let key = if earlier == 0 { turn % KEYS } else { earlier % KEYS };
            let value = turn * threads + seat.process() + 1;
            let before = seat.insert(key, value).unwrap().unwrap_or(0);
            board.tell(seat.process(), value * KEYS + key, seat.version());
            (value as usize, before as usize, (earlier / KEYS) as usize)
        };
        (0..calls).map(one).collect()
    });
    let all = (threads * calls) as usize;
    let mut before = vec![0; all + 1];
    made.iter().for_each(|(value, earlier, _)| before[*value] = *earlier);
    let last = seats.pop().unwrap();
    drop(seats);
    // from the last value of each key back; a later call has the lower place
    let (mut place, mut found) = (vec![0; all + 1], 0);
    for (_, value) in last.close().unwrap() {
        let mut value = value as usize;
        while value != 0 {
            assert_eq!(place[value], 0, "each value stands once");
            found += 1;
            place[value] = found;
            value = before[value];
        }
    }
    assert_eq!(found, all, "each call stands in the order of its key");
    for (value, _, followed) in made {
        assert!(followed == 0 || place[followed] > place[value], "a call stands after what its thread followed");
    }
}

/// A thread puts a number in, and takes one out. No number overtakes another: by versions, those of one thread come out in
/// the order in which they went in.
fn queue(threads: u64, calls: u64) {
    let mut seats = Queue::open(threads, 64).unwrap().into_seats().unwrap();
    let mut out = in_threads(&mut seats, |seat| {
        let one = |turn| {
            let value = NonZeroU64::new(turn * threads + seat.process() + 1).unwrap();
            seat.put(value).unwrap();
            let after = seat.version();
            let taken = seat.take().unwrap().expect("there is one to take").get() - 1;
            (taken % threads, taken / threads, after, seat.version())
        };
        (0..calls / 2).map(one).collect()
    });
    out.sort_unstable();
    for pair in out.windows(2) {
        let [(process, nth, after, _), (other, next, _, version)] = [pair[0], pair[1]];
        if process == other {
            assert_eq!(next, nth + 1, "each number comes out once");
            assert!(version > after, "no number overtakes another");
        }
    }
    assert_eq!(out.len() as u64, calls / 2 * threads);
    let last = seats.pop().unwrap();
    drop(seats);
    assert_eq!(last.close().unwrap(), []);
}

fn main() {
    let mut arguments = std::env::args().skip(1).map(|number| number.parse().expect("a number"));
    let calls = arguments.next().expect("how many calls");
    for threads in arguments {
        counter(threads, calls);
        map(threads, calls);
        queue(threads, calls);
        println!("{threads} threads, {calls} calls each: legal");
    }
}
