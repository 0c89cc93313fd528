//! Small objects: each call on its happy path, each refusal, and what its types keep.
use std::num::NonZeroU64;
use std::sync::atomic::{AtomicU64, Ordering::SeqCst};
use universal::program::Program;
use universal::small::{
    Book, BookFault, Busy, Counter, CounterFault, Counters, Kind, Machine, Map, PutFault, Queue, Register, Small,
    SmallSeat, Stack,
};
use universal::{Fault, Machine as Tables};

fn number(of: u64) -> NonZeroU64 {
    NonZeroU64::new(of).unwrap()
}

macro_rules! only_seat {
    ($opened:expr) => {
        $opened.unwrap().into_seats().unwrap().pop().unwrap()
    };
}

#[test]
fn counters_answer_the_sum_before() {
    let mut counter = only_seat!(Counter::open(1));
    assert_eq!([counter.add(5), counter.add(u64::MAX), counter.add(0)], [Ok(0), Ok(5), Ok(4)]);
    assert_eq!(counter.close().unwrap(), 4);
    let mut counters = only_seat!(Counters::open(1, 3));
    assert_eq!(
        [counters.add(2, 8), counters.add(2, 1), counters.add(3, 1)],
        [Ok(0), Ok(8), Err(CounterFault::NoCounter)]
    );
    assert_eq!(counters.close().unwrap(), [0, 0, 9]);
}

#[test]
fn a_register_answers_the_value_before() {
    let mut register = only_seat!(Register::open(1));
    assert_eq!([register.write(7), register.compare_exchange(3, 9)], [Ok(0), Ok(7)]);
    assert_eq!([register.compare_exchange(7, 9), register.read()], [Ok(7), Ok(9)]);
    assert_eq!(register.close().unwrap(), 9);
}

#[test]
fn a_queue_gives_the_oldest_and_a_stack_the_newest() {
    let mut queue = only_seat!(Queue::open(1, 2));
    assert_eq!(queue.take(), Ok(None));
    assert_eq!([8, 9, 7].map(|it| queue.put(number(it))), [Ok(()), Ok(()), Err(PutFault::Full)]);
    assert_eq!(queue.take(), Ok(Some(number(8))));
    assert_eq!(queue.close().unwrap(), [9]);
    let mut stack = only_seat!(Stack::open(1, 2));
    assert_eq!(stack.pop(), Ok(None));
    assert_eq!([8, 9, 7].map(|it| stack.push(number(it))), [Ok(()), Ok(()), Err(PutFault::Full)]);
    assert_eq!(stack.pop(), Ok(Some(number(9))));
    assert_eq!(stack.close().unwrap(), [8]);
}

#[test]
fn a_map_tells_the_value_before() {
    let mut map = only_seat!(Map::open(1, 2));
    assert_eq!([map.insert(7, 70), map.insert(7, 71), map.insert(0, 5)], [Ok(None), Ok(Some(70)), Ok(None)]);
    assert_eq!(map.insert(9, 90), Err(PutFault::Full));
    assert_eq!([map.get(9), map.get(0), map.remove(7), map.remove(7)], [Ok(None), Ok(Some(5)), Ok(Some(71)), Ok(None)]);
    assert_eq!(map.close().unwrap(), [(0, 5)]);
}

#[test]
fn a_book_keeps_its_balances() {
    let mut book = only_seat!(Book::open(1));
    let most = 999_999_999_999;
    assert_eq!([book.deposit(3, 10), book.deposit(3, most)], [Ok(10), Err(BookFault::Over)]);
    assert_eq!([book.withdraw(3, 11), book.withdraw(3, 1)], [Err(BookFault::Short), Ok(9)]);
    assert_eq!([book.transfer(3, 15, 4), book.transfer(3, 15, 6)], [Ok(()), Err(BookFault::Short)]);
    assert_eq!(book.deposit(16, 1), Err(BookFault::NoAccount));
    assert_eq!(book.deposit(0, most + 1), Err(BookFault::NoAmount));
    assert_eq!(book.total(), Ok(9));
    let balances = book.close().unwrap();
    assert_eq!((balances[3], balances[15], balances.iter().sum()), (5, 4, 9u64));
}

#[test]
fn a_machine_goes_by_its_tables() {
    let tables = Tables { states: 2, invocations: 2, next: &[0, 1, 1, 0], reply: &[0, 0, 1, 1] };
    let mut switch = only_seat!(Machine::open(1, tables));
    assert_eq!([0, 1, 0, u64::MAX, 1].map(|invocation| switch.call(invocation)), [0, 0, 1, 1, 0].map(Ok));
    assert_eq!(switch.close().unwrap(), 1);
    let bad = [
        Tables { invocations: 1, ..tables },
        Tables { next: &[0, 1, 2, 0], ..tables },
        Tables { reply: &[0, 0, 1, 1 << 31], ..tables },
        Tables { reply: &[0, 0, 1], ..tables },
    ];
    for tables in bad {
        assert_eq!(Machine::open(0, tables).unwrap_err(), Fault::BadTable, "{tables:?}");
    }
    assert_eq!(Machine::open(65, tables).unwrap_err(), Fault::BadCount);
}

/// What a call would be answered, at rest: twice the same, and of the version that the seat has.
fn at_rest<K: Kind, const REPLY: usize>(seat: &mut SmallSeat<K>, words: &[u64], answer: [u64; REPLY]) {
    for _ in 0..2 {
        let mut reply = [12345; REPLY];
        assert_eq!(seat.try_read(words, &mut reply), Ok(Some(seat.version())), "{words:?}");
        assert_eq!(reply, answer, "{words:?}");
    }
}

#[test]
fn reads_without_a_call_answer_what_a_call_would_be() {
    let mut counter = only_seat!(Counter::open(1));
    at_rest(&mut counter, &[3], [0]);
    counter.add(5).unwrap();
    at_rest(&mut counter, &[3], [5]);
    assert_eq!(counter.close().unwrap(), 5);
    let mut counters = only_seat!(Counters::open(1, 3));
    counters.add(2, 8).unwrap();
    at_rest(&mut counters, &[2, 1], [8]);
    at_rest(&mut counters, &[1, 1], [0]);
    assert_eq!(counters.close().unwrap(), [0, 0, 8]);
    let mut register = only_seat!(Register::open(1));
    register.write(7).unwrap();
    at_rest(&mut register, &[0, 0, 0], [7]);
    at_rest(&mut register, &[1, 9, 0], [7]);
    let version = register.version();
    assert_eq!((register.read(), register.version()), (Ok(7), version));
    assert_eq!(register.close().unwrap(), 7);
    let mut queue = only_seat!(Queue::open(1, 2));
    queue.put(number(8)).unwrap();
    at_rest(&mut queue, &[9], [1]);
    queue.put(number(9)).unwrap();
    at_rest(&mut queue, &[7], [0]);
    at_rest(&mut queue, &[0], [8]);
    assert_eq!(queue.close().unwrap(), [8, 9]);
    let mut stack = only_seat!(Stack::open(1, 2));
    for it in [8, 9] {
        stack.push(number(it)).unwrap();
    }
    at_rest(&mut stack, &[0], [9]);
    assert_eq!(stack.close().unwrap(), [8, 9]);
    let mut map = only_seat!(Map::open(1, 1));
    map.insert(7, 70).unwrap();
    at_rest(&mut map, &[0, 7, 0], [1, 70]);
    at_rest(&mut map, &[2, 7, 0], [1, 70]);
    at_rest(&mut map, &[1, 9, 90], [2, 0]);
    let version = map.version();
    assert_eq!((map.get(7), map.get(9), map.version()), (Ok(Some(70)), Ok(None), version));
    assert_eq!(map.close().unwrap(), [(7, 70)]);
    let mut book = only_seat!(Book::open(1));
    book.deposit(3, 10).unwrap();
    at_rest(&mut book, &[3, 0, 0, 0], [4, 10]);
    at_rest(&mut book, &[1, 3, 0, 4], [0, 6]);
    at_rest(&mut book, &[1, 3, 0, 11], [2, 0]);
    let version = book.version();
    assert_eq!((book.total(), book.version()), (Ok(10), version));
    assert_eq!(book.close().unwrap()[3], 10);
    let tables = Tables { states: 2, invocations: 2, next: &[0, 1, 1, 0], reply: &[0, 0, 1, 1] };
    let mut switch = only_seat!(Machine::open(1, tables));
    switch.call(1).unwrap();
    at_rest(&mut switch, &[1], [1]);
    assert_eq!(switch.close().unwrap(), 1);
    let mut p = Program::new(&[40], 1, 1);
    let (sum, number) = (p.state(0), p.invocation(0));
    let total = p.add(sum, number);
    p.store(0, total);
    p.answer(0, total);
    let mut own = only_seat!(p.open(1));
    at_rest(&mut own, &[2], [42]);
    own.call(&[3], &mut [0]).unwrap();
    at_rest(&mut own, &[2], [45]);
    assert_eq!(own.close().unwrap(), [43]);
}

#[test]
fn a_seat_follows_what_it_has_read() {
    let mut seats = Counter::open(2).unwrap().into_seats().unwrap();
    let [first, second] = &mut seats[..] else { panic!("there are two seats") };
    first.add(5).unwrap();
    let mut reply = [12345, 12345];
    assert_eq!(second.try_read(&[0], &mut reply[..1]), Ok(Some(first.version())));
    assert_eq!((reply, second.add(0)), ([5, 12345], Ok(5)));
    assert!(second.version() > first.version());
    assert_eq!(first.try_read(&[], &mut reply[..1]), Err(Fault::BadWidth));
    assert_eq!(first.try_read(&[0], &mut reply), Err(Fault::BadWidth));
    assert_eq!(reply, [5, 12345]);
}

/// Two threads add, and a third one reads: it never goes down, and at the end it is the sum.
#[test]
fn what_is_read_never_goes_down() {
    const CALLS: u64 = 100_000;
    let over = AtomicU64::new(0);
    let mut seats = Counter::open(3).unwrap().into_seats().unwrap();
    let (reader, adders) = seats.split_first_mut().unwrap();
    std::thread::scope(|threads| {
        for seat in adders {
            threads.spawn(|| {
                for _ in 0..CALLS {
                    seat.add(1).unwrap();
                }
                over.fetch_add(1, SeqCst);
            });
        }
        let mut sum = [0];
        loop {
            let (is_over, [before], version) = (over.load(SeqCst) == 2, sum, reader.version());
            let found = reader.try_read(&[1], &mut sum).unwrap();
            assert!(before <= sum[0] && sum[0] <= 2 * CALLS && version <= reader.version());
            assert!(found.is_some() || !is_over, "nobody else is at work");
            if is_over {
                break;
            }
        }
        assert_eq!(sum, [2 * CALLS]);
    });
}

#[test]
fn bad_sizes_are_refused() {
    assert_eq!(Counter::open(0).unwrap_err(), Fault::BadCount);
    assert_eq!(Book::open(65).unwrap_err(), Fault::BadCount);
    assert_eq!(Counters::open(1, 65537).unwrap_err(), Fault::BadCapacity);
    assert_eq!(Queue::open(1, 65535).unwrap_err(), Fault::BadCapacity);
    assert_eq!(Stack::open(1, u32::MAX).unwrap_err(), Fault::BadCapacity);
    assert_eq!(Map::open(1, 32768).unwrap_err(), Fault::BadCapacity);
    assert!(Map::open(1, 32767).is_ok());
    assert_eq!(only_seat!(Counters::open(1, 0)).close().unwrap(), []);
}

#[test]
fn seats_end_and_follow_and_close() {
    let mut object = Counter::open(2).unwrap();
    let (mut first, mut second) = (object.seat().unwrap(), object.seat().unwrap());
    assert_eq!((first.process(), second.process(), first.version()), (1, 0, 0));
    assert_eq!(object.seat().unwrap_err(), Fault::NoSeat);
    assert_eq!(first.add(5), Ok(0));
    let version = first.version();
    assert_eq!([second.follows(version), second.follows(version + 1)], [true, false]);
    assert_eq!(second.add(2), Ok(5));
    assert!(second.version() > version);

    // whoever closes comes back as long as another has the object
    let Err(Busy(first)) = first.close() else { panic!("another seat has it") };
    drop(second);
    let Err(Busy(object)) = object.close() else { panic!("a seat has it") };
    let Err(Busy(mut first)) = first.close() else { panic!("the object's own handle has it") };
    assert_eq!(first.add(1), Ok(7));
    drop(first);
    assert_eq!(object.close().unwrap(), 8);
}

#[test]
fn what_goes_to_another_thread() {
    fn goes<T: Send + Sync>() {}
    goes::<Map>();
    goes::<Small<universal::small::kinds::Map>>();
    goes::<Busy<SmallSeat<universal::small::kinds::Queue>>>();
}

#[test]
fn faults_go_into_the_errors_of_threads() {
    fn opened(n: u64) -> Result<usize, Box<dyn std::error::Error + Send + Sync>> {
        Ok(Map::open(n, 100)?.into_seats()?.len())
    }
    assert_eq!(opened(2).unwrap(), 2);
    assert_eq!(opened(0).unwrap_err().to_string(), "there aren't from 1 to 64 processes");
}
