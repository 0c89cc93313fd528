//! Objects that processes share: each call, names, refusals, seats, and a process that is killed.
use std::num::NonZeroU64;
use std::path::{Path, PathBuf};
use std::process::{Command, Stdio};
use std::{env, fs, io, process, thread, time};
use universal::program::Program;
use universal::shared::*;
use universal::small::{BookFault, CounterFault, PutFault};
use universal::Fault;

fn name(of: &str) -> PathBuf {
    format!("rust.{}.{of}", process::id()).into()
}

/// A name that goes with its block.
struct Named(PathBuf);

impl Drop for Named {
    fn drop(&mut self) {
        drop(unlink(&self.0));
    }
}

fn number(number: u64) -> NonZeroU64 {
    NonZeroU64::new(number).unwrap()
}

#[test]
fn each_object() {
    let mut counter = Shared::<Counter>::create(None, 1).unwrap().claim(None).unwrap().0;
    assert_eq!([counter.add(5), counter.add(u64::MAX), counter.add(0)], [Ok(0), Ok(5), Ok(4)]);
    assert_eq!((counter.made(), counter.version() > 0), (3, true));
    let mut register = Shared::<Register>::create(None, 1).unwrap().claim(None).unwrap().0;
    assert_eq!([register.write(7), register.compare_exchange(3, 9), register.read()], [Ok(0), Ok(7), Ok(7)]);
    let mut counters = Shared::<Counters>::create(None, 1, 3).unwrap().claim(None).unwrap().0;
    assert_eq!(
        [counters.add(2, 8), counters.add(2, 1), counters.add(3, 1)],
        [Ok(0), Ok(8), Err(CounterFault::NoCounter)]
    );
    let mut queue = Shared::<Queue>::create(None, 1, 2).unwrap().claim(None).unwrap().0;
    assert_eq!(
        [queue.put(number(8)), queue.put(number(9)), queue.put(number(7))],
        [Ok(()), Ok(()), Err(PutFault::Full)]
    );
    assert_eq!([queue.take(), queue.take(), queue.take()], [Ok(Some(number(8))), Ok(Some(number(9))), Ok(None)]);
    let mut stack = Shared::<Stack>::create(None, 1, 2).unwrap().claim(None).unwrap().0;
    assert_eq!([stack.push(number(8)), stack.push(number(9))], [Ok(()), Ok(())]);
    assert_eq!(stack.pop(), Ok(Some(number(9))));
    let mut map = Shared::<Map>::create(None, 1, 2).unwrap().claim(None).unwrap().0;
    assert_eq!([map.insert(7, 70), map.insert(7, 71)], [Ok(None), Ok(Some(70))]);
    assert_eq!([map.get(7), map.remove(7), map.get(7)], [Ok(Some(71)), Ok(Some(71)), Ok(None)]);
    let mut book = Shared::<Book>::create(None, 1).unwrap().claim(None).unwrap().0;
    assert_eq!([book.deposit(3, 10), book.withdraw(3, 11)], [Ok(10), Err(BookFault::Short)]);
    let tables = universal::Machine { states: 2, invocations: 1, next: &[1, 0], reply: &[7, 8] };
    let mut machine = Shared::<Machine>::create(None, 1, tables).unwrap().claim(None).unwrap().0;
    assert_eq!([machine.call(0), machine.call(0)], [Ok(7), Ok(8)]);
}

/// An account of at most 100, which is answered whether its word was added, and the balance.
fn account() -> Program {
    let mut p = Program::new(&[40], 1, 2);
    let (balance, amount) = (p.state(0), p.invocation(0));
    p.answer(1, balance);
    let total = p.add(balance, amount);
    p.when(total.at_most(100), |p| {
        p.store(0, total);
        p.answer(0, 1);
        p.answer(1, total);
    });
    p
}

#[test]
fn programs() {
    let named = Named(name("program"));
    let made = Shared::<Own>::create(Some(&named.0), 2, &account()).unwrap();
    let (mut one, mut reply) = (made.claim(Some(1)).unwrap().0, [9; 2]);
    for (amount, answer) in [(60, [1, 100]), (1, [0, 100]), (u64::MAX, [0, 100])] {
        assert_eq!((one.call(&[amount], &mut reply), reply), (Ok(()), answer));
    }
    assert_eq!(one.call(&[], &mut reply), Err(Fault::BadWidth));
    assert_eq!((one.call(&[1], &mut [0]), one.made()), (Err(Fault::BadWidth), 3));
    drop(one);
    let (mut two, last) = Shared::<Own>::attach(&named.0, 2, &account()).unwrap().claim(Some(1)).unwrap();
    assert_eq!((last.made, last.invocation[0], last.reply), (3, u64::MAX, [0, 100]));
    assert_eq!((two.call(&[0], &mut reply), reply), (Ok(()), [1, 100]));
    let mut other = account();
    other.answer(0, 2);
    assert!(matches!(Shared::<Own>::attach(&named.0, 2, &other), Err(SharedFault::OtherObject)));
    for wide in [Program::new(&[], 5, 1), Program::new(&[], 1, 3), Program::new(&[], 1, 0)] {
        assert!(matches!(Shared::<Own>::create(None, 1, &wide), Err(SharedFault::Object(Fault::BadCapacity))));
    }
    let mut bad = Program::new(&[], 1, 1);
    bad.state(0);
    assert!(matches!(Shared::<Own>::create(None, 1, &bad), Err(SharedFault::Object(Fault::NoPlace))));
}

#[test]
fn names_and_refusals() {
    let named = Named(name("names"));
    let made = Shared::<Map>::create(Some(&named.0), 2, 10).unwrap();
    let again = Shared::<Map>::attach(&named.0, 2, 10).unwrap();
    made.claim(None).unwrap().0.insert(1, 2).unwrap();
    assert_eq!(again.claim(None).unwrap().0.get(1), Ok(Some(2)));
    let is = |kind: io::ErrorKind| move |fault: SharedFault| matches!(fault, SharedFault::System(error) if error.kind() == kind);
    assert!(Shared::<Map>::create(Some(&named.0), 2, 10).is_err_and(is(io::ErrorKind::AlreadyExists)));
    assert!(Shared::<Map>::attach(&name("none"), 2, 10).is_err_and(is(io::ErrorKind::NotFound)));
    assert!(Shared::<Counter>::attach(Path::new("a\0b"), 2).is_err_and(is(io::ErrorKind::InvalidInput)));
    assert!(matches!(Shared::<Map>::attach(&named.0, 2, 11), Err(SharedFault::OtherObject)));
    assert!(matches!(Shared::<Map>::attach(&named.0, 3, 10), Err(SharedFault::OtherObject)));
    assert!(matches!(Shared::<Counter>::attach(&named.0, 2), Err(SharedFault::OtherObject)));
    assert!(matches!(Shared::<Counter>::create(None, 65), Err(SharedFault::Object(Fault::BadCount))));
    assert!(matches!(Shared::<Queue>::create(None, 1, 65535), Err(SharedFault::Object(Fault::BadCapacity))));
    let tables = universal::Machine { states: 2, invocations: 1, next: &[1], reply: &[7, 8] };
    assert!(matches!(Shared::<Machine>::create(None, 1, tables), Err(SharedFault::Object(Fault::BadTable))));
    let zeros = Named(PathBuf::from(format!("/dev/shm/rust.{}.zeros", process::id())));
    fs::write(&zeros.0, [0; 10_000]).unwrap();
    assert!(matches!(Shared::<Map>::attach(&zeros.0, 2, 10), Err(SharedFault::NotASegment)));
}

#[test]
fn seats() {
    let counter = Shared::<Counter>::create(None, 2).unwrap();
    let (mut one, last) = counter.claim(Some(1)).unwrap();
    assert_eq!((one.process(), last.was, last.made), (1, Was::New, 0));
    assert!(matches!(counter.claim(Some(1)), Err(SharedFault::Taken)));
    assert!(matches!(counter.claim(Some(2)), Err(SharedFault::Object(Fault::NoSeat))));
    one.add(5).unwrap();
    thread::scope(|scope| {
        scope.spawn(|| assert_eq!(counter.claim(None).unwrap().0.add(1), Ok(5)));
    });
    drop(one);
    let (one, last) = counter.claim(Some(1)).unwrap();
    assert_eq!((last.was, last.made, last.ended, last.next), (Was::Released, 1, false, None));
    assert_eq!((last.invocation[0], last.reply[0]), (5, 0));
    drop(counter);
    assert_eq!(one.made(), 1);
}

/// What the test below starts as a program of its own: it adds 1 for good.
#[test]
fn adds_for_good() {
    let Some(of) = env::var_os("UNIVERSAL_SHARED_TEST") else { return };
    let counter = Shared::<Counter>::attach(Path::new(&of), 2).unwrap();
    let mut seat = counter.claim(Some(1)).unwrap().0;
    loop {
        seat.add(1).unwrap();
    }
}

#[test]
fn a_process_is_killed() {
    let named = Named(name("killed"));
    let counter = Shared::<Counter>::create(Some(&named.0), 2).unwrap();
    let mut mine = counter.claim(Some(0)).unwrap().0;
    let mut made = 0;
    for _ in 0..20 {
        let mut child = Command::new(env::current_exe().unwrap());
        child.args(["--exact", "adds_for_good"]).env("UNIVERSAL_SHARED_TEST", &named.0).stdout(Stdio::null());
        let mut child = child.spawn().unwrap();
        let before = mine.add(0).unwrap();
        while mine.add(0).unwrap() < before + 1000 {
            thread::sleep(time::Duration::from_millis(1));
        }
        child.kill().unwrap();
        child.wait().unwrap();
        let (seat, last) = counter.claim(Some(1)).unwrap();
        assert_eq!((last.was, last.made > made), (Was::Died, true));
        assert_eq!((last.invocation[0], last.reply[0]), (1, last.made - 1));
        made = seat.made();
        assert_eq!(mine.add(0), Ok(made));
    }
}
