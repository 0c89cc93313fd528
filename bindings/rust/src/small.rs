//! Objects on words of 64 bits, whose seats make 2^50 calls each at most.
//!
//! [`Counter`], [`Register`], [`Counters`], [`Queue`], [`Stack`], [`Map`], [`Book`] and [`Machine`] are seats. `open`
//! gives a [`Small`], the object with its seats. A call comes with a version: a number of the object's state, in which the
//! call is ([`SmallSeat::version`]). Who is told a version, by whatever means, can follow it ([`SmallSeat::follows`]).
//! What only reads, as [`Map::get`](SmallSeat::get), first tries to read the present state without a call
//! ([`SmallSeat::try_read`]).
//!
//! Where another process's call came since the process's own last one, a call copies the whole state, also while the object is
//! empty: some 1.3 nanoseconds a word of capacity (docs/measured.md). Where none came, it takes the time of what it touches.
//!
//! ```
//! use std::num::NonZeroU64;
//! use universal::small::Queue;
//!
//! let mut seats = Queue::open(4, 100)?.into_seats()?;
//! std::thread::scope(|scope| {
//!     for seat in &mut seats {
//!         scope.spawn(|| seat.put(NonZeroU64::MIN).unwrap());
//!     }
//! });
//! assert_eq!(seats[0].take().unwrap(), Some(NonZeroU64::MIN));
//! let last = seats.pop().unwrap();
//! drop(seats);
//! assert_eq!(last.close().unwrap(), [1, 1, 1]);
//! # Ok::<(), universal::Fault>(())
//! ```

use crate::raw::{self, Handle};
use crate::Fault;
use std::error::Error;
use std::fmt;
use std::marker::PhantomData;
use std::num::NonZeroU64;

mod kind {
    /// What an object is, by its last state: the bound of a function over seats of any object.
    ///
    /// ```
    /// use universal::small::{Counter, Kind, SmallSeat};
    ///
    /// fn in_threads<K: Kind>(seats: &mut [SmallSeat<K>], work: impl Fn(&mut SmallSeat<K>) + Sync) {
    ///     std::thread::scope(|scope| seats.iter_mut().for_each(|seat| drop(scope.spawn(|| work(seat)))));
    /// }
    ///
    /// let mut seats = Counter::open(4)?.into_seats()?;
    /// in_threads(&mut seats, |seat| drop(seat.add(5).unwrap()));
    /// assert_eq!(seats[0].add(0).unwrap(), 20);
    /// # Ok::<(), universal::Fault>(())
    /// ```
    pub trait Kind {
        /// The last state.
        type State;

        /// The state that words are.
        fn state(words: Vec<u64>) -> Self::State;
    }
}

pub use kind::Kind;

macro_rules! kinds {
    ($($name:ident: $state:ty, $words:ident => $read:expr;)*) => {$(
        #[doc = concat!("What a seat of a [`", stringify!($name), "`](super::", stringify!($name), ") is a seat of.")]
        #[derive(Debug)]
        pub enum $name {}

        impl super::Kind for $name {
            type State = $state;

            fn state($words: Vec<u64>) -> $state {
                $read
            }
        }
    )*};
}

/// The kinds of objects.
pub mod kinds {
    kinds! {
        Counter: u64, words => words[0];
        Register: u64, words => words[0];
        Counters: Vec<u64>, words => words;
        Queue: Vec<u64>, words => {
            words[2..].iter().cycle().skip(words[1] as usize).take(words[0] as usize).copied().collect()
        };
        Stack: Vec<u64>, words => words[1..][..words[0] as usize].to_vec();
        Map: Vec<(u64, u64)>, words => words[1..].chunks(2).take(words[0] as usize).map(|pair| (pair[0], pair[1])).collect();
        Book: [u64; 16], words => std::array::from_fn(|account| words[account]);
        Machine: u64, words => words[0];
        Program: Vec<u64>, words => words;
    }
}

/// A seat of a counter modulo 2^64, 0 at the start.
pub type Counter = SmallSeat<kinds::Counter>;

/// A seat of a register of 64 bits, 0 at the start.
pub type Register = SmallSeat<kinds::Register>;

/// A seat of an array of counters modulo 2^64, each 0 at the start.
pub type Counters = SmallSeat<kinds::Counters>;

/// A seat of a queue of numbers that aren't 0. The last state has the oldest one first.
pub type Queue = SmallSeat<kinds::Queue>;

/// A seat of a stack of numbers that aren't 0. The last state has the newest one last.
pub type Stack = SmallSeat<kinds::Stack>;

/// A seat of a map from words to words. The last state has each key with its value, the oldest key first.
pub type Map = SmallSeat<kinds::Map>;

/// A seat of a book of sixteen accounts, each with a balance up to 999,999,999,999 that is 0 at the start.
pub type Book = SmallSeat<kinds::Book>;

/// A seat of a machine by its tables. The last state is the number of its state.
pub type Machine = SmallSeat<kinds::Machine>;

/// The seat makes no more calls: it has made all that it can, which are 2^50. Nothing is changed. Of a process's seat it also
/// says that the process was forked from that which claimed it.
#[derive(Clone, Copy, Debug, PartialEq, Eq)]
pub struct Spent;

impl fmt::Display for Spent {
    fn fmt(&self, out: &mut fmt::Formatter<'_>) -> fmt::Result {
        out.write_str("the seat has made all its calls")
    }
}

impl Error for Spent {}

/// Why nothing was put in. Nothing is changed.
#[derive(Clone, Copy, Debug, PartialEq, Eq)]
pub enum PutFault {
    /// There is no room.
    Full,
    /// The seat has made all the calls that it can make.
    Spent,
}

impl From<Spent> for PutFault {
    fn from(_: Spent) -> PutFault {
        PutFault::Spent
    }
}

impl fmt::Display for PutFault {
    fn fmt(&self, out: &mut fmt::Formatter<'_>) -> fmt::Result {
        match self {
            PutFault::Full => out.write_str("there is no room"),
            PutFault::Spent => Spent.fmt(out),
        }
    }
}

impl Error for PutFault {}

/// Why nothing was added to a counter of an array. Nothing is changed.
#[derive(Clone, Copy, Debug, PartialEq, Eq)]
pub enum CounterFault {
    /// There is no counter at this index.
    NoCounter,
    /// The seat has made all the calls that it can make.
    Spent,
}

impl From<Spent> for CounterFault {
    fn from(_: Spent) -> CounterFault {
        CounterFault::Spent
    }
}

impl fmt::Display for CounterFault {
    fn fmt(&self, out: &mut fmt::Formatter<'_>) -> fmt::Result {
        match self {
            CounterFault::NoCounter => out.write_str("there is no counter at this index"),
            CounterFault::Spent => Spent.fmt(out),
        }
    }
}

impl Error for CounterFault {}

/// Why a book is as it was.
#[derive(Clone, Copy, Debug, PartialEq, Eq)]
pub enum BookFault {
    /// An account isn't from 0 to 15.
    NoAccount,
    /// An amount is greater than 999,999,999,999.
    NoAmount,
    /// A balance would be too great.
    Over,
    /// A balance is too small.
    Short,
    /// The seat has made all the calls that it can make.
    Spent,
}

impl From<Spent> for BookFault {
    fn from(_: Spent) -> BookFault {
        BookFault::Spent
    }
}

impl fmt::Display for BookFault {
    fn fmt(&self, out: &mut fmt::Formatter<'_>) -> fmt::Result {
        out.write_str(match self {
            BookFault::NoAccount => "an account isn't from 0 to 15",
            BookFault::NoAmount => "an amount is greater than 999999999999",
            BookFault::Over => "a balance would be too great",
            BookFault::Short => "a balance is too small",
            BookFault::Spent => return Spent.fmt(out),
        })
    }
}

impl Error for BookFault {}

/// Another handle has the object: what was to close it comes back.
#[derive(Debug)]
pub struct Busy<T>(pub T);

impl<T> fmt::Display for Busy<T> {
    fn fmt(&self, out: &mut fmt::Formatter<'_>) -> fmt::Result {
        out.write_str("another handle has the object")
    }
}

impl<T: fmt::Debug> Error for Busy<T> {}

/// A handle of a small object, and how many words its states have.
#[derive(Debug)]
struct Held {
    handle: Handle,
    width: usize,
}

impl Held {
    fn close<K: Kind>(&mut self) -> Option<K::State> {
        let mut state = vec![0; self.width];
        self.handle.small_close(&mut state).ok()?;
        Some(K::state(state))
    }
}

/// An object that is shared, with the seats that are still to be given out.
#[derive(Debug)]
pub struct Small<K> {
    held: Held,
    kind: PhantomData<fn() -> K>,
}

impl<K: Kind> Small<K> {
    pub(crate) fn opened(width: usize, open: impl FnOnce(&mut Handle) -> u32) -> Result<Small<K>, Fault> {
        let handle = Handle::opened(open)?;
        Ok(Small { held: Held { handle, width }, kind: PhantomData })
    }

    /// The seat of the greatest process that has none yet.
    ///
    /// Errors: `NoSeat`, `Memory`. After either no seat is lost.
    pub fn seat(&mut self) -> Result<SmallSeat<K>, Fault> {
        let (handle, process) = self.held.handle.small_seat()?;
        Ok(SmallSeat { held: Held { handle, width: self.held.width }, process, version: 0, kind: PhantomData })
    }

    /// All seats that are left, that of the greatest process first.
    ///
    /// An `Err` has the object, and the seats that were had.
    pub fn into_seats(mut self) -> Result<Vec<SmallSeat<K>>, NotAllSmallSeats<K>> {
        let mut seats = Vec::new();
        loop {
            match self.seat() {
                Ok(seat) => seats.push(seat),
                Err(Fault::NoSeat) => return Ok(seats),
                Err(fault) => return Err(NotAllSmallSeats { fault, object: self, seats }),
            }
        }
    }

    /// Closes the object, if all its seats are dropped: the last state.
    pub fn close(mut self) -> Result<K::State, Busy<Small<K>>> {
        self.held.close::<K>().ok_or(Busy(self))
    }
}

/// Not all seats could be given out, since memory was refused.
#[derive(Debug)]
pub struct NotAllSmallSeats<K> {
    /// Why.
    pub fault: Fault,
    /// The object, which has the others.
    pub object: Small<K>,
    /// The seats that were given out.
    pub seats: Vec<SmallSeat<K>>,
}

impl<K> fmt::Display for NotAllSmallSeats<K> {
    fn fmt(&self, out: &mut fmt::Formatter<'_>) -> fmt::Result {
        write!(out, "{} seats were given out: {}", self.seats.len(), self.fault)
    }
}

impl<K: fmt::Debug> Error for NotAllSmallSeats<K> {}

impl<K> From<NotAllSmallSeats<K>> for Fault {
    fn from(refused: NotAllSmallSeats<K>) -> Fault {
        refused.fault
    }
}

/// A process of a small object, which makes its calls.
#[derive(Debug)]
pub struct SmallSeat<K> {
    held: Held,
    process: u64,
    version: u64,
    kind: PhantomData<fn() -> K>,
}

impl<K: Kind> SmallSeat<K> {
    /// Which process it is, from 0 to `n - 1`.
    pub fn process(&self) -> u64 {
        self.process
    }

    /// The version that the latest call of this seat was answered: one that the call is in, greater than each before.
    /// After a read without a call it is the one that was read, which may be that before. 0 where there was neither.
    pub fn version(&self) -> u64 {
        self.version
    }

    /// Whether a version has come: all later calls of this seat come after all calls that are in it then. By a law
    /// one that a call was answered has come, but no clause of this call says so: be ready for `false`.
    pub fn follows(&mut self, version: u64) -> bool {
        self.held.handle.small_follows(version).expect("a seat's handle has a seat")
    }

    /// What a call with the words of an invocation would be answered at the present state, without the call: the words of
    /// the reply are written, and the answer is the version that has the state. Nothing is stored in a shared word, and all
    /// calls of the seat are in that version. All later calls of the seat come after all calls that are in it.
    ///
    /// `None`: another version came meanwhile, and the reply is as it was. Ask again; who has to be answered within a bound
    /// makes a call. The words are those of the macros of `universal.h`, as 0 of a counter, whose number is the answer.
    ///
    /// Errors: `BadWidth`: these aren't as many words as those of the object; `Spent`.
    ///
    /// ```
    /// let mut seat = universal::small::Counter::open(1)?.seat()?;
    /// seat.add(5).unwrap();
    /// let mut number = [0];
    /// assert_eq!(seat.try_read(&[0], &mut number)?, Some(seat.version()));
    /// assert_eq!(number, [5]);
    /// # Ok::<(), universal::Fault>(())
    /// ```
    pub fn try_read(&mut self, invocation: &[u64], reply: &mut [u64]) -> Result<Option<u64>, Fault> {
        let found = self.held.handle.small_read(invocation, reply)?;
        self.version = found.unwrap_or(self.version);
        Ok(found)
    }

    /// Closes the object, if this is the last handle that has it: the last state.
    pub fn close(mut self) -> Result<K::State, Busy<SmallSeat<K>>> {
        self.held.close::<K>().ok_or(Busy(self))
    }

    /// How many counters it has, where it is of an array of them.
    fn count(&self) -> u64 {
        self.held.width as u64
    }

    pub(crate) fn apply_into(&mut self, invocation: &[u64], reply: &mut [u64]) -> Result<(), Fault> {
        self.version = self.held.handle.small_apply_into(invocation, reply)?;
        Ok(())
    }

    fn apply<const REPLY: usize>(&mut self, invocation: &[u64]) -> Result<[u64; REPLY], Spent> {
        let (reply, version) = self.held.handle.small_apply(invocation).map_err(|_| Spent)?;
        self.version = version;
        Ok(reply)
    }

    /// A call that changes nothing: up to three reads, and where another version came each time the call.
    fn look<const REPLY: usize>(&mut self, invocation: &[u64]) -> Result<[u64; REPLY], Spent> {
        let mut reply = [0; REPLY];
        for _ in 0..3 {
            if self.try_read(invocation, &mut reply).map_err(|_| Spent)?.is_some() {
                return Ok(reply);
            }
        }
        self.apply(invocation)
    }
}

impl Counter {
    /// A counter for `n` processes. Errors: `BadCount`, `Memory`.
    pub fn open(n: u64) -> Result<Small<kinds::Counter>, Fault> {
        Small::opened(1, |object| raw::open_counter(n, object))
    }
}

impl Register {
    /// A register for `n` processes. Errors: `BadCount`, `Memory`.
    pub fn open(n: u64) -> Result<Small<kinds::Register>, Fault> {
        Small::opened(1, |object| raw::open_register64(n, object))
    }
}

impl Counters {
    /// So many counters for `n` processes; a copy is so many words. Errors: `BadCount`; `BadCapacity` for more than 65,536 counters; `Memory`.
    pub fn open(n: u64, count: u32) -> Result<Small<kinds::Counters>, Fault> {
        Small::opened(count as usize, |object| raw::open_counters(n, count, object))
    }
}

impl Queue {
    /// A queue of at most `capacity` numbers for `n` processes; a copy is `2 + capacity` words.
    /// Errors: `BadCount`; `BadCapacity` for more than 65,534 numbers; `Memory`.
    pub fn open(n: u64, capacity: u32) -> Result<Small<kinds::Queue>, Fault> {
        Small::opened(2 + capacity as usize, |object| raw::open_queue(n, capacity, object))
    }
}

impl Stack {
    /// A stack of at most `capacity` numbers for `n` processes; a copy is `1 + capacity` words.
    /// Errors: those of [`Queue::open`], with `BadCapacity` for more than 65,535 numbers.
    pub fn open(n: u64, capacity: u32) -> Result<Small<kinds::Stack>, Fault> {
        Small::opened(1 + capacity as usize, |object| raw::open_stack(n, capacity, object))
    }
}

impl Map {
    /// A map of at most `capacity` keys for `n` processes; a copy is `1 + 2 * capacity` words.
    /// Errors: `BadCount`; `BadCapacity` for more than 32,767 keys; `Memory`.
    pub fn open(n: u64, capacity: u32) -> Result<Small<kinds::Map>, Fault> {
        Small::opened(1 + 2 * capacity as usize, |object| raw::open_map(n, capacity, object))
    }
}

impl Book {
    /// A book for `n` processes. Errors: `BadCount`, `Memory`.
    pub fn open(n: u64) -> Result<Small<kinds::Book>, Fault> {
        Small::opened(16, |object| raw::open_book(n, object))
    }
}

impl Machine {
    /// The machine of two tables, which are copied, for `n` processes. Errors: `BadTable`, `BadCount`, `Memory`.
    pub fn open(n: u64, tables: crate::Machine<'_>) -> Result<Small<kinds::Machine>, Fault> {
        Small::opened(1, |object| raw::open_small_machine(n, tables, object))
    }
}

/// The calls of each kind of object, by the words of invocations and replies: of the seats of a thread, and of a process.
/// What changes nothing goes by a method of its own.
macro_rules! calls {
    ($seat:ident, $look:ident) => {
        impl<K: Kind> $seat<K> {
            fn ask(&mut self, invocation: &[u64]) -> Result<u64, Spent> {
                let [reply] = self.apply(invocation)?;
                Ok(reply)
            }

            fn put_in(&mut self, number: NonZeroU64) -> Result<(), PutFault> {
                match self.ask(&[number.get()])? {
                    0 => Err(PutFault::Full),
                    _ => Ok(()),
                }
            }
        }

        impl $seat<kinds::Counter> {
            /// Adds a number: the sum before.
            pub fn add(&mut self, number: u64) -> Result<u64, Spent> {
                self.ask(&[number])
            }
        }

        impl $seat<kinds::Register> {
            /// The value.
            pub fn read(&mut self) -> Result<u64, Spent> {
                let [value] = self.$look(&[0, 0, 0])?;
                Ok(value)
            }

            /// Writes a value: the one before.
            pub fn write(&mut self, value: u64) -> Result<u64, Spent> {
                self.ask(&[1, value, 0])
            }

            /// Writes a value where the register has the expected one: the value before. So it has written where that is the
            /// expected one.
            pub fn compare_exchange(&mut self, expected: u64, value: u64) -> Result<u64, Spent> {
                self.ask(&[2, expected, value])
            }
        }

        impl $seat<kinds::Counters> {
            /// Adds a number to the counter at an index: the sum before.
            pub fn add(&mut self, index: u64, number: u64) -> Result<u64, CounterFault> {
                if index >= self.count() {
                    return Err(CounterFault::NoCounter);
                }
                Ok(self.ask(&[index, number])?)
            }
        }

        impl $seat<kinds::Queue> {
            /// Puts a number in.
            pub fn put(&mut self, number: NonZeroU64) -> Result<(), PutFault> {
                self.put_in(number)
            }

            /// Takes the oldest number out.
            pub fn take(&mut self) -> Result<Option<NonZeroU64>, Spent> {
                Ok(NonZeroU64::new(self.ask(&[0])?))
            }
        }

        impl $seat<kinds::Stack> {
            /// Puts a number on.
            pub fn push(&mut self, number: NonZeroU64) -> Result<(), PutFault> {
                self.put_in(number)
            }

            /// Takes the newest number off.
            pub fn pop(&mut self) -> Result<Option<NonZeroU64>, Spent> {
                Ok(NonZeroU64::new(self.ask(&[0])?))
            }
        }

        impl $seat<kinds::Map> {
            /// The value of a key.
            pub fn get(&mut self, key: u64) -> Result<Option<u64>, Spent> {
                let [kind, value] = self.$look(&[0, key, 0])?;
                Ok((kind == 1).then_some(value))
            }

            /// Gives a key a value: the value before.
            pub fn insert(&mut self, key: u64, value: u64) -> Result<Option<u64>, PutFault> {
                let [kind, before] = self.apply(&[1, key, value])?;
                match kind {
                    2 => Err(PutFault::Full),
                    _ => Ok((kind == 1).then_some(before)),
                }
            }

            /// Takes a key out: its value.
            pub fn remove(&mut self, key: u64) -> Result<Option<u64>, Spent> {
                let [kind, value] = self.apply(&[2, key, 0])?;
                Ok((kind == 1).then_some(value))
            }
        }

        impl $seat<kinds::Book> {
            fn call(&mut self, operation: u64, accounts: [u8; 2], amount: u64) -> Result<u64, BookFault> {
                if accounts.iter().any(|account| *account > 15) {
                    return Err(BookFault::NoAccount);
                }
                if amount > 999_999_999_999 {
                    return Err(BookFault::NoAmount);
                }
                let [kind, number] = self.apply(&[operation, accounts[0].into(), accounts[1].into(), amount])?;
                match kind {
                    1 => Err(BookFault::Over),
                    2 => Err(BookFault::Short),
                    _ => Ok(number),
                }
            }

            /// Puts an amount into an account: its balance. Error: each of [`BookFault`] but `Short`.
            pub fn deposit(&mut self, account: u8, amount: u64) -> Result<u64, BookFault> {
                self.call(0, [account, 0], amount)
            }

            /// Takes an amount out of an account: its balance. Error: each of [`BookFault`] but `Over`.
            pub fn withdraw(&mut self, account: u8, amount: u64) -> Result<u64, BookFault> {
                self.call(1, [account, 0], amount)
            }

            /// Takes an amount out of an account, and puts it into another one.
            pub fn transfer(&mut self, from: u8, to: u8, amount: u64) -> Result<(), BookFault> {
                self.call(2, [from, to], amount).map(drop)
            }

            /// The sum of all balances.
            pub fn total(&mut self) -> Result<u64, Spent> {
                let [_, sum] = self.$look(&[3, 0, 0, 0])?;
                Ok(sum)
            }
        }

        impl $seat<kinds::Machine> {
            /// A call: the reply. An invocation past the tables is the last one.
            pub fn call(&mut self, invocation: u64) -> Result<u64, Spent> {
                self.ask(&[invocation])
            }
        }
    };
}

pub(crate) use calls;
calls!(SmallSeat, look);
