//! Shared objects that no thread can hold up.
//!
//! [`small`] has a counter, a register, a queue, a stack, a map and more on words of 64 bits, whose seats make 2^50 calls
//! each at most, and [`program`] has objects of your own. A [`Log`] is a tally, a sticky register, a register or a machine of
//! two tables on words of 31 bits, and tells all its calls in the end. In [`shared`] processes share the objects of [`small`],
//! and any may be killed.
//!
//! A [`Log`] is an object that `n` processes share. It gives out a [`Seat`] for each, and a seat makes up to `k`
//! calls, from any thread. A call takes no lock and no memory, as tests see, and ends within `12n + 15` steps on shared words,
//! whatever the other threads do. The last seat closes the log and gets all calls in their one order.
//!
//! The functions behind this crate are proved; this crate is not. Its types keep what they ask for: a seat is `&mut`
//! in a call, so no two threads are in one at a time, and it is closed by value.
//!
//! ```
//! use universal::Log;
//!
//! let mut seats = Log::tally(4, 1000)?.into_seats()?;
//! std::thread::scope(|scope| {
//!     for seat in &mut seats {
//!         scope.spawn(|| (0..1000).for_each(|_| drop(seat.apply(1).unwrap())));
//!     }
//! });
//! let last = seats.pop().unwrap();
//! drop(seats);
//! assert_eq!(last.close().unwrap().len(), 4000);
//! # Ok::<(), universal::Fault>(())
//! ```
#![warn(missing_docs)]

pub mod program;
mod raw;
pub mod register;
pub mod shared;
pub mod small;

use raw::Handle;
pub use raw::{Call, Entry, Reply};
use std::error::Error;
use std::fmt;

/// Why a call was refused.
#[derive(Clone, Copy, Debug, PartialEq, Eq)]
#[non_exhaustive]
pub enum Fault {
    /// The number of processes isn't from 1 to 64.
    BadCount,
    /// The number of calls of each process isn't from 1 to 4096.
    BadRow,
    /// Memory was refused.
    Memory,
    /// The seat has made all its calls.
    Spent,
    /// All seats are given out.
    NoSeat,
    /// Another handle has the log or the object.
    Busy,
    /// The handle hasn't what the call is for. No call of this crate's types gets it.
    WrongHandle,
    /// The tables aren't those of a machine.
    BadTable,
    /// A state would have more than 65,536 words; of a program also an invocation or a reply, or the reply none.
    BadCapacity,
    /// These aren't as many words as those of the object.
    BadWidth,
    /// An instruction of a program has no operation that there is. No call of this crate's types gets it.
    NoOperation,
    /// It names a register that there isn't.
    NoRegister,
    /// Its place lies outside its area.
    NoPlace,
    /// It would go on at itself or at an earlier instruction.
    JumpsBack,
    /// It would go on past the end.
    NoTarget,
    /// Its loop would go back to a later instruction.
    GoesForward,
    /// There are more than 16 loops.
    NoLoop,
    /// A program has more than 4,096 instructions, or more than 2^32 steps in a call.
    TooLong,
}

impl Fault {
    /// [`Fault::Spent`], by the name that it had until 0.3.0: it is of no queue or map.
    #[allow(non_upper_case_globals)]
    pub const Full: Fault = Fault::Spent;

    fn of(status: u32) -> Result<(), Fault> {
        Err(match status {
            0 => return Ok(()),
            1 => Fault::BadCount,
            2 => Fault::BadRow,
            3 => Fault::Memory,
            4 => Fault::Spent,
            5 => Fault::NoSeat,
            6 => Fault::Busy,
            8 => Fault::BadTable,
            10 => Fault::BadCapacity,
            11 => Fault::BadWidth,
            12 => Fault::NoOperation,
            13 => Fault::NoRegister,
            14 => Fault::NoPlace,
            15 => Fault::JumpsBack,
            16 => Fault::NoTarget,
            17 => Fault::GoesForward,
            18 => Fault::NoLoop,
            19 => Fault::TooLong,
            _ => Fault::WrongHandle,
        })
    }

    /// Whether it tells which instruction of a program is wrong.
    fn is_of_an_instruction(self) -> bool {
        use Fault::{GoesForward, JumpsBack, NoLoop, NoOperation, NoPlace, NoRegister, NoTarget};
        matches!(self, NoOperation | NoRegister | NoPlace | JumpsBack | NoTarget | GoesForward | NoLoop)
    }
}

impl fmt::Display for Fault {
    fn fmt(&self, out: &mut fmt::Formatter<'_>) -> fmt::Result {
        out.write_str(match self {
            Fault::BadCount => "there aren't from 1 to 64 processes",
            Fault::BadRow => "there aren't from 1 to 4096 calls for each process",
            Fault::Memory => "memory was refused",
            Fault::Spent => "the seat has made all its calls",
            Fault::NoSeat => "all seats are given out",
            Fault::Busy => "another handle has the log or the object",
            Fault::WrongHandle => "the handle hasn't what the call is for",
            Fault::BadTable => "the tables aren't those of a machine",
            Fault::BadCapacity => "a state, an invocation or a reply would have more than 65536 words, or a reply none",
            Fault::BadWidth => "these aren't as many words as those of the object",
            Fault::NoOperation => "there is no such operation",
            Fault::NoRegister => "there is no such register",
            Fault::NoPlace => "there is no word at that place",
            Fault::JumpsBack => "it doesn't lead to a later instruction",
            Fault::NoTarget => "it leads past the end",
            Fault::GoesForward => "a loop goes back to a later instruction",
            Fault::NoLoop => "there are more than 16 loops",
            Fault::TooLong => "more than 4096 instructions, or more than 2^32 steps in a call",
        })
    }
}

impl Error for Fault {}

/// Any object of finitely many states, by its tables.
///
/// Its states are the numbers below `states`, of which 0 is the start; its invocations those below `invocations`, and
/// each greater one is the last of them. The entry of a state `s` and an invocation `i` is at `s * invocations + i`.
#[derive(Clone, Copy, Debug)]
pub struct Machine<'a> {
    /// How many states there are, from 1 to 2^31.
    pub states: u32,
    /// How many invocations there are, at least 1.
    pub invocations: u32,
    /// The state after each call, each below `states`.
    pub next: &'a [u32],
    /// The reply to each call, each below 2^31.
    pub reply: &'a [u32],
}

/// An object that is shared, with the seats that are still to be given out.
#[derive(Debug)]
pub struct Log(Handle);

impl Log {
    /// A sum, 0 at the start: a call adds its number modulo 2^31, and is answered the sum before.
    ///
    /// Errors, in this order: `BadCount`, `BadRow`, `Memory`.
    pub fn tally(n: u64, k: u64) -> Result<Log, Fault> {
        Handle::opened(|log| raw::open_tally(n, k, log)).map(Log)
    }

    /// A register that keeps the first value: a call from 1 to 10^9 sets it if it is unset, and each other one reads.
    /// The reply is the value afterwards, 0 for unset. The errors are those of [`Log::tally`].
    pub fn sticky(n: u64, k: u64) -> Result<Log, Fault> {
        Handle::opened(|log| raw::open_sticky(n, k, log)).map(Log)
    }

    /// A register of 31 bits, 0 at the start, with the calls of [`register`]. The errors are those of [`Log::tally`].
    pub fn register(n: u64, k: u64) -> Result<Log, Fault> {
        Handle::opened(|log| raw::open_register(n, k, log)).map(Log)
    }

    /// The machine of two tables, which are copied.
    ///
    /// Errors: `BadTable` before those of [`Log::tally`].
    pub fn machine(n: u64, k: u64, machine: Machine<'_>) -> Result<Log, Fault> {
        Handle::opened(|log| raw::open_machine(n, k, machine, log)).map(Log)
    }

    /// The seat of the greatest process that has none yet.
    ///
    /// Errors: `NoSeat`, `Memory`. After either no seat is lost.
    pub fn seat(&mut self) -> Result<Seat, Fault> {
        let (handle, process) = self.0.seat()?;
        Ok(Seat { handle, process })
    }

    /// All seats that are left, that of the greatest process first.
    ///
    /// An `Err` has the log, and the seats that were had.
    pub fn into_seats(mut self) -> Result<Vec<Seat>, NotAllSeats> {
        let mut seats = Vec::new();
        loop {
            match self.seat() {
                Ok(seat) => seats.push(seat),
                Err(Fault::NoSeat) => return Ok(seats),
                Err(fault) => return Err(NotAllSeats { fault, log: self, seats }),
            }
        }
    }
}

/// Not all seats could be given out, since memory was refused.
#[derive(Debug)]
pub struct NotAllSeats {
    /// Why.
    pub fault: Fault,
    /// The log, which has the others.
    pub log: Log,
    /// The seats that were given out.
    pub seats: Vec<Seat>,
}

impl fmt::Display for NotAllSeats {
    fn fmt(&self, out: &mut fmt::Formatter<'_>) -> fmt::Result {
        write!(out, "{} seats were given out: {}", self.seats.len(), self.fault)
    }
}

impl Error for NotAllSeats {}

impl From<NotAllSeats> for Fault {
    fn from(refused: NotAllSeats) -> Fault {
        refused.fault
    }
}

/// Why a log was not closed.
#[derive(Debug)]
#[non_exhaustive]
pub enum NotClosed {
    /// Another handle has the log: the seat comes back.
    Busy(Seat),
    /// Memory was refused: the log is closed, and is still to be read.
    Memory(Unread),
}

impl fmt::Display for NotClosed {
    fn fmt(&self, out: &mut fmt::Formatter<'_>) -> fmt::Result {
        out.write_str(match self {
            NotClosed::Busy(_) => "another handle has the log",
            NotClosed::Memory(_) => "memory was refused: the log is closed, and is still to be read",
        })
    }
}

impl Error for NotClosed {}

/// A process of a log, which makes its calls.
#[derive(Debug)]
pub struct Seat {
    handle: Handle,
    process: u64,
}

impl Seat {
    /// Which process it is, from 0 to `n - 1`.
    pub fn process(&self) -> u64 {
        self.process
    }

    /// A call.
    ///
    /// Error: `Spent`, and nothing is changed.
    pub fn apply(&mut self, inv: u64) -> Result<Reply, Fault> {
        self.handle.apply(inv)
    }

    /// Asks whether the call `nth`, from 0, of a process stands in the log. `true`: it does, and all later calls of this
    /// seat come after it, in the closed log too. By a law a call that has returned
    /// does, but no clause of this call says so: be ready for `false`.
    pub fn follows(&mut self, process: u64, nth: u64) -> bool {
        self.handle.follows(process, nth).expect("a seat's handle has a seat")
    }

    /// Closes the log, if this is the last handle that has it: all calls, in their order.
    pub fn close(self) -> Result<Vec<Entry>, NotClosed> {
        Ok(self.finish()?.entries())
    }

    /// Closes the log, if this is the last handle that has it.
    pub fn finish(mut self) -> Result<Closed, NotClosed> {
        match self.handle.close() {
            Ok(()) => Ok(Closed(self.handle)),
            Err(Fault::Busy) => Err(NotClosed::Busy(self)),
            Err(_) => Err(NotClosed::Memory(Unread(self.handle))),
        }
    }
}

/// A closed log that is still to be read, since memory was refused.
#[derive(Debug)]
pub struct Unread(Handle);

impl Unread {
    /// Reads the log. Memory may be refused again.
    pub fn finish(mut self) -> Result<Closed, Unread> {
        match self.0.close() {
            Ok(()) => Ok(Closed(self.0)),
            Err(_) => Err(self),
        }
    }
}

/// A closed log.
#[derive(Debug)]
pub struct Closed(Handle);

impl Closed {
    /// All calls, in their order.
    pub fn entries(&mut self) -> Vec<Entry> {
        self.0.read().expect("a closed log has entries")
    }

    /// Whether the log has exactly these calls of a process, in their order, each with its reply. That it has those of
    /// the process whose seat closed it is proved; of the others this tells a caller who keeps what they were told.
    ///
    /// An `Err` is the number, from 0, of the first call in which they differ.
    pub fn compare(&mut self, process: u64, calls: &[Call]) -> Result<(), u64> {
        self.0.compare(process, calls).map_or(Ok(()), Err)
    }
}
