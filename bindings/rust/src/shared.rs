//! Objects on words of 64 bits that processes of the operating system share, and that no dead one holds up.
//!
//! A process may be killed at any instruction: the calls of the others return as before. A [`SharedSeat`] whose process died can be
//! claimed anew, and a claim tells how many calls its owners made, with the words of the last one and of its reply ([`Last`]). So no
//! call is made twice, or half; one that hadn't begun is made by nobody, until who claims the seat makes it. Linux on
//! x86-64 alone.
//!
//! ```
//! use std::num::NonZeroU64;
//! use universal::shared::{Queue, Shared};
//!
//! let jobs: Shared<Queue> = Shared::<Queue>::create(None, 8, 100)?; // or a name, and `attach` in each other process
//! let (mut seat, last) = jobs.claim(None)?;
//! assert_eq!(last.made, 0);
//! seat.put(NonZeroU64::MIN).unwrap();
//! assert_eq!(seat.take().unwrap(), Some(NonZeroU64::MIN));
//! # Ok::<(), universal::shared::SharedFault>(())
//! ```
//!
//! The code of the objects is proved; this module and `universal_shared.c` are tested. A forked child has its parent's objects and
//! none of its seats: a call by one is [`Spent`].

use crate::program::Program;
pub use crate::small::kinds::{Book, Counter, Counters, Machine, Map, Program as Own, Queue, Register, Stack};
use crate::small::{calls, kinds, BookFault, CounterFault, Kind, PutFault, Spent};
use crate::Fault;
use std::error::Error;
use std::ffi::{c_char, c_void, CString};
use std::fmt;
use std::io;
use std::marker::PhantomData;
use std::num::NonZeroU64;
use std::os::unix::ffi::OsStrExt;
use std::path::Path;
use std::ptr::{null, null_mut, NonNull};

#[repr(C)]
struct RawKind {
    object: u32,
    capacity: u32,
    states: u32,
    invocations: u32,
    next: *const u32,
    reply: *const u32,
    code: *const u64,
    count: usize,
    start: *const u64,
    words: usize,
    invocation: u64,
    answer: u64,
}

#[repr(C)]
#[derive(Default)]
struct RawLast {
    process: u64,
    was: u64,
    made: u64,
    ended: u64,
    version: u64,
    invocation: [u64; 4],
    reply: [u64; 2],
    is_next: u64,
    next: [u64; 4],
}

const _: () = assert!(size_of::<RawKind>() == 80 && size_of::<RawLast>() == 128);

type Make = unsafe extern "C" fn(name: *const c_char, kind: &RawKind, n: u64, segment: &mut *mut c_void) -> u32;

extern "C" {
    fn universal_shared_create_named(name: *const c_char, kind: &RawKind, n: u64, segment: &mut *mut c_void) -> u32;
    fn universal_shared_attach_named(name: *const c_char, kind: &RawKind, n: u64, segment: &mut *mut c_void) -> u32;
    fn universal_shared_unlink(name: *const c_char) -> u32;
    fn universal_shared_detach(segment: *mut c_void);
    fn universal_shared_claim(segment: *mut c_void, process: i64, seat: &mut *mut c_void, last: &mut RawLast) -> u32;
    fn universal_shared_apply(
        seat: *mut c_void,
        invocation: *const u64,
        invocation_count: usize,
        reply: *mut u64,
        reply_count: usize,
        version: &mut u64,
    ) -> u32;
    fn universal_shared_made(seat: *const c_void) -> u64;
    fn universal_shared_release(seat: *mut c_void);
}

/// Why an object of processes was not made or attached, or a seat not claimed.
#[derive(Debug)]
#[non_exhaustive]
pub enum SharedFault {
    /// As of the objects of threads; `NoSeat` where each seat has a living owner, or there is none of this number.
    Object(Fault),
    /// The file is no segment, or not a whole one.
    NotASegment,
    /// It was made by another version or build of the library.
    OtherLibrary,
    /// It has another kind or another number of seats.
    OtherObject,
    /// Its address is taken in this process.
    Address,
    /// The seat has a living owner.
    Taken,
    /// The system refused: `AlreadyExists` where a name is taken, `NotFound` where there is none.
    System(io::Error),
}

impl SharedFault {
    fn of(status: u32) -> Result<(), SharedFault> {
        Err(match status {
            20 | 27 => SharedFault::NotASegment,
            21 => SharedFault::OtherLibrary,
            22 | 26 => SharedFault::OtherObject,
            23 => SharedFault::Address,
            24 => SharedFault::System(io::Error::last_os_error()),
            25 => SharedFault::Taken,
            _ => return Fault::of(status).map_err(SharedFault::Object),
        })
    }
}

impl fmt::Display for SharedFault {
    fn fmt(&self, out: &mut fmt::Formatter<'_>) -> fmt::Result {
        out.write_str(match self {
            SharedFault::Object(fault) => return fault.fmt(out),
            SharedFault::NotASegment => "the file is no segment, or not a whole one",
            SharedFault::OtherLibrary => "the segment was made by another version or build of the library",
            SharedFault::OtherObject => "the segment has another kind or another number of seats",
            SharedFault::Address => "the segment's address is taken in this process",
            SharedFault::Taken => "the seat has a living owner",
            SharedFault::System(error) => return error.fmt(out),
        })
    }
}

impl Error for SharedFault {}

/// What became of a seat before it was claimed.
#[derive(Clone, Copy, Debug, PartialEq, Eq)]
pub enum Was {
    /// It had no owner yet.
    New,
    /// Its owner released it.
    Released,
    /// Its owner died.
    Died,
}

/// What who claims a seat is told of the calls that its owners made.
///
/// A call is made when it has taken effect and its reply stands here. A call that its owner died in counts as made where it had
/// begun: the claim ends it. All words are told that an object can have; those of a narrower one are 0.
#[derive(Clone, Debug, PartialEq, Eq)]
pub struct Last {
    /// What became of the seat before.
    pub was: Was,
    /// How many calls were made.
    pub made: u64,
    /// Whether this claim ended the last of them, whose reply nobody was told. `false` says nothing.
    pub ended: bool,
    /// A version that the last call is in; 0 where none was made.
    pub version: u64,
    /// The words of the last call.
    pub invocation: [u64; 4],
    /// And of its reply.
    pub reply: [u64; 2],
    /// The words of a call that was asked for and hadn't begun: it has no effect.
    pub next: Option<[u64; 4]>,
}

/// An object that processes share. It is let go as it is dropped; its seats stay.
#[derive(Debug)]
pub struct Shared<K> {
    at: NonNull<c_void>,
    capacity: u32,
    kind: PhantomData<fn() -> K>,
}

// The library's functions on a segment take a lock of the process.
unsafe impl<K> Send for Shared<K> {}
unsafe impl<K> Sync for Shared<K> {}

fn text(name: &Path) -> Result<CString, SharedFault> {
    let name = CString::new(name.as_os_str().as_bytes());
    name.map_err(|null| SharedFault::System(io::Error::new(io::ErrorKind::InvalidInput, null)))
}

impl<K: Kind> Shared<K> {
    fn made(make: Make, name: Option<&Path>, kind: RawKind, seats: u64) -> Result<Shared<K>, SharedFault> {
        let name = name.map(text).transpose()?;
        let mut at = null_mut();
        // SAFETY: the name and the tables are borrowed for the call.
        SharedFault::of(unsafe { make(name.as_ref().map_or(null(), |name| name.as_ptr()), &kind, seats, &mut at) })?;
        let at = NonNull::new(at).expect("a segment that was made is somewhere");
        Ok(Shared { at, capacity: kind.capacity, kind: PhantomData })
    }

    /// Claims the seat of this number, or any that has no living owner, and tells what calls its owners made.
    pub fn claim(&self, process: Option<u32>) -> Result<(SharedSeat<K>, Last), SharedFault> {
        let (mut at, mut last) = (null_mut(), RawLast::default());
        // SAFETY: the segment is attached as long as this is there.
        SharedFault::of(unsafe {
            universal_shared_claim(self.at.as_ptr(), process.map_or(-1, i64::from), &mut at, &mut last)
        })?;
        let at = NonNull::new(at).expect("a seat that was claimed is somewhere");
        let (process, version) = (last.process, last.version);
        let seat = SharedSeat { at, capacity: self.capacity, process, version, kind: PhantomData };
        let was = [Was::New, Was::Released, Was::Died][last.was.min(2) as usize];
        let next = (last.is_next != 0).then_some(last.next);
        let RawLast { made, ended, version, invocation, reply, .. } = last;
        Ok((seat, Last { was, made, ended: ended != 0, version, invocation, reply, next }))
    }
}

impl<K> Drop for Shared<K> {
    fn drop(&mut self) {
        // SAFETY: it was attached once.
        unsafe { universal_shared_detach(self.at.as_ptr()) }
    }
}

/// Takes the name of an object away. Who has the object keeps it; its memory goes with the last.
pub fn unlink(name: impl AsRef<Path>) -> Result<(), SharedFault> {
    let name = text(name.as_ref())?;
    // SAFETY: the name is borrowed for the call.
    SharedFault::of(unsafe { universal_shared_unlink(name.as_ptr()) })
}

/// A seat that this process has claimed. It is given back as it is dropped.
#[derive(Debug)]
pub struct SharedSeat<K> {
    at: NonNull<c_void>,
    capacity: u32,
    process: u64,
    version: u64,
    kind: PhantomData<fn() -> K>,
}

// By `&mut` one thread at a time is in a call, and by `&` numbers are read that this seat's calls alone change.
unsafe impl<K> Send for SharedSeat<K> {}
unsafe impl<K> Sync for SharedSeat<K> {}

impl<K: Kind> SharedSeat<K> {
    /// Which seat it is, from 0 on.
    pub fn process(&self) -> u64 {
        self.process
    }

    /// A version that the latest call of this seat is in: greater than each before. 0 where there was none.
    pub fn version(&self) -> u64 {
        self.version
    }

    /// How many calls the seat has made, by all its owners.
    pub fn made(&self) -> u64 {
        // SAFETY: the seat is claimed as long as this is there.
        unsafe { universal_shared_made(self.at.as_ptr()) }
    }

    /// How many counters it has, where it is of an array of them.
    fn count(&self) -> u64 {
        self.capacity.into()
    }

    fn apply_into(&mut self, invocation: &[u64], reply: &mut [u64]) -> Result<(), Fault> {
        let (words, count) = (invocation.as_ptr(), invocation.len());
        // SAFETY: both slices are borrowed for the call, and so is the seat.
        Fault::of(unsafe {
            let (at, replies) = (reply.as_mut_ptr(), reply.len());
            universal_shared_apply(self.at.as_ptr(), words, count, at, replies, &mut self.version)
        })
    }

    fn apply<const REPLY: usize>(&mut self, invocation: &[u64]) -> Result<[u64; REPLY], Spent> {
        let mut reply = [0; REPLY];
        self.apply_into(invocation, &mut reply).map_err(|_| Spent)?;
        Ok(reply)
    }
}

impl<K> Drop for SharedSeat<K> {
    fn drop(&mut self) {
        // SAFETY: it was claimed once.
        unsafe { universal_shared_release(self.at.as_ptr()) }
    }
}

calls!(SharedSeat, apply);

macro_rules! made {
    ($($name:ident $object:literal $text:literal ($($size:ident)?);)*) => {$(
        impl Shared<kinds::$name> {
            #[doc = concat!("Makes ", $text, " for so many seats, under a name, or with none for forked children alone.")]
            pub fn create(name: Option<&Path>, seats: u64, $($size: u32)?) -> Result<Self, SharedFault> {
                Self::made(universal_shared_create_named, name, RawKind::of($object, 0 $(+ $size)?), seats)
            }

            #[doc = concat!("Attaches ", $text, " that was made.")]
            pub fn attach(name: &Path, seats: u64, $($size: u32)?) -> Result<Self, SharedFault> {
                Self::made(universal_shared_attach_named, Some(name), RawKind::of($object, 0 $(+ $size)?), seats)
            }
        }
    )*};
}

made! {
    Counter 1 "a counter" ();
    Register 2 "a register" ();
    Counters 3 "so many counters" (count);
    Queue 4 "a queue of this capacity" (capacity);
    Stack 5 "a stack of this capacity" (capacity);
    Map 6 "a map of this capacity" (capacity);
    Book 7 "a book" ();
}

impl RawKind {
    fn of(object: u32, capacity: u32) -> RawKind {
        RawKind {
            object,
            capacity,
            states: 0,
            invocations: 0,
            next: null(),
            reply: null(),
            code: null(),
            count: 0,
            start: null(),
            words: 0,
            invocation: 0,
            answer: 0,
        }
    }

    fn of_tables(tables: crate::Machine<'_>) -> Result<RawKind, SharedFault> {
        let crate::Machine { states, invocations, next, reply } = tables;
        let entries = states as usize * invocations as usize;
        if next.len() != entries || reply.len() != entries {
            return Err(SharedFault::Object(Fault::BadTable));
        }
        Ok(RawKind { states, invocations, next: next.as_ptr(), reply: reply.as_ptr(), ..RawKind::of(8, 0) })
    }
}

impl Shared<kinds::Machine> {
    /// Makes the machine of two tables, for so many seats, under a name, or with none for forked children alone.
    pub fn create(name: Option<&Path>, seats: u64, tables: crate::Machine<'_>) -> Result<Self, SharedFault> {
        Self::made(universal_shared_create_named, name, RawKind::of_tables(tables)?, seats)
    }

    /// Attaches the machine of two tables that was made.
    pub fn attach(name: &Path, seats: u64, tables: crate::Machine<'_>) -> Result<Self, SharedFault> {
        Self::made(universal_shared_attach_named, Some(name), RawKind::of_tables(tables)?, seats)
    }
}

impl Shared<Own> {
    fn of(make: Make, name: Option<&Path>, seats: u64, program: &Program) -> Result<Self, SharedFault> {
        let (code, start) = (program.words(), &program.start);
        let kind = RawKind {
            code: code.as_ptr(),
            count: code.len() / 5,
            start: start.as_ptr(),
            words: start.len(),
            invocation: program.invocation,
            answer: program.reply,
            ..RawKind::of(9, 0)
        };
        Self::made(make, name, kind, seats)
    }

    /// Makes the object of a program, whose invocation has at most 4 words and its reply at most 2 (`BadCapacity` else), for so many
    /// seats, under a name, or with none for forked children alone.
    pub fn create(name: Option<&Path>, seats: u64, program: &Program) -> Result<Self, SharedFault> {
        Self::of(universal_shared_create_named, name, seats, program)
    }

    /// Attaches the object of this program that was made.
    pub fn attach(name: &Path, seats: u64, program: &Program) -> Result<Self, SharedFault> {
        Self::of(universal_shared_attach_named, Some(name), seats, program)
    }
}

impl SharedSeat<Own> {
    /// A call with the words of an invocation, which writes those of the reply.
    ///
    /// Errors: `BadWidth` where these aren't as many words as the program has; `Spent` where the seat has made all its calls;
    /// `WrongHandle` where the process was forked from that which claimed it. After each nothing is changed.
    pub fn call(&mut self, invocation: &[u64], reply: &mut [u64]) -> Result<(), Fault> {
        self.apply_into(invocation, reply)
    }
}
