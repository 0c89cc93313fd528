//! The functions of `universal.h`, over a handle that is dropped once.
use crate::{Fault, Machine};
use std::ffi::c_void;
use std::ptr::{null_mut, NonNull};

/// What a handle of `universal.h` is. It is in one call at a time: each call takes it by `&mut`.
#[repr(C)]
#[derive(Debug)]
pub(crate) struct Handle {
    at: *mut c_void,
}

// `Send` of what a handle has is proved in the library.
unsafe impl Send for Handle {}

// By `&` nothing is done with a handle but to print where it points.
unsafe impl Sync for Handle {}

/// A function of a small object that writes a reply to an invocation, and a version.
type Ask = unsafe extern "C" fn(&mut Handle, *const u64, usize, *mut u64, usize, &mut u64) -> u32;

/// A reply.
#[repr(C)]
#[derive(Clone, Copy, Debug, Default, PartialEq, Eq)]
pub struct Reply {
    /// What the object answered.
    pub reply: u32,
    /// How many turns of the construction's loop the call took.
    pub turns: u32,
}

/// A call as a caller made it, with what it was answered.
#[repr(C)]
#[derive(Clone, Copy, Debug, Default, PartialEq, Eq)]
pub struct Call {
    /// What was invoked.
    pub inv: u64,
    /// What was answered. Its turns are of no account where calls are compared.
    pub answer: Reply,
}

/// A call that took effect.
#[repr(C)]
#[derive(Clone, Copy, Debug, Default, PartialEq, Eq)]
pub struct Entry {
    /// Its number in the log; the first entry has 2.
    pub seq: u64,
    /// Whose call it was.
    pub process: u64,
    /// The how many-th call of its process it was, from 0.
    pub nth: u64,
    /// What was invoked.
    pub inv: u64,
    reply: u32,
    is_replied: u32,
}

impl Entry {
    /// What was answered. There is none only in a last entry whose call never returned.
    pub fn reply(&self) -> Option<u32> {
        (self.is_replied != 0).then_some(self.reply)
    }
}

extern "C" {
    fn universal_open_tally(n: u64, k: u64, log: &mut Handle) -> u32;
    fn universal_open_sticky(n: u64, k: u64, log: &mut Handle) -> u32;
    fn universal_open_register(n: u64, k: u64, log: &mut Handle) -> u32;
    fn universal_open_machine(
        n: u64,
        k: u64,
        states: u32,
        invocations: u32,
        next: *const u32,
        next_count: usize,
        reply: *const u32,
        reply_count: usize,
        log: &mut Handle,
    ) -> u32;
    fn universal_open_counter(n: u64, object: &mut Handle) -> u32;
    fn universal_open_register64(n: u64, object: &mut Handle) -> u32;
    fn universal_open_book(n: u64, object: &mut Handle) -> u32;
    fn universal_open_counters(n: u64, count: u32, object: &mut Handle) -> u32;
    fn universal_open_queue(n: u64, capacity: u32, object: &mut Handle) -> u32;
    fn universal_open_stack(n: u64, capacity: u32, object: &mut Handle) -> u32;
    fn universal_open_map(n: u64, capacity: u32, object: &mut Handle) -> u32;
    fn universal_open_small_machine(
        n: u64,
        states: u32,
        invocations: u32,
        next: *const u32,
        next_count: usize,
        reply: *const u32,
        reply_count: usize,
        object: &mut Handle,
    ) -> u32;
    fn universal_open_program(
        n: u64,
        code: *const u64,
        count: usize,
        start: *const u64,
        words: usize,
        invocation: u64,
        reply: u64,
        place: &mut u64,
        object: &mut Handle,
    ) -> u32;
    fn universal_small_seat(object: &mut Handle, seat: &mut Handle, process: &mut u64) -> u32;
    fn universal_small_apply(
        seat: &mut Handle,
        invocation: *const u64,
        invocation_count: usize,
        reply: *mut u64,
        reply_count: usize,
        version: &mut u64,
    ) -> u32;
    fn universal_small_read(
        seat: &mut Handle,
        invocation: *const u64,
        invocation_count: usize,
        reply: *mut u64,
        reply_count: usize,
        version: &mut u64,
    ) -> u32;
    fn universal_small_follows(seat: &mut Handle, version: u64, has_come: &mut u32) -> u32;
    fn universal_small_close(handle: &mut Handle, state: *mut u64, state_count: usize) -> u32;
    fn universal_seat(log: &mut Handle, seat: &mut Handle, process: &mut u64) -> u32;
    fn universal_apply(seat: &mut Handle, inv: u64, answer: &mut Reply) -> u32;
    fn universal_follows(seat: &mut Handle, process: u64, nth: u64, is_there: &mut u32) -> u32;
    fn universal_close(seat: &mut Handle) -> u32;
    fn universal_read(log: &mut Handle, entries: *mut Entry, capacity: usize, count: &mut usize) -> u32;
    fn universal_compare(log: &mut Handle, process: u64, calls: *const Call, count: usize, nth: &mut u64) -> u32;
    fn universal_drop(handle: &mut Handle);
}

pub(crate) fn open_tally(n: u64, k: u64, log: &mut Handle) -> u32 {
    // SAFETY: the handle is borrowed for the call, as in each call below.
    unsafe { universal_open_tally(n, k, log) }
}

pub(crate) fn open_sticky(n: u64, k: u64, log: &mut Handle) -> u32 {
    unsafe { universal_open_sticky(n, k, log) }
}

pub(crate) fn open_register(n: u64, k: u64, log: &mut Handle) -> u32 {
    unsafe { universal_open_register(n, k, log) }
}

pub(crate) fn open_machine(n: u64, k: u64, machine: Machine<'_>, log: &mut Handle) -> u32 {
    let Machine { states, invocations, next, reply } = machine;
    // SAFETY: the slices lie in memory that is borrowed for the call, and the library only reads and copies them.
    unsafe {
        universal_open_machine(n, k, states, invocations, next.as_ptr(), next.len(), reply.as_ptr(), reply.len(), log)
    }
}

pub(crate) fn open_counter(n: u64, object: &mut Handle) -> u32 {
    unsafe { universal_open_counter(n, object) }
}

pub(crate) fn open_register64(n: u64, object: &mut Handle) -> u32 {
    unsafe { universal_open_register64(n, object) }
}

pub(crate) fn open_book(n: u64, object: &mut Handle) -> u32 {
    unsafe { universal_open_book(n, object) }
}

pub(crate) fn open_counters(n: u64, count: u32, object: &mut Handle) -> u32 {
    unsafe { universal_open_counters(n, count, object) }
}

pub(crate) fn open_queue(n: u64, capacity: u32, object: &mut Handle) -> u32 {
    unsafe { universal_open_queue(n, capacity, object) }
}

pub(crate) fn open_stack(n: u64, capacity: u32, object: &mut Handle) -> u32 {
    unsafe { universal_open_stack(n, capacity, object) }
}

pub(crate) fn open_map(n: u64, capacity: u32, object: &mut Handle) -> u32 {
    unsafe { universal_open_map(n, capacity, object) }
}

pub(crate) fn open_small_machine(n: u64, machine: Machine<'_>, object: &mut Handle) -> u32 {
    let Machine { states, invocations, next, reply } = machine;
    // SAFETY: as of `open_machine`.
    unsafe {
        universal_open_small_machine(
            n,
            states,
            invocations,
            next.as_ptr(),
            next.len(),
            reply.as_ptr(),
            reply.len(),
            object,
        )
    }
}

/// Opens a program by the words of its instructions, with how many words an invocation and a reply have.
pub(crate) fn open_program(
    n: u64,
    code: &[u64],
    start: &[u64],
    [invocation, reply]: [u64; 2],
    place: &mut u64,
    object: &mut Handle,
) -> u32 {
    let (words, count) = (code.as_ptr(), code.len());
    // SAFETY: the slices lie in memory that is borrowed for the call, and the library only reads and copies them.
    unsafe { universal_open_program(n, words, count, start.as_ptr(), start.len(), invocation, reply, place, object) }
}

impl Handle {
    fn none() -> Handle {
        Handle { at: null_mut() }
    }

    /// A handle that a call has opened.
    pub(crate) fn opened(open: impl FnOnce(&mut Handle) -> u32) -> Result<Handle, Fault> {
        let mut log = Handle::none();
        Fault::of(open(&mut log))?;
        Ok(log)
    }

    pub(crate) fn seat(&mut self) -> Result<(Handle, u64), Fault> {
        let mut seat = Handle::none();
        let mut process = 0;
        Fault::of(unsafe { universal_seat(self, &mut seat, &mut process) })?;
        Ok((seat, process))
    }

    pub(crate) fn small_seat(&mut self) -> Result<(Handle, u64), Fault> {
        let mut seat = Handle::none();
        let mut process = 0;
        Fault::of(unsafe { universal_small_seat(self, &mut seat, &mut process) })?;
        Ok((seat, process))
    }

    /// A call of a small object: its reply, and a version that it is in.
    pub(crate) fn small_apply<const REPLY: usize>(&mut self, invocation: &[u64]) -> Result<([u64; REPLY], u64), Fault> {
        let mut reply = [0; REPLY];
        let version = self.small_apply_into(invocation, &mut reply)?;
        Ok((reply, version))
    }

    /// What a small object answers to an invocation by a function of it: the status, and the version.
    fn small_asked(&mut self, ask: Ask, invocation: &[u64], reply: &mut [u64]) -> (u32, u64) {
        let mut version = 0;
        // SAFETY: both slices are borrowed for the call.
        let status =
            unsafe { ask(self, invocation.as_ptr(), invocation.len(), reply.as_mut_ptr(), reply.len(), &mut version) };
        (status, version)
    }

    /// A call of a small object, which writes its reply: a version that it is in.
    pub(crate) fn small_apply_into(&mut self, invocation: &[u64], reply: &mut [u64]) -> Result<u64, Fault> {
        let (status, version) = self.small_asked(universal_small_apply, invocation, reply);
        Fault::of(status)?;
        Ok(version)
    }

    /// What a call of a small object would be answered, which is written: the version that has the state. `None` where
    /// another one came meanwhile; the reply stays then.
    pub(crate) fn small_read(&mut self, invocation: &[u64], reply: &mut [u64]) -> Result<Option<u64>, Fault> {
        const CHANGED: u32 = 28;
        let (status, version) = self.small_asked(universal_small_read, invocation, reply);
        if status == CHANGED {
            return Ok(None);
        }
        Fault::of(status)?;
        Ok(Some(version))
    }

    pub(crate) fn small_follows(&mut self, version: u64) -> Result<bool, Fault> {
        let mut has_come = 0;
        Fault::of(unsafe { universal_small_follows(self, version, &mut has_come) })?;
        Ok(has_come != 0)
    }

    pub(crate) fn small_close(&mut self, state: &mut [u64]) -> Result<(), Fault> {
        // SAFETY: the slice is borrowed for the call.
        Fault::of(unsafe { universal_small_close(self, state.as_mut_ptr(), state.len()) })
    }

    pub(crate) fn apply(&mut self, inv: u64) -> Result<Reply, Fault> {
        let mut reply = Reply::default();
        Fault::of(unsafe { universal_apply(self, inv, &mut reply) })?;
        Ok(reply)
    }

    pub(crate) fn follows(&mut self, process: u64, nth: u64) -> Result<bool, Fault> {
        let mut is_there = 0;
        Fault::of(unsafe { universal_follows(self, process, nth, &mut is_there) })?;
        Ok(is_there != 0)
    }

    pub(crate) fn close(&mut self) -> Result<(), Fault> {
        Fault::of(unsafe { universal_close(self) })
    }

    /// All entries of a closed log.
    pub(crate) fn read(&mut self) -> Result<Vec<Entry>, Fault> {
        let mut count = 0;
        // SAFETY: there is room for none, and the pointer is aligned and not null.
        Fault::of(unsafe { universal_read(self, NonNull::dangling().as_ptr(), 0, &mut count) })?;
        let mut entries = vec![Entry::default(); count];
        // SAFETY: the vector has `count` elements.
        Fault::of(unsafe { universal_read(self, entries.as_mut_ptr(), count, &mut count) })?;
        Ok(entries)
    }

    /// Compares a closed log with calls of a process: the number of the first one in which they differ, if they do.
    pub(crate) fn compare(&mut self, process: u64, calls: &[Call]) -> Option<u64> {
        let mut nth = 0;
        // SAFETY: the slice lies in memory that is borrowed for the call, and the library only reads it.
        let status = unsafe { universal_compare(self, process, calls.as_ptr(), calls.len(), &mut nth) };
        (status != 0).then_some(nth)
    }
}

impl Drop for Handle {
    fn drop(&mut self) {
        unsafe { universal_drop(self) }
    }
}
