//! Objects of one's own: a [`Program`] that reads like code, and the object that it opens.
//!
//! An account of at most 100, whose call adds its word where the sum is no more than that, and is answered the sum, else 0:
//!
//! ```
//! use universal::program::Program;
//!
//! let mut p = Program::new(&[0], 1, 1);
//! let (balance, amount) = (p.state(0), p.invocation(0));
//! let total = p.add(balance, amount); // the call ends where it is no number of 64 bits
//! p.when(total.at_most(100), |p| {
//!     p.store(0, total);
//!     p.answer(0, total);
//! });
//! let mut seats = p.open(4)?.into_seats()?;
//! let mut reply = [0];
//! seats[0].call(&[40], &mut reply)?;
//! assert_eq!(reply, [40]);
//! seats[1].call(&[70], &mut reply)?;
//! assert_eq!(reply, [0]);
//! # Ok::<(), Box<dyn std::error::Error>>(())
//! ```
//!
//! A program goes through its instructions in each call, on 16 registers of 64 bits, two of which take the numbers that an
//! instruction names; its state stays as it left it. The library checks it as it is opened, and what a program means is proved;
//! this module is tested.

use crate::raw;
use crate::small::{kinds, Small, SmallSeat};
use crate::Fault;
use std::error::Error;
use std::fmt;

const REGISTERS: u64 = 14;
const SET: u64 = 0x10;
const LOAD: u64 = 0x20;
const STORE: u64 = 0x30;
const ANSWER: u64 = 0x32;
const CHECKED: u64 = 0x40;
const WRAPPING: u64 = 0x50;
const JUMP: u64 = 0x60;
const AGAIN: u64 = 0x70;

/// A number of a call. More than 14 at a time are refused as the program is opened.
#[derive(Clone, Copy, Debug, PartialEq, Eq)]
pub struct Register(u64);

/// A register, or a number.
#[derive(Clone, Copy, Debug, PartialEq, Eq)]
pub enum Value {
    /// What the register has.
    Register(Register),
    /// This number.
    Number(u64),
}

impl From<Register> for Value {
    fn from(register: Register) -> Value {
        Value::Register(register)
    }
}

impl From<u64> for Value {
    fn from(number: u64) -> Value {
        Value::Number(number)
    }
}

#[derive(Clone, Copy, Debug)]
enum Compare {
    Equal = 1,
    NotEqual = 2,
    Less = 3,
    AtMost = 4,
}

/// A comparison, for [`Program::when`] and [`Program::go_where`].
#[derive(Clone, Copy, Debug)]
pub struct Test {
    by: Compare,
    left: Value,
    right: Value,
}

impl Test {
    fn not(self) -> Test {
        let (by, turned) = match self.by {
            Compare::Equal => (Compare::NotEqual, false),
            Compare::NotEqual => (Compare::Equal, false),
            Compare::Less => (Compare::AtMost, true),
            Compare::AtMost => (Compare::Less, true),
        };
        if turned {
            Test { by, left: self.right, right: self.left }
        } else {
            Test { by, ..self }
        }
    }
}

impl Register {
    fn compared(self, by: Compare, right: impl Into<Value>) -> Test {
        Test { by, left: self.into(), right: right.into() }
    }

    /// It has the same number.
    pub fn equals(self, other: impl Into<Value>) -> Test {
        self.compared(Compare::Equal, other)
    }

    /// It has another number.
    pub fn differs(self, other: impl Into<Value>) -> Test {
        self.compared(Compare::NotEqual, other)
    }

    /// It has less.
    pub fn less(self, other: impl Into<Value>) -> Test {
        self.compared(Compare::Less, other)
    }

    /// It has at most as much.
    pub fn at_most(self, other: impl Into<Value>) -> Test {
        self.compared(Compare::AtMost, other)
    }

    /// It has more.
    pub fn more(self, other: impl Into<Value>) -> Test {
        self.at_most(other).not()
    }
}

/// A place where a program goes on, which [`Program::here`] tells. One that is never told is refused as the program is opened.
#[derive(Clone, Copy, Debug, PartialEq, Eq)]
pub struct Label(usize);

#[derive(Clone, Copy, Debug)]
enum Word {
    Number(u64),
    Label(Label),
}

/// A program that is being written, over a state, an invocation and a reply. The reply is 0 as a call begins. Where an operation
/// has no result, or a place no word, the call ends; the functions whose names end in `_or` name a label to go on at instead.
#[derive(Clone, Debug)]
pub struct Program {
    pub(crate) start: Vec<u64>,
    pub(crate) invocation: u64,
    pub(crate) reply: u64,
    code: Vec<[Word; 5]>,
    labels: Vec<Option<u64>>,
    taken: u64,
    loops: u64,
}

/// Why a program was not opened.
#[derive(Clone, Copy, Debug, PartialEq, Eq)]
pub struct ProgramFault {
    /// What is wrong.
    pub fault: Fault,
    /// The number of the first instruction that is wrong, where it is one.
    pub place: Option<u64>,
}

impl fmt::Display for ProgramFault {
    fn fmt(&self, out: &mut fmt::Formatter<'_>) -> fmt::Result {
        match self.place {
            Some(place) => write!(out, "instruction {place}: {}", self.fault),
            None => self.fault.fmt(out),
        }
    }
}

impl Error for ProgramFault {}

impl Program {
    /// A program whose state begins with these words, with so many words of an invocation and of a reply.
    pub fn new(start: &[u64], invocation: u64, reply: u64) -> Program {
        Program { start: start.to_vec(), invocation, reply, code: Vec::new(), labels: vec![None], taken: 0, loops: 0 }
    }

    /// Where the call ends.
    pub const END: Label = Label(0);

    fn write(&mut self, operation: u64, to: u64, left: u64, right: u64, otherwise: Word) {
        self.code.push([Word::Number(operation), Word::Number(to), Word::Number(left), Word::Number(right), otherwise]);
    }

    /// The register of a value; a number is put into one of the last two.
    fn of(&mut self, value: Value, scratch: u64) -> u64 {
        match value {
            Value::Register(register) => register.0,
            Value::Number(number) => {
                self.write(SET, scratch, number, 0, Word::Number(0));
                scratch
            }
        }
    }

    fn fresh(&mut self) -> Register {
        let register = Register(if self.taken < REGISTERS { self.taken } else { u64::MAX });
        self.taken += 1;
        register
    }

    /// A new register. In a block, it is the block's.
    pub fn register(&mut self, value: impl Into<Value>) -> Register {
        let register = self.fresh();
        self.set(register, value);
        register
    }

    /// Gives a register a number, or that of another one.
    pub fn set(&mut self, to: Register, value: impl Into<Value>) {
        match value.into() {
            Value::Number(number) => self.write(SET, to.0, number, 0, Word::Number(0)),
            Value::Register(from) => {
                let none = self.of(Value::Number(0), 15);
                self.write(WRAPPING, to.0, from.0, none, Word::Number(0));
            }
        }
    }

    /// The registers that are made in the block are free again behind it.
    pub fn block<T>(&mut self, write: impl FnOnce(&mut Program) -> T) -> T {
        let taken = self.taken;
        let written = write(self);
        self.taken = taken;
        written
    }

    fn load(&mut self, area: u64, place: Value, otherwise: Label) -> Register {
        let to = self.fresh();
        let (by, at) = place_of(place);
        self.write(LOAD + area + by, to.0, at, 0, Word::Label(otherwise));
        to
    }

    /// A word of the state, in a new register.
    pub fn state(&mut self, place: impl Into<Value>) -> Register {
        self.load(0, place.into(), Program::END)
    }

    /// A word of the invocation, in a new register.
    pub fn invocation(&mut self, place: impl Into<Value>) -> Register {
        self.load(2, place.into(), Program::END)
    }

    /// A word of the state; where there is none at that place, the program goes on at the label.
    pub fn state_or(&mut self, place: impl Into<Value>, otherwise: Label) -> Register {
        self.load(0, place.into(), otherwise)
    }

    fn stored(&mut self, operation: u64, place: Value, value: Value) {
        let value = self.of(value, 14);
        let (by, at) = place_of(place);
        self.write(operation + by, at, value, 0, Word::Label(Program::END));
    }

    /// Writes a word of the state.
    pub fn store(&mut self, place: impl Into<Value>, value: impl Into<Value>) {
        self.stored(STORE, place.into(), value.into());
    }

    /// Writes a word of the reply.
    pub fn answer(&mut self, place: impl Into<Value>, value: impl Into<Value>) {
        self.stored(ANSWER, place.into(), value.into());
    }

    fn checked(&mut self, by: u64, left: Value, right: Value, otherwise: Label) -> Register {
        let (left, right) = (self.of(left, 14), self.of(right, 15));
        let to = self.fresh();
        self.write(CHECKED + by, to.0, left, right, Word::Label(otherwise));
        to
    }

    /// Adds to a register.
    pub fn add_to(&mut self, to: Register, value: impl Into<Value>) {
        let value = self.of(value.into(), 15);
        self.write(CHECKED, to.0, to.0, value, Word::Label(Program::END));
    }

    /// Takes from a register; where that is below 0, it stays, and the program goes on at the label.
    pub fn subtract_from_or(&mut self, to: Register, value: impl Into<Value>, otherwise: Label) {
        let value = self.of(value.into(), 15);
        self.write(CHECKED + 1, to.0, to.0, value, Word::Label(otherwise));
    }

    /// The sum modulo 2^64.
    pub fn wrapping_add(&mut self, left: impl Into<Value>, right: impl Into<Value>) -> Register {
        let (left, right) = (self.of(left.into(), 14), self.of(right.into(), 15));
        let to = self.fresh();
        self.write(WRAPPING, to.0, left, right, Word::Number(0));
        to
    }

    /// A new label.
    pub fn label(&mut self) -> Label {
        self.labels.push(None);
        Label(self.labels.len() - 1)
    }

    /// The label is here.
    pub fn here(&mut self, label: Label) {
        if let Some(place) = self.labels.get_mut(label.0) {
            *place = Some(self.code.len() as u64);
        }
    }

    fn jump(&mut self, by: u64, to: Label, left: u64, right: u64) {
        let [by, left, right] = [JUMP + by, left, right].map(Word::Number);
        self.code.push([by, Word::Label(to), left, right, Word::Number(0)]);
    }

    /// Goes on at the label.
    pub fn go(&mut self, to: Label) {
        self.jump(0, to, 0, 0);
    }

    /// Goes on at the label, where the test holds.
    pub fn go_where(&mut self, test: Test, to: Label) {
        let (left, right) = (self.of(test.left, 14), self.of(test.right, 15));
        self.jump(test.by as u64, to, left, right);
    }

    /// What is written in the block is done where the test holds.
    pub fn when(&mut self, test: Test, write: impl FnOnce(&mut Program)) {
        let past = self.label();
        self.go_where(test.not(), past);
        self.block(write);
        self.here(past);
    }

    /// What is written in the block is done `most` times, once at least, or until the program goes on at the label, which is behind
    /// it. The count is of the whole call: a loop in another one isn't begun anew.
    pub fn repeat(&mut self, most: u64, write: impl FnOnce(&mut Program, Label)) {
        let (past, back, turn) = (self.label(), self.code.len() as u64, self.loops);
        self.loops += 1;
        self.block(|p| write(p, past));
        self.write(AGAIN, back, most.saturating_sub(1), turn, Word::Number(0));
        self.here(past);
    }

    /// The words of the instructions. A label that is nowhere leads past the end.
    pub fn words(&self) -> Vec<u64> {
        let end = self.code.len() as u64;
        let place = |label: Label| {
            if label == Program::END {
                end
            } else {
                self.labels.get(label.0).copied().flatten().unwrap_or(u64::MAX)
            }
        };
        let of = |word: &Word| match *word {
            Word::Number(number) => number,
            Word::Label(label) => place(label),
        };
        self.code.iter().flatten().map(of).collect()
    }

    /// The object for `n` processes. Its last state is its words. [`Shared`](crate::shared::Shared) has it among processes of the
    /// operating system.
    pub fn open(&self, n: u64) -> Result<Small<kinds::Program>, ProgramFault> {
        let mut place = 0;
        let opened = Small::opened(self.start.len(), |object| {
            raw::open_program(n, &self.words(), &self.start, [self.invocation, self.reply], &mut place, object)
        });
        opened.map_err(|fault| ProgramFault { fault, place: fault.is_of_an_instruction().then_some(place) })
    }
}

fn place_of(place: Value) -> (u64, u64) {
    match place {
        Value::Number(place) => (0, place),
        Value::Register(register) => (1, register.0),
    }
}

macro_rules! arithmetic {
    ($($(#[$doc:meta])* $name:ident, $or:ident = $by:literal;)*) => {
        impl Program {$(
            $(#[$doc])*
            pub fn $name(&mut self, left: impl Into<Value>, right: impl Into<Value>) -> Register {
                self.checked($by, left.into(), right.into(), Program::END)
            }

            $(#[$doc])*
            /// Where there is none, the program goes on at the label.
            pub fn $or(&mut self, left: impl Into<Value>, right: impl Into<Value>, otherwise: Label) -> Register {
                self.checked($by, left.into(), right.into(), otherwise)
            }
        )*}
    };
}

arithmetic! {
    /// The sum, in a new register.
    add, add_or = 0;
    /// The difference, in a new register.
    subtract, subtract_or = 1;
    /// The product, in a new register.
    multiply, multiply_or = 2;
    /// The quotient, rounded down, in a new register.
    divide, divide_or = 3;
    /// What the division leaves, in a new register.
    remainder, remainder_or = 4;
}

impl SmallSeat<kinds::Program> {
    /// A call with the words of an invocation, which writes those of the reply.
    ///
    /// Errors: `BadWidth` where these aren't as many words as the program has; `Spent` where the seat has made all its calls. After
    /// either nothing is changed.
    pub fn call(&mut self, invocation: &[u64], reply: &mut [u64]) -> Result<(), Fault> {
        self.apply_into(invocation, reply)
    }
}
