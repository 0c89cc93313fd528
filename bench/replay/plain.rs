//! A plain replayer of scripts in Rust, over std alone: the twin of `unibench replay` that `run` measures beside it.
//! It does the whole language: versions 1 and 2, `trim`, `reshape`, and the history limit, which is an option. It keeps
//! no history, only how long one would be, and makes no audit. Each cell keeps the state after its call, as the
//! construction asks. Where memory is refused it ends at once.
//!
//! Usage: plain [--history H] < SCRIPT

use std::fmt;
use std::io::{self, BufRead, Write};
use std::process::ExitCode;

const MOST_LINES: u64 = 100_000;
const MOST_BYTES: usize = 200;
const GREATEST: u64 = 999_999_999_999;
const LAST_NUMBER: u64 = (1 << 48) - 1;

/// A sequential object, and the words of its calls.
trait Object {
    type State;
    type Inv: Copy + fmt::Display;
    type Resp: Copy + fmt::Display;

    fn start() -> Self::State;
    fn apply(state: &Self::State, inv: Self::Inv) -> (Self::State, Self::Resp);
    fn read(words: &[&str]) -> Option<Self::Inv>;
}

/// A number of 1 to 12 digits, without a leading zero.
fn number(word: &str) -> Option<u64> {
    let plain = word.len() <= 12 && word.bytes().all(|byte| byte.is_ascii_digit());
    if !plain || word.is_empty() || (word.len() > 1 && word.starts_with('0')) {
        return None;
    }
    word.parse().ok()
}

/// A number of a range.
fn number_in(word: &str, least: u64, most: u64) -> Option<u64> {
    number(word).filter(|found| (least..=most).contains(found))
}

struct Queue;

#[derive(Clone, Copy)]
enum QueueInv {
    Enq(u64),
    Deq,
}

#[derive(Clone, Copy)]
enum QueueResp {
    Done,
    Full,
    Value(u64),
    Empty,
}

impl fmt::Display for QueueInv {
    fn fmt(&self, f: &mut fmt::Formatter) -> fmt::Result {
        match self {
            QueueInv::Enq(value) => write!(f, "enq {value}"),
            QueueInv::Deq => f.write_str("deq"),
        }
    }
}

impl fmt::Display for QueueResp {
    fn fmt(&self, f: &mut fmt::Formatter) -> fmt::Result {
        match self {
            QueueResp::Done => f.write_str("ok"),
            QueueResp::Full => f.write_str("full"),
            QueueResp::Value(value) => write!(f, "{value}"),
            QueueResp::Empty => f.write_str("empty"),
        }
    }
}

impl Object for Queue {
    type State = Vec<u64>;
    type Inv = QueueInv;
    type Resp = QueueResp;

    fn start() -> Vec<u64> {
        Vec::new()
    }

    fn apply(state: &Vec<u64>, inv: QueueInv) -> (Vec<u64>, QueueResp) {
        match inv {
            QueueInv::Enq(_) if state.len() == 1000 => (state.clone(), QueueResp::Full),
            QueueInv::Enq(value) => {
                let mut next = Vec::with_capacity(state.len() + 1);
                next.extend_from_slice(state);
                next.push(value);
                (next, QueueResp::Done)
            }
            QueueInv::Deq => match state.split_first() {
                None => (Vec::new(), QueueResp::Empty),
                Some((first, rest)) => (rest.to_vec(), QueueResp::Value(*first)),
            },
        }
    }

    fn read(words: &[&str]) -> Option<QueueInv> {
        match words {
            ["enq", value] => Some(QueueInv::Enq(number(value)?)),
            ["deq"] => Some(QueueInv::Deq),
            _ => None,
        }
    }
}

struct Directory;

#[derive(Clone, Copy, PartialEq)]
struct Name {
    bytes: [u8; 16],
    len: u8,
}

#[derive(Clone, Copy)]
enum DirectoryInv {
    Put(Name, u64),
    Get(Name),
    Del(Name),
    Size,
    At(u64),
}

#[derive(Clone, Copy)]
enum DirectoryResp {
    New,
    Was(u64),
    Full,
    Value(u64),
    None,
}

impl Name {
    fn read(word: &str) -> Option<Name> {
        let plain = word.bytes().all(|byte| byte.is_ascii_lowercase() || byte.is_ascii_digit());
        if word.is_empty() || word.len() > 16 || !plain {
            return None;
        }
        let mut bytes = [0; 16];
        bytes[..word.len()].copy_from_slice(word.as_bytes());
        Some(Name { bytes, len: word.len() as u8 })
    }
}

impl fmt::Display for Name {
    fn fmt(&self, f: &mut fmt::Formatter) -> fmt::Result {
        let bytes = &self.bytes[..self.len as usize];
        f.write_str(std::str::from_utf8(bytes).unwrap_or(""))
    }
}

impl fmt::Display for DirectoryInv {
    fn fmt(&self, f: &mut fmt::Formatter) -> fmt::Result {
        match self {
            DirectoryInv::Put(name, value) => write!(f, "put {name} {value}"),
            DirectoryInv::Get(name) => write!(f, "get {name}"),
            DirectoryInv::Del(name) => write!(f, "del {name}"),
            DirectoryInv::Size => f.write_str("size"),
            DirectoryInv::At(place) => write!(f, "at {place}"),
        }
    }
}

impl fmt::Display for DirectoryResp {
    fn fmt(&self, f: &mut fmt::Formatter) -> fmt::Result {
        match self {
            DirectoryResp::New => f.write_str("new"),
            DirectoryResp::Was(value) => write!(f, "was {value}"),
            DirectoryResp::Full => f.write_str("full"),
            DirectoryResp::Value(value) => write!(f, "{value}"),
            DirectoryResp::None => f.write_str("none"),
        }
    }
}

impl Directory {
    fn put(mut pairs: Vec<(Name, u64)>, name: Name, value: u64) -> (Vec<(Name, u64)>, DirectoryResp) {
        if let Some(pair) = pairs.iter_mut().find(|pair| pair.0 == name) {
            let old = std::mem::replace(&mut pair.1, value);
            return (pairs, DirectoryResp::Was(old));
        }
        if pairs.len() == 256 {
            return (pairs, DirectoryResp::Full);
        }
        pairs.push((name, value));
        (pairs, DirectoryResp::New)
    }

    fn del(mut pairs: Vec<(Name, u64)>, name: Name) -> (Vec<(Name, u64)>, DirectoryResp) {
        match pairs.iter().position(|pair| pair.0 == name) {
            None => (pairs, DirectoryResp::None),
            Some(place) => {
                let (_, value) = pairs.remove(place);
                (pairs, DirectoryResp::Value(value))
            }
        }
    }
}

impl Object for Directory {
    type State = Vec<(Name, u64)>;
    type Inv = DirectoryInv;
    type Resp = DirectoryResp;

    fn start() -> Vec<(Name, u64)> {
        Vec::new()
    }

    fn apply(state: &Vec<(Name, u64)>, inv: DirectoryInv) -> (Vec<(Name, u64)>, DirectoryResp) {
        let value_of = |pair: Option<&(Name, u64)>| match pair {
            Some((_, value)) => DirectoryResp::Value(*value),
            None => DirectoryResp::None,
        };
        let pairs = state.clone();
        match inv {
            DirectoryInv::Put(name, value) => Directory::put(pairs, name, value),
            DirectoryInv::Get(name) => (pairs, value_of(state.iter().find(|pair| pair.0 == name))),
            DirectoryInv::Del(name) => Directory::del(pairs, name),
            DirectoryInv::Size => (pairs, DirectoryResp::Value(state.len() as u64)),
            DirectoryInv::At(place) => (pairs, value_of(state.get(place as usize))),
        }
    }

    fn read(words: &[&str]) -> Option<DirectoryInv> {
        match words {
            ["put", name, value] => Some(DirectoryInv::Put(Name::read(name)?, number(value)?)),
            ["get", name] => Some(DirectoryInv::Get(Name::read(name)?)),
            ["del", name] => Some(DirectoryInv::Del(Name::read(name)?)),
            ["size"] => Some(DirectoryInv::Size),
            ["at", place] => Some(DirectoryInv::At(number_in(place, 0, 255)?)),
            _ => None,
        }
    }
}

struct Book;

#[derive(Clone, Copy)]
enum BookInv {
    Deposit(u64, u64),
    Withdraw(u64, u64),
    Move(u64, u64, u64),
    Total,
}

#[derive(Clone, Copy)]
enum BookResp {
    Value(u64),
    Over,
    Short,
    Moved,
}

impl fmt::Display for BookInv {
    fn fmt(&self, f: &mut fmt::Formatter) -> fmt::Result {
        match self {
            BookInv::Deposit(a, value) => write!(f, "deposit {a} {value}"),
            BookInv::Withdraw(a, value) => write!(f, "withdraw {a} {value}"),
            BookInv::Move(a, b, value) => write!(f, "move {a} {b} {value}"),
            BookInv::Total => f.write_str("total"),
        }
    }
}

impl fmt::Display for BookResp {
    fn fmt(&self, f: &mut fmt::Formatter) -> fmt::Result {
        match self {
            BookResp::Value(value) => write!(f, "{value}"),
            BookResp::Over => f.write_str("over"),
            BookResp::Short => f.write_str("short"),
            BookResp::Moved => f.write_str("moved"),
        }
    }
}

impl Object for Book {
    type State = [u64; 16];
    type Inv = BookInv;
    type Resp = BookResp;

    fn start() -> [u64; 16] {
        [0; 16]
    }

    fn apply(state: &[u64; 16], inv: BookInv) -> ([u64; 16], BookResp) {
        let mut next = *state;
        let resp = match inv {
            BookInv::Deposit(a, value) if state[a as usize] + value > GREATEST => BookResp::Over,
            BookInv::Deposit(a, value) => {
                next[a as usize] += value;
                BookResp::Value(next[a as usize])
            }
            BookInv::Withdraw(a, value) | BookInv::Move(a, _, value) if state[a as usize] < value => BookResp::Short,
            BookInv::Withdraw(a, value) => {
                next[a as usize] -= value;
                BookResp::Value(next[a as usize])
            }
            BookInv::Move(a, b, value) if a != b && state[b as usize] + value > GREATEST => BookResp::Over,
            BookInv::Move(a, b, value) => {
                next[a as usize] -= value;
                next[b as usize] += value;
                BookResp::Moved
            }
            BookInv::Total => BookResp::Value(state.iter().sum()),
        };
        (next, resp)
    }

    fn read(words: &[&str]) -> Option<BookInv> {
        let account = |word: &str| number_in(word, 0, 15);
        match words {
            ["deposit", a, value] => Some(BookInv::Deposit(account(a)?, number(value)?)),
            ["withdraw", a, value] => Some(BookInv::Withdraw(account(a)?, number(value)?)),
            ["move", a, b, value] => Some(BookInv::Move(account(a)?, account(b)?, number(value)?)),
            ["total"] => Some(BookInv::Total),
            _ => None,
        }
    }
}

struct Sticky;

#[derive(Clone, Copy)]
enum StickyInv {
    Stick(u64),
    Read,
}

#[derive(Clone, Copy)]
struct StickyResp(Option<u64>);

impl fmt::Display for StickyInv {
    fn fmt(&self, f: &mut fmt::Formatter) -> fmt::Result {
        match self {
            StickyInv::Stick(value) => write!(f, "stick {value}"),
            StickyInv::Read => f.write_str("read"),
        }
    }
}

impl fmt::Display for StickyResp {
    fn fmt(&self, f: &mut fmt::Formatter) -> fmt::Result {
        match self.0 {
            Some(value) => write!(f, "{value}"),
            None => f.write_str("unset"),
        }
    }
}

impl Object for Sticky {
    type State = Option<u64>;
    type Inv = StickyInv;
    type Resp = StickyResp;

    fn start() -> Option<u64> {
        None
    }

    fn apply(state: &Option<u64>, inv: StickyInv) -> (Option<u64>, StickyResp) {
        let next = match inv {
            StickyInv::Stick(value) => state.or(Some(value)),
            StickyInv::Read => *state,
        };
        (next, StickyResp(next))
    }

    fn read(words: &[&str]) -> Option<StickyInv> {
        match words {
            ["stick", value] => Some(StickyInv::Stick(number(value)?)),
            ["read"] => Some(StickyInv::Read),
            _ => None,
        }
    }
}

/// Why a command is refused.
enum Refusal {
    Process(u64),
    Busy(u64),
    Row(u64),
    Idle(u64),
    Pending(usize),
    Sequence,
    History,
    Count(u64),
}

impl fmt::Display for Refusal {
    fn fmt(&self, f: &mut fmt::Formatter) -> fmt::Result {
        match self {
            Refusal::Process(p) => write!(f, "refused process {p}"),
            Refusal::Busy(p) => write!(f, "refused busy {p}"),
            Refusal::Row(p) => write!(f, "refused row {p}"),
            Refusal::Idle(p) => write!(f, "refused idle {p}"),
            Refusal::Pending(p) => write!(f, "refused pending {p}"),
            Refusal::Sequence => f.write_str("refused sequence"),
            Refusal::History => f.write_str("refused history"),
            Refusal::Count(m) => write!(f, "refused count {m}"),
        }
    }
}

/// A cell: what a call asks for, and what is decided of it. The anchor is nobody's.
struct Cell<O: Object> {
    call: Option<(usize, u64, O::Inv)>,
    seq: u64,
    after: Option<usize>,
    new: Option<(O::State, Option<O::Resp>)>,
}

/// What the next step of a call does.
#[derive(Clone, Copy)]
enum Kind {
    Announce,
    ScanHead,
    ScanSeq,
    WriteScan,
    Test,
    ReadAnnounce,
    ReadHelpSeq,
    DecideAfter,
    DecideNew,
    WriteBefore,
    WriteSeq,
    WriteHead,
    Finish,
}

/// A pending call, with what its process knows. Cells are named by their places; 0 is the anchor.
#[derive(Clone, Copy)]
struct Pending {
    kind: Kind,
    mine: usize,
    /// How many heads have been scanned, and the head that was read last.
    scanned: usize,
    scan: usize,
    /// The cell of the scan with the greatest number; the cell that the process is at afterwards.
    cell: usize,
    seq: u64,
    help: usize,
    prefer: usize,
    decided: usize,
    mine_seq: u64,
    /// How many events are still set aside for it.
    share: u64,
}

/// What there is of one process, whether it is among the present ones or not.
#[derive(Clone, Default)]
struct Process {
    begun: u64,
    begun_in_era: u64,
    steps: u64,
    turns: u64,
    pending: Option<Pending>,
}

struct World<O: Object> {
    count: usize,
    row: u64,
    cells: Vec<Cell<O>>,
    announce: Vec<usize>,
    head: Vec<usize>,
    processes: Vec<Process>,
    history: u64,
    events: u64,
    set_aside: u64,
}

impl<O: Object> World<O> {
    fn open(count: usize, row: u64, history: u64) -> World<O> {
        World {
            count,
            row,
            cells: vec![Cell { call: None, seq: 1, after: None, new: Some((O::start(), None)) }],
            announce: vec![0; count],
            head: vec![0; count],
            processes: vec![Process::default(); count],
            history,
            events: 0,
            set_aside: 0,
        }
    }

    fn begin(&mut self, p: u64, inv: O::Inv) -> Result<u64, Refusal> {
        let most_steps = 10 * self.count as u64 + 12;
        let mine = self.cells.len();
        if p >= self.count as u64 {
            return Err(Refusal::Process(p));
        }
        let process = &mut self.processes[p as usize];
        if process.pending.is_some() {
            return Err(Refusal::Busy(p));
        }
        if process.begun_in_era == self.row {
            return Err(Refusal::Row(p));
        }
        if self.events + self.set_aside + most_steps + 1 > self.history {
            return Err(Refusal::History);
        }
        let nth = process.begun;
        process.begun += 1;
        process.begun_in_era += 1;
        process.steps = 0;
        process.turns = 0;
        process.pending = Some(Pending {
            kind: Kind::Announce,
            mine,
            scanned: 0,
            scan: 0,
            cell: 0,
            seq: 0,
            help: 0,
            prefer: 0,
            decided: 0,
            mine_seq: 0,
            share: most_steps,
        });
        self.events += 1;
        self.set_aside += most_steps;
        self.cells.push(Cell { call: Some((p as usize, nth, inv)), seq: 0, after: None, new: None });
        Ok(nth)
    }

    /// Takes at most so many steps of a process; the answer is its call, and the reply where it has returned.
    fn run(&mut self, p: u64, most: u64) -> Result<(u64, Option<O::Resp>), Refusal> {
        if p >= self.count as u64 {
            return Err(Refusal::Process(p));
        }
        let place = p as usize;
        let Some(mut call) = self.processes[place].pending.take() else {
            return Err(Refusal::Idle(p));
        };
        let nth = self.processes[place].begun - 1;
        for _ in 0..most {
            let reply = self.step(place, &mut call);
            self.processes[place].steps += 1;
            self.events += 1;
            self.set_aside -= 1;
            call.share -= 1;
            if reply.is_some() {
                self.set_aside -= call.share;
                return Ok((nth, reply));
            }
        }
        self.processes[place].pending = Some(call);
        Ok((nth, None))
    }

    /// Takes one step of a call of process p; the answer is the reply where it was the last one.
    fn step(&mut self, p: usize, call: &mut Pending) -> Option<O::Resp> {
        match call.kind {
            Kind::Announce => {
                self.announce[p] = call.mine;
                call.kind = Kind::ScanHead;
            }
            Kind::ScanHead => {
                call.scan = self.head[call.scanned];
                call.kind = Kind::ScanSeq;
            }
            Kind::ScanSeq => self.scan_seq(call),
            Kind::WriteScan => {
                self.head[p] = call.cell;
                call.kind = Kind::Test;
            }
            Kind::Test => {
                call.mine_seq = self.cells[call.mine].seq;
                if call.mine_seq == 0 {
                    self.processes[p].turns += 1;
                }
                call.kind = if call.mine_seq == 0 { Kind::ReadAnnounce } else { Kind::Finish };
            }
            Kind::ReadAnnounce => {
                call.help = self.announce[(call.seq % self.count as u64) as usize];
                call.kind = Kind::ReadHelpSeq;
            }
            Kind::ReadHelpSeq => {
                call.prefer = if self.cells[call.help].seq == 0 { call.help } else { call.mine };
                call.kind = Kind::DecideAfter;
            }
            Kind::DecideAfter => {
                call.decided = *self.cells[call.cell].after.get_or_insert(call.prefer);
                call.kind = Kind::DecideNew;
            }
            Kind::DecideNew => self.decide_new(call),
            // No command asks for the cell before another, so it isn't kept.
            Kind::WriteBefore => call.kind = Kind::WriteSeq,
            Kind::WriteSeq => {
                self.cells[call.decided].seq = call.seq + 1;
                call.kind = Kind::WriteHead;
            }
            Kind::WriteHead => {
                self.head[p] = call.decided;
                call.cell = call.decided;
                call.seq += 1;
                call.kind = Kind::Test;
            }
            Kind::Finish => {
                if call.mine_seq > call.seq {
                    self.head[p] = call.mine;
                }
                return self.cells[call.mine].new.as_ref().and_then(|new| new.1);
            }
        }
        None
    }

    fn scan_seq(&self, call: &mut Pending) {
        let seq = self.cells[call.scan].seq;
        if seq > call.seq {
            call.cell = call.scan;
            call.seq = seq;
        }
        call.scanned += 1;
        call.kind = if call.scanned < self.count { Kind::ScanHead } else { Kind::WriteScan };
    }

    fn decide_new(&mut self, call: &mut Pending) {
        if self.cells[call.decided].new.is_none() {
            if let (Some((_, _, inv)), Some((state, _))) = (self.cells[call.decided].call, &self.cells[call.cell].new) {
                let (state, resp) = O::apply(state, inv);
                self.cells[call.decided].new = Some((state, Some(resp)));
            }
        }
        call.kind = Kind::WriteBefore;
    }

    /// Ends the era, and goes on with so many processes: the number of the new anchor.
    fn renew(&mut self, count: usize) -> Result<u64, Refusal> {
        if let Some(p) = self.processes.iter().position(|process| process.pending.is_some()) {
            return Err(Refusal::Pending(p));
        }
        let last = self.listed().last().unwrap_or(0);
        let seq = self.cells[last].seq;
        if seq + count as u64 * self.row > LAST_NUMBER {
            return Err(Refusal::Sequence);
        }
        if self.events + 1 > self.history {
            return Err(Refusal::History);
        }
        self.events += 1;
        let mut anchor = self.cells.swap_remove(last);
        anchor.call = None;
        self.cells.clear();
        self.cells.push(anchor);
        self.count = count;
        self.announce = vec![0; count];
        self.head = vec![0; count];
        if self.processes.len() < count {
            self.processes.resize(count, Process::default());
        }
        for process in &mut self.processes {
            process.begun_in_era = 0;
        }
        Ok(seq)
    }

    fn trim(&mut self) -> Result<u64, Refusal> {
        self.renew(self.count)
    }

    fn reshape(&mut self, count: u64) -> Result<u64, Refusal> {
        if !(1..=64).contains(&count) {
            return Err(Refusal::Count(count));
        }
        self.renew(count as usize)
    }

    /// The cells of the list, the anchor left out.
    fn listed(&self) -> impl Iterator<Item = usize> + '_ {
        std::iter::successors(self.cells[0].after, |place| self.cells[*place].after)
    }
}

/// Why a run ends early.
enum Fault {
    Script(u64, &'static str),
    Read,
    Write,
}

impl From<io::Error> for Fault {
    fn from(_: io::Error) -> Fault {
        Fault::Write
    }
}

/// The lines of a script, notes left out.
struct Lines<R> {
    reader: R,
    bytes: Vec<u8>,
    number: u64,
}

impl<R: BufRead> Lines<R> {
    /// The words of the next line that isn't a note.
    fn next(&mut self) -> Result<Option<Vec<&str>>, Fault> {
        loop {
            self.bytes.clear();
            if self.reader.read_until(b'\n', &mut self.bytes).map_err(|_| Fault::Read)? == 0 {
                return Ok(None);
            }
            if self.bytes.last() == Some(&b'\n') {
                self.bytes.pop();
            }
            self.number += 1;
            if self.number > MOST_LINES {
                return Err(self.fault("too many lines"));
            }
            if self.bytes.len() > MOST_BYTES {
                return Err(self.fault("too long"));
            }
            if !self.bytes.iter().all(|byte| (32..=126).contains(byte)) {
                return Err(self.fault("bad byte"));
            }
            if !self.bytes.is_empty() && self.bytes[0] != b'#' {
                break;
            }
        }
        let line = std::str::from_utf8(&self.bytes).unwrap_or("");
        Ok(Some(line.split(' ').collect()))
    }

    fn fault(&self, text: &'static str) -> Fault {
        Fault::Script(self.number, text)
    }
}

/// What a header opens.
struct Header {
    version: u64,
    object: &'static str,
    count: usize,
    row: u64,
}

fn header_of(words: &[&str]) -> Option<Header> {
    let ["universal", version, object, count, row] = words else {
        return None;
    };
    let version = number_in(version, 1, 2)?;
    Some(Header {
        version,
        object: ["queue", "directory", "book", "sticky"].into_iter().find(|name| name == object)?,
        count: number_in(count, 1, if version == 1 { 16 } else { 64 })? as usize,
        row: number_in(row, 1, 4096)?,
    })
}

fn replay<R: BufRead, W: Write>(reader: R, writer: &mut W, history: u64) -> Result<(), Fault> {
    let mut lines = Lines { reader, bytes: Vec::new(), number: 0 };
    let header = match lines.next()? {
        None => return Err(Fault::Script(lines.number + 1, "no header")),
        Some(words) => header_of(&words),
    };
    let Some(header) = header else {
        return Err(lines.fault("bad header"));
    };
    match header.object {
        "queue" => replay_on::<Queue, R, W>(&mut lines, writer, &header, history),
        "directory" => replay_on::<Directory, R, W>(&mut lines, writer, &header, history),
        "book" => replay_on::<Book, R, W>(&mut lines, writer, &header, history),
        _ => replay_on::<Sticky, R, W>(&mut lines, writer, &header, history),
    }
}

fn replay_on<O: Object, R: BufRead, W: Write>(
    lines: &mut Lines<R>,
    writer: &mut W,
    header: &Header,
    history: u64,
) -> Result<(), Fault> {
    let mut world = World::<O>::open(header.count, header.row, history);
    loop {
        let done = match lines.next()? {
            None => break,
            Some(words) => command(&mut world, &words, header.version, writer)?,
        };
        if !done {
            return Err(lines.fault("bad line"));
        }
    }
    writeln!(writer, "end")?;
    Ok(())
}

/// Makes the command that words are, and writes its answer; the answer is whether they are one.
fn command<O: Object, W: Write>(
    world: &mut World<O>,
    words: &[&str],
    version: u64,
    writer: &mut W,
) -> Result<bool, Fault> {
    match words {
        ["call", p, inv @ ..] => {
            let (Some(p), Some(inv)) = (number(p), O::read(inv)) else {
                return Ok(false);
            };
            match world.begin(p, inv) {
                Ok(nth) => writeln!(writer, "called {p}.{nth}")?,
                Err(refusal) => writeln!(writer, "{refusal}")?,
            }
        }
        ["step", p] => return steps(world, number(p), Some(1), writer),
        ["step", p, most] => return steps(world, number(p), number_in(most, 1, 1000), writer),
        ["finish", p] => {
            let most = 10 * world.count as u64 + 12;
            return steps(world, number(p), Some(most), writer);
        }
        ["trim"] => match world.trim() {
            Ok(seq) => writeln!(writer, "trimmed {seq}")?,
            Err(refusal) => writeln!(writer, "{refusal}")?,
        },
        ["reshape", count] if version == 2 => {
            let Some(count) = number(count) else {
                return Ok(false);
            };
            match world.reshape(count) {
                Ok(seq) => writeln!(writer, "reshaped {count} at {seq}")?,
                Err(refusal) => writeln!(writer, "{refusal}")?,
            }
        }
        ["log"] => log(world, writer)?,
        ["heads"] => heads(world, writer)?,
        _ => return Ok(false),
    }
    Ok(true)
}

fn steps<O: Object, W: Write>(
    world: &mut World<O>,
    p: Option<u64>,
    most: Option<u64>,
    writer: &mut W,
) -> Result<bool, Fault> {
    let (Some(p), Some(most)) = (p, most) else {
        return Ok(false);
    };
    match world.run(p, most) {
        Err(refusal) => writeln!(writer, "{refusal}")?,
        Ok((nth, reply)) => {
            let Process { steps, turns, .. } = world.processes[p as usize];
            match reply {
                Some(reply) => writeln!(writer, "returned {p}.{nth} {reply} steps {steps} turns {turns}")?,
                None => writeln!(writer, "going {p}.{nth} steps {steps} turns {turns}")?,
            }
        }
    }
    Ok(true)
}

fn log<O: Object, W: Write>(world: &World<O>, writer: &mut W) -> Result<(), Fault> {
    let mut seq = world.cells[0].seq;
    for place in world.listed() {
        let cell = &world.cells[place];
        seq += 1;
        if let Some((p, nth, inv)) = cell.call {
            match cell.new.as_ref().and_then(|new| new.1) {
                Some(reply) => writeln!(writer, "{seq} {p}.{nth} {inv} -> {reply}")?,
                None => writeln!(writer, "{seq} {p}.{nth} {inv} -> ?")?,
            }
        }
    }
    Ok(())
}

fn heads<O: Object, W: Write>(world: &World<O>, writer: &mut W) -> Result<(), Fault> {
    write!(writer, "heads")?;
    for head in &world.head {
        write!(writer, " {}", world.cells[*head].seq)?;
    }
    writeln!(writer)?;
    Ok(())
}

fn main() -> ExitCode {
    let words: Vec<String> = std::env::args().skip(1).collect();
    let history = match &words[..] {
        [] => Some(1 << 20),
        [option, value] if option == "--history" => value.parse().ok(),
        _ => None,
    };
    let Some(history) = history else {
        eprintln!("usage: plain [--history H] < SCRIPT");
        return ExitCode::from(2);
    };
    let mut writer = io::BufWriter::new(io::stdout().lock());
    let replayed = replay(io::stdin().lock(), &mut writer, history);
    let flushed = writer.flush();
    match (replayed, flushed) {
        (Ok(()), Ok(())) => ExitCode::SUCCESS,
        (_, Err(_)) | (Err(Fault::Write), _) => {
            eprintln!("cannot write");
            ExitCode::from(3)
        }
        (Err(Fault::Read), _) => {
            eprintln!("cannot read");
            ExitCode::from(3)
        }
        (Err(Fault::Script(line, text)), _) => {
            eprintln!("line {line}: {text}");
            ExitCode::from(2)
        }
    }
}
