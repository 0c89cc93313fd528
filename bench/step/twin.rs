//! The twin of `program.txt` in plain Rust: the same words, the same steps, and the same answer. The
//! cells of a world stand in one vector, and a cell names another by its index.

use std::env;

/// A cell: the fields that processes read and write.
#[derive(Clone, Copy, Default)]
struct Cell {
    number: Option<u32>,
    seq: u64,
    before: Option<u32>,
    after: Option<u32>,
    new: Option<(u32, Option<u32>)>,
}

/// The step that a process takes next, with what it has read.
#[derive(Clone, Copy)]
enum Stage {
    Announce,
    ReadHead { q: usize, best: u32, seq: u64 },
    ReadHeadSeq { q: usize, best: u32, seq: u64, head: u32 },
    WriteBest { best: u32, seq: u64 },
    Test { at: u32, seq: u64 },
    ReadAnnounce { at: u32, seq: u64 },
    ReadOther { at: u32, seq: u64, other: u32 },
    DecideAfter { at: u32, seq: u64, prefer: u32 },
    DecideNew { at: u32, seq: u64, next: u32 },
    WriteBefore { at: u32, seq: u64, next: u32 },
    WriteSeq { seq: u64, next: u32 },
    WriteHead { seq: u64, next: u32 },
    Finish { own: u64, seq: u64 },
}

/// A process, with its call where it makes one.
#[derive(Clone, Copy, Default)]
struct Process {
    call: Option<(u32, Stage)>,
    made: usize,
}

struct World {
    cells: Vec<Cell>,
    announce: Vec<u32>,
    heads: Vec<u32>,
    processes: Vec<Process>,
}

impl World {
    fn open(n: usize, k: usize) -> World {
        let mut cells = Vec::with_capacity(n * k + 1);
        cells.resize(n * k + 1, Cell::default());
        cells[0] = Cell { seq: 1, new: Some((0, None)), ..Cell::default() };
        World {
            cells,
            announce: vec![0; n],
            heads: vec![0; n],
            processes: vec![Process::default(); n],
        }
    }

    fn begin(&mut self, p: usize, number: u32) {
        let process = &mut self.processes[p];
        let cell = 1 + process.made * self.heads.len() + p;
        process.made += 1;
        process.call = Some((cell as u32, Stage::Announce));
        self.cells[cell].number = Some(number);
    }

    /// One step of a process that makes a call: its response, where the call ends.
    fn step(&mut self, p: usize) -> Option<u32> {
        let (mine, stage) = self.processes[p].call?;
        let n = self.heads.len();
        let next = match stage {
            Stage::Announce => {
                self.announce[p] = mine;
                Stage::ReadHead { q: 0, best: 0, seq: 0 }
            }
            Stage::ReadHead { q, best, seq } => {
                Stage::ReadHeadSeq { q, best, seq, head: self.heads[q] }
            }
            Stage::ReadHeadSeq { q, best, seq, head } => {
                let found = self.cells[head as usize].seq;
                let (best, seq) = if found > seq { (head, found) } else { (best, seq) };
                if q + 1 < n {
                    Stage::ReadHead { q: q + 1, best, seq }
                } else {
                    Stage::WriteBest { best, seq }
                }
            }
            Stage::WriteBest { best, seq } => {
                self.heads[p] = best;
                Stage::Test { at: best, seq }
            }
            Stage::Test { at, seq } => match self.cells[mine as usize].seq {
                0 => Stage::ReadAnnounce { at, seq },
                own => Stage::Finish { own, seq },
            },
            Stage::ReadAnnounce { at, seq } => {
                Stage::ReadOther { at, seq, other: self.announce[seq as usize % n] }
            }
            Stage::ReadOther { at, seq, other } => {
                let pending = self.cells[other as usize].seq == 0;
                Stage::DecideAfter { at, seq, prefer: if pending { other } else { mine } }
            }
            Stage::DecideAfter { at, seq, prefer } => {
                let next = *self.cells[at as usize].after.get_or_insert(prefer);
                Stage::DecideNew { at, seq, next }
            }
            Stage::DecideNew { at, seq, next } => {
                let (state, _) = self.cells[at as usize].new.unwrap();
                let cell = &mut self.cells[next as usize];
                let number = cell.number.unwrap();
                cell.new.get_or_insert((number, Some(state)));
                Stage::WriteBefore { at, seq, next }
            }
            Stage::WriteBefore { at, seq, next } => {
                self.cells[next as usize].before = Some(at);
                Stage::WriteSeq { seq, next }
            }
            Stage::WriteSeq { seq, next } => {
                self.cells[next as usize].seq = seq + 1;
                Stage::WriteHead { seq, next }
            }
            Stage::WriteHead { seq, next } => {
                self.heads[p] = next;
                Stage::Test { at: next, seq: seq + 1 }
            }
            Stage::Finish { own, seq } => {
                if own > seq {
                    self.heads[p] = mine;
                }
                self.processes[p].call = None;
                return self.cells[mine as usize].new.unwrap().1;
            }
        };
        self.processes[p].call = Some((mine, next));
        None
    }
}

fn round(n: usize, k: usize) -> u64 {
    let mut world = World::open(n, k);
    let mut steps = 0;
    for _ in 0..k {
        for p in 0..n {
            world.begin(p, 7);
            loop {
                steps += 1;
                if world.step(p).is_some() {
                    break;
                }
            }
        }
    }
    steps
}

fn main() {
    let words: Vec<usize> = env::args().skip(1).map(|word| word.parse().unwrap_or(0)).collect();
    let (n, k, worlds) = (words[0], words[1], words[2]);
    let steps: u64 = (0..worlds).map(|_| round(n, k)).sum();
    println!("{steps}");
}
