//! Step lines made at random, the same for the same seed, and the fair link that plays whole pairings.

pub mod answers;
pub mod link;
pub mod machines;
mod malformed;
pub mod random;
mod sweep;
mod vary;

use std::io::{self, Write};

use random::Random;
use reference::{lines, Step};

/// Takes lines until there are enough. The last has no line feed.
pub struct Sink {
    out: Box<dyn Write>,
    left: usize,
    error: Option<io::Error>,
    line: Vec<u8>,
}

impl Sink {
    pub fn new(out: Box<dyn Write>, count: usize) -> Self {
        Self { out, left: count, error: None, line: Vec::new() }
    }

    pub fn step(&mut self, given: &Step) {
        let mut line = std::mem::take(&mut self.line);
        line.clear();
        lines::push_step(&mut line, given);
        self.raw(&line);
        self.line = line;
    }

    /// A line without its line feed.
    pub fn raw(&mut self, line: &[u8]) {
        if self.left == 0 || self.error.is_some() {
            return;
        }
        self.left -= 1;
        let end: &[u8] = if self.left == 0 && !line.is_empty() { b"" } else { b"\n" };
        let written = self.out.write_all(line).and_then(|()| self.out.write_all(end));
        self.error = written.err();
    }

    pub fn is_full(&self) -> bool {
        self.left == 0 || self.error.is_some()
    }

    /// Whether all lines could be written.
    pub fn finish(mut self) -> io::Result<()> {
        self.error.map_or_else(|| self.out.flush(), Err)
    }
}

/// How many families there are.
pub const FAMILIES: usize = 10;

/// The families' shares of the lines in a hundred, in the order of [`Generator::family`].
const SHARES: [usize; FAMILIES] = [25, 14, 9, 2, 20, 4, 3, 12, 7, 4];

pub struct Generator {
    random: Random,
    /// Lines so far, by family.
    made: [usize; FAMILIES],
    /// Where the families that go through cells stand.
    length: usize,
    grid: usize,
    code: u8,
}

impl Generator {
    pub fn new(seed: u64) -> Self {
        let mut random = Random::new(seed);
        let (length, grid) = (random.below(sweep::LENGTH_CELLS), random.below(sweep::GRID_CELLS));
        Self { code: random.octet(), random, made: [0; FAMILIES], length, grid }
    }

    /// One scenario of the family that is furthest behind its share, whose number it gives.
    pub fn scenario(&mut self, sink: &mut Sink) -> usize {
        let share_made = |family: &usize| self.made[*family] * 10_000 / SHARES[*family];
        let behind = (0..FAMILIES).min_by_key(share_made).unwrap_or(0);
        let before = sink.left;
        self.family(behind, sink);
        self.made[behind] += before - sink.left;
        behind
    }

    fn family(&mut self, number: usize, sink: &mut Sink) {
        let r = &mut self.random;
        match number {
            0 => link::pairing(r, sink),
            1 => {
                // The step is prime and no divisor of the number of cells: every cell is visited.
                self.length = (self.length + 10_007) % sweep::LENGTH_CELLS;
                sweep::length(r, sink, self.length);
            }
            2 => {
                self.grid = (self.grid + 1) % sweep::GRID_CELLS;
                sweep::grid(r, sink, self.grid);
            }
            3 => sweep::panics(r, sink),
            4 => sweep::damaged(r, sink),
            5 => sweep::lists(r, sink),
            6 => {
                self.code = self.code.wrapping_add(1);
                sweep::code(r, sink, self.code);
            }
            7 => sweep::random(r, sink),
            8 => sweep::confirm(r, sink),
            _ => malformed::line(r, sink),
        }
    }
}
