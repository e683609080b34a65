//! Lines chosen from a pool of random ones: at least one for every cell of the coverage, then some of every family.

use std::cell::RefCell;
use std::collections::BTreeSet;
use std::io::{self, Write};
use std::rc::Rc;

use cases::{Generator, Sink, FAMILIES};
use compare::coverage::{Coverage, Place};
use reference::lines::{self, LONGEST_LINE};
use reference::step::LONGEST;

use crate::answer;

/// Lines in the pool.
const POOL: usize = 300_000;

/// Lines of each family beyond those that fill a cell.
const OF_FAMILY: usize = 25;

/// A line and its answer that are short enough to be taken by the hundred.
const SHORT: usize = 1600;

/// Takes what a generator writes.
#[derive(Clone, Default)]
struct Page(Rc<RefCell<Vec<u8>>>);

impl Write for Page {
    fn write(&mut self, octets: &[u8]) -> io::Result<usize> {
        self.0.borrow_mut().extend_from_slice(octets);
        Ok(octets.len())
    }

    fn flush(&mut self) -> io::Result<()> {
        Ok(())
    }
}

/// The pool: lines with their families.
fn pool(seed: u64) -> Vec<(usize, Vec<u8>)> {
    let page = Page::default();
    let mut sink = Sink::new(Box::new(page.clone()), usize::MAX);
    let mut generator = Generator::new(seed);
    let mut found = Vec::new();
    while found.len() < POOL {
        let family = generator.scenario(&mut sink);
        let text = std::mem::take(&mut *page.0.borrow_mut());
        found.extend(text.split_inclusive(|&o| o == b'\n').map(|line| (family, line[..line.len() - 1].to_vec())));
    }
    found
}

/// The cells that a line reaches.
fn cells(line: &[u8]) -> BTreeSet<Place> {
    let mut out = Vec::new();
    lines::push_reply(&mut out, line);
    let text = String::from_utf8_lossy(&out);
    let name = text.strip_prefix("panicked:").and_then(|rest| rest.split(' ').next());
    let mut coverage = Coverage::default();
    coverage.line(line, name, &answer(line));
    coverage.reached()
}

fn is_short(line: &[u8]) -> bool {
    let list_len = lines::parse(line).map_or(0, |given| given.list_len);
    list_len <= LONGEST && line.len() + answer(line).len() <= SHORT
}

/// The lines that are long: the longest list, payload and answers that a line may have, and lines of 20,000 octets and more.
fn is_wanted_long(line: &[u8], number: usize) -> bool {
    match (number, lines::parse(line)) {
        (0, Some(given)) => given.list_len == lines::MOST,
        (1, Some(given)) => given.payload.len() == lines::MOST && given.list_len == LONGEST,
        (2, Some(given)) => given.answers.len() == lines::MOST && given.list_len == LONGEST,
        (3, None) => line.len() == LONGEST_LINE,
        (4, None) => line.len() == LONGEST_LINE + 1,
        _ => false,
    }
}

const LONG: [&str; 5] = [
    "the longest list",
    "the longest payload",
    "the longest answers",
    "malformed: 20,000 octets",
    "malformed: 20,001 octets",
];

/// The lines, each with a name where it is there for one thing alone.
pub fn choose(seed: u64) -> Vec<(Vec<u8>, Option<String>)> {
    let pool = pool(seed);
    let mut full = BTreeSet::new();
    let mut taken = BTreeSet::new();
    let reached: Vec<BTreeSet<Place>> = pool.iter().map(|(_, line)| cells(line)).collect();
    for short_alone in [true, false] {
        for (i, (_, line)) in pool.iter().enumerate() {
            if !reached[i].is_subset(&full) && (!short_alone || is_short(line)) {
                full.extend(reached[i].iter().cloned());
                taken.insert(i);
            }
        }
    }
    for family in 0..FAMILIES {
        taken.extend(of_family(&pool, family));
    }
    let mut found: Vec<_> = taken.into_iter().map(|i| (pool[i].1.clone(), None)).collect();
    for (number, name) in LONG.iter().enumerate() {
        let line = pool.iter().map(|(_, line)| line).find(|line| is_wanted_long(line, number));
        found.extend(line.map(|line| (line.clone(), Some(name.to_string()))));
    }
    found
}

/// Places of lines of a family, spread over the pool; other list lengths are among them.
fn of_family(pool: &[(usize, Vec<u8>)], family: usize) -> Vec<usize> {
    let fits = |line: &[u8]| line.len() + answer(line).len() <= 2 * SHORT;
    let all: Vec<usize> = (0..pool.len()).filter(|&i| pool[i].0 == family).collect();
    let apart = (all.len() / OF_FAMILY).max(1);
    let spread = all.chunks(apart).filter_map(|part| part.iter().copied().find(|&i| fits(&pool[i].1)));
    spread.take(OF_FAMILY).collect()
}
