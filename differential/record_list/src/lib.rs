//! A list of step lines with their answers (the Rust's; document 01's where a step is refused or the Rust panics; the
//! format's where a line is malformed), chosen to reach every cell of the coverage, with lines for what
//! document 01 says of single steps and for what the Rust alone says.

pub mod build;
pub mod chosen;
pub mod corners;
pub mod example;
pub mod rust_alone;

use build::Named;

/// The lines, without line feeds, and the names of those that have one, with their numbers from 1.
pub struct List {
    pub lines: Vec<Vec<u8>>,
    pub answers: Vec<Vec<u8>>,
    pub index: Vec<(usize, String)>,
}

impl List {
    fn push(&mut self, line: Vec<u8>, name: Option<String>) {
        self.answers.push(answer(&line));
        self.lines.push(line);
        self.index.extend(name.map(|name| (self.lines.len(), name)));
    }

    fn push_named(&mut self, named: Named) {
        self.push(named.line(), Some(named.name));
    }

    /// The lines with their line feeds; the last has none, which makes it malformed.
    pub fn stdin(&self) -> Vec<u8> {
        self.lines.join(&b'\n')
    }

    pub fn stdout(&self) -> Vec<u8> {
        self.answers.iter().flat_map(|a| [a, &b"\n"[..]].concat()).collect()
    }

    pub fn index_text(&self) -> String {
        self.index.iter().map(|(number, name)| format!("{number}\t{name}\n")).collect()
    }
}

/// The Rust's answer to a line; where it panics, document 01's.
pub fn answer(line: &[u8]) -> Vec<u8> {
    let mut out = Vec::new();
    reference::lines::push_reply(&mut out, line);
    out.pop();
    match out.strip_prefix(b"panicked:") {
        Some(rest) => rest.iter().skip_while(|o| **o != b' ').skip(1).copied().collect(),
        None => out,
    }
}

/// The list of a seed.
pub fn list(seed: u64) -> List {
    let mut list = List { lines: Vec::new(), answers: Vec::new(), index: Vec::new() };
    for named in corners::all().into_iter().chain(rust_alone::all()) {
        list.push_named(named);
    }
    for (line, name) in chosen::choose(seed) {
        list.push(line, name);
    }
    for (i, pair) in example::pairs().into_iter().enumerate() {
        list.push(pair.line.into_bytes(), Some(format!("document 01, whole example, line {} of 2", i + 1)));
    }
    list.lines.push(example::pairs()[0].line.clone().into_bytes());
    list.answers.push(b"malformed".to_vec());
    list.index.push((list.lines.len(), "malformed: a last line without a line feed".into()));
    list
}
