//! Document 01's whole example: lines in and out, written by hand in `example.txt`.

const TEXT: &str = include_str!("../example.txt");

/// A line of the example and the answer that document 01 gives to it.
pub struct Pair {
    pub line: String,
    pub answer: String,
}

/// A word of the text: octets or a plain word, `WORD*N` so many times.
fn expand(word: &str) -> String {
    match word.split_once('*') {
        Some((part, times)) => part.repeat(times.parse().expect("a number of times")),
        None => word.into(),
    }
}

/// The step lines of the text, in and out by turns.
fn lines() -> Vec<String> {
    let mut found: Vec<String> = Vec::new();
    for line in TEXT.lines() {
        let mut words = line.split('#').next().unwrap_or("").split_whitespace().peekable();
        match words.peek() {
            Some(&"=") => {
                found.push(String::new());
                continue;
            }
            Some(&"+") => {
                words.next();
                let line = found.last_mut().expect("a mark = comes first");
                if !line.is_empty() {
                    line.push(' ');
                }
            }
            _ => {}
        }
        if let Some(line) = found.last_mut() {
            line.extend(words.map(expand));
        }
    }
    found
}

pub fn pairs() -> Vec<Pair> {
    let all = lines();
    all.chunks_exact(2).map(|two| Pair { line: two[0].clone(), answer: two[1].clone() }).collect()
}
