//! A list of faults to plant in a port's sources, one at a time, to see that the comparison notices each.
//!
//! A fault is a block of lines, `word: text`; blocks have an empty line between them, and `#` begins a comment line.
//!
//! ```text
//! name: what-is-wrong
//! file: crates/legacy_central/src/lib.rt
//! in: handle_pairing_random
//! old: the text of a line, or a part of it
//! new: what stands there instead
//! ```
//!
//! `in` names the function in which the old text stands, and may be left out; there the text must stand exactly once.
//! ` | ` in an old text stands for any white space, a line end among it.

use std::ops::Range;

#[derive(Clone, Debug, Default, PartialEq, Eq)]
pub struct Fault {
    pub name: String,
    pub file: String,
    pub within: Option<String>,
    pub old: String,
    pub new: String,
}

/// Reads a list; an error names the line or the fault.
pub fn parse(text: &str) -> Result<Vec<Fault>, String> {
    let mut found: Vec<Fault> = Vec::new();
    for block in blocks(text) {
        let fault = one(&block)?;
        if found.iter().any(|other| other.name == fault.name) {
            return Err(format!("{} is there twice", fault.name));
        }
        found.push(fault);
    }
    Ok(found)
}

fn blocks(text: &str) -> Vec<Vec<&str>> {
    let mut found = vec![Vec::new()];
    for line in text.lines().filter(|line| !line.starts_with('#')) {
        match (line.is_empty(), found.last_mut()) {
            (false, Some(block)) => block.push(line),
            _ => found.push(Vec::new()),
        }
    }
    found.retain(|block| !block.is_empty());
    found
}

fn one(block: &[&str]) -> Result<Fault, String> {
    let mut fault = Fault::default();
    for line in block {
        let (word, text) = line.split_once(": ").ok_or(format!("no `word: text`: {line}"))?;
        let place = match word {
            "name" => &mut fault.name,
            "file" => &mut fault.file,
            "in" => fault.within.insert(String::new()),
            "old" => &mut fault.old,
            "new" => &mut fault.new,
            _ => return Err(format!("no such word: {word}")),
        };
        if !place.is_empty() {
            return Err(format!("twice: {line}"));
        }
        *place = text.into();
    }
    let whole = ![&fault.name, &fault.file, &fault.old].iter().any(|text| text.is_empty());
    let whole = whole && fault.old != fault.new && !fault.name.contains(['/', ' ']);
    whole.then_some(fault).ok_or(format!("no name, file, old or new text: {}", block.join(", ")))
}

/// The function's text: from its `fn` to the line that closes it, which is indented as its beginning is.
fn function(source: &str, name: &str) -> Option<Range<usize>> {
    let start = source.find(&format!("fn {name}("))?;
    let line = source[..start].rfind('\n').map_or(0, |at| at + 1);
    let indent: String = source[line..].chars().take_while(|c| *c == ' ').collect();
    let end = source[start..].find(&format!("\n{indent}}}\n"))?;
    Some(start..start + end)
}

/// Where a text stands; ` | ` in it stands for any white space.
fn places(source: &str, text: &str) -> Vec<Range<usize>> {
    let parts: Vec<&str> = text.split(" | ").collect();
    let begins = source.match_indices(parts[0]).map(|(at, _)| at);
    begins.filter_map(|at| Some(at..reach(source, at, &parts)?)).collect()
}

/// Where the parts end that stand one after another from a place on, white space between them.
fn reach(source: &str, at: usize, parts: &[&str]) -> Option<usize> {
    let mut end = at;
    for (i, part) in parts.iter().enumerate() {
        let rest = &source[end..];
        let blanks = if i == 0 { 0 } else { rest.len() - rest.trim_start().len() };
        rest[blanks..].starts_with(part).then_some(())?;
        end += blanks + part.len();
    }
    Some(end)
}

/// The source with the fault; an error where its text does not stand there exactly once.
pub fn plant(source: &str, fault: &Fault) -> Result<String, String> {
    let range = match &fault.within {
        Some(name) => function(source, name).ok_or(format!("{}: no function {name}", fault.name))?,
        None => 0..source.len(),
    };
    let (before, after) = (&source[..range.start], &source[range.end..]);
    let inside = &source[range];
    match &places(inside, &fault.old)[..] {
        [place] => Ok([before, &inside[..place.start], &fault.new, &inside[place.end..], after].concat()),
        all => Err(format!("{}: the old text stands there {} times", fault.name, all.len())),
    }
}

#[cfg(test)]
mod tests {
    use super::*;

    const SOURCE: &str = "fn a(\n    x: u8,\n) -> u8 {\n    x + 1\n}\n\nfn b(x: u8) -> u8 {\n    x + 1\n}\n";

    fn fault(within: Option<&str>, old: &str) -> Fault {
        let within = within.map(String::from);
        Fault { name: "one".into(), file: "f".into(), within, old: old.into(), new: "x + 2".into() }
    }

    #[test]
    fn planted_in_its_function_alone() {
        let planted = plant(SOURCE, &fault(Some("b"), "x + 1")).expect("it stands there once");
        assert_eq!(planted, SOURCE.replace("fn b(x: u8) -> u8 {\n    x + 1", "fn b(x: u8) -> u8 {\n    x + 2"));
        let planted = plant(SOURCE, &fault(None, "x: u8, | ) -> u8")).expect("it stands there once");
        assert!(planted.starts_with("fn a(\n    x + 2 {"));
    }

    #[test]
    fn not_planted_where_it_stands_twice_or_never() {
        assert!(plant(SOURCE, &fault(None, "x + 1")).is_err());
        assert!(plant(SOURCE, &fault(Some("b"), "x + 3")).is_err());
        assert!(plant(SOURCE, &fault(Some("c"), "x + 1")).is_err());
    }

    #[test]
    fn lists() {
        let text =
            "# a comment\nname: one\nfile: f\nin: b\nold: x: 1\nnew: x: 2\n\n\nname: two\nfile: f\nold: y\nnew: z\n";
        let list = parse(text).expect("a list");
        assert_eq!((list.len(), &list[0].old[..], list[1].within.is_none()), (2, "x: 1", true));
        for bad in ["name: one\nfile: f\nold: x\nnew: x\n", "name: one\n", "what: is\n", "name one\n"] {
            assert!(parse(bad).is_err(), "{bad}");
        }
        assert!(parse(&[text, "\n", text].concat()).is_err());
    }
}
