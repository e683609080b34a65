//! Shows one difference: the case, then field by field what the two answers say.

use reference::{calls, lines, machine};

/// An answer line cut into its five fields.
struct Fields<'a> {
    outcome: &'a str,
    read: &'a str,
    written: &'a str,
    machine: Vec<u8>,
    list: Vec<u8>,
}

fn octets(text: &str) -> Option<Vec<u8>> {
    if text == "-" {
        return Some(Vec::new());
    }
    let pairs = text.as_bytes().chunks(2);
    pairs.map(|p| u8::from_str_radix(std::str::from_utf8(p).ok()?, 16).ok()).collect()
}

fn fields(line: &[u8]) -> Option<Fields<'_>> {
    let text = std::str::from_utf8(line).ok()?;
    let parts: Vec<&str> = text.split(' ').collect();
    let [outcome, read, written, machine, list] = parts[..] else {
        return None;
    };
    let machine = octets(machine).filter(|m| m.len() == machine::LENGTH)?;
    Some(Fields { outcome, read, written, machine, list: octets(list)? })
}

fn hexadecimal(octets: &[u8]) -> String {
    let mut out = Vec::new();
    lines::push_octets(&mut out, octets);
    String::from_utf8_lossy(&out).into_owned()
}

/// A line for the eye: at most 1,500 characters of it.
fn shortened(line: &[u8]) -> String {
    let text = String::from_utf8_lossy(line);
    match text.char_indices().nth(1500) {
        Some((at, _)) => format!("{}.. ({} octets)", &text[..at], line.len()),
        None => text.into_owned(),
    }
}

/// Prints case number, input line, and what differs.
pub fn show(number: usize, case: &[u8], panic: Option<&str>, expected: &[u8], found: Option<&[u8]>) {
    let whole = case.len() <= lines::LONGEST_LINE;
    println!("case {number} differs: {}", if whole { String::from_utf8_lossy(case).into() } else { shortened(case) });
    if let Some(name) = panic {
        println!("  the Rust panics here ({name}); expected is document 01's answer");
    }
    let Some(found) = found else {
        println!("  expected {}", shortened(expected));
        return println!("  no answer");
    };
    match (fields(expected), fields(found)) {
        (Some(expected), Some(found)) => show_fields(&expected, &found),
        _ => {
            println!("  expected {}", shortened(expected));
            println!("  found    {}", shortened(found));
        }
    }
}

fn show_fields(expected: &Fields, found: &Fields) {
    let words = [
        ("outcome", expected.outcome, found.outcome),
        ("read", expected.read, found.read),
        ("written", expected.written, found.written),
    ];
    for (name, expected, found) in words {
        if expected != found {
            println!("  {name}: expected {expected}, found {found}");
        }
    }
    for field in &machine::FIELDS {
        let of = |m: &[u8]| hexadecimal(&m[field.at..field.at + field.length]);
        let (expected, found) = (of(&expected.machine), of(&found.machine));
        if expected != found {
            println!("  machine, {}: expected {expected}, found {found}", field.name);
        }
    }
    if expected.list != found.list {
        show_lists(expected, found);
    }
}

fn show_lists(expected: &Fields, found: &Fields) {
    let (ours, theirs) = (records(expected), records(found));
    for i in 0..ours.len().max(theirs.len()) {
        let (a, b) = (ours.get(i), theirs.get(i));
        if a != b {
            let none = "nothing".to_string();
            println!("  list, record {}: expected {}, found {}", i + 1, a.unwrap_or(&none), b.unwrap_or(&none));
        }
    }
}

/// The list's records in words; what lies beyond the octets written is one more where touched.
fn records(answer: &Fields) -> Vec<String> {
    let written = answer.written.parse().unwrap_or(0).min(answer.list.len());
    let (calls, rest) = answer.list.split_at(written);
    let mut shown = match calls::records(calls) {
        Some(records) => {
            records.iter().map(|(k, body)| format!("{:02x} {} {}", k.code, k.name, hexadecimal(body))).collect()
        }
        None => vec![format!("no call list: {}", hexadecimal(calls))],
    };
    let touched = rest.iter().position(|&o| o != reference::step::UNTOUCHED);
    let rest_shown = touched.map_or("untouched".into(), |at| format!("touched at {}: {:02x}", written + at, rest[at]));
    shown.push(format!("then {} octets {rest_shown}", rest.len()));
    shown
}
