//! Step lines: reading, writing, and answering a stream of them.

use std::io::{self, BufRead, Write};

use crate::machine;
use crate::step::{step, Answer, Input, Outcome, Role, Step};

/// The longest lent list, payload or answers.
pub const MOST: usize = 4096;

/// A line over this many octets is one malformed line.
pub const LONGEST_LINE: usize = 20_000;

fn digit(octet: u8) -> Option<u8> {
    match octet {
        b'0'..=b'9' => Some(octet - b'0'),
        b'a'..=b'f' => Some(octet - b'a' + 10),
        _ => None,
    }
}

fn hexadecimal(text: &[u8]) -> Option<Vec<u8>> {
    if text.len() & 1 == 1 {
        return None;
    }
    text.chunks_exact(2).map(|pair| Some(digit(pair[0])? << 4 | digit(pair[1])?)).collect()
}

/// Exactly so many octets.
fn exact<const N: usize>(text: &[u8]) -> Option<[u8; N]> {
    hexadecimal(text)?.try_into().ok()
}

/// `-`, or at least one octet and at most 4096.
fn octets(text: &[u8]) -> Option<Vec<u8>> {
    match text {
        b"-" => Some(Vec::new()),
        [] => None,
        _ if text.len() > 2 * MOST => None,
        _ => hexadecimal(text),
    }
}

/// One to four decimal digits, leading zeros allowed, at most 4096.
fn list_length(text: &[u8]) -> Option<usize> {
    if text.is_empty() || text.len() > 4 || !text.iter().all(u8::is_ascii_digit) {
        return None;
    }
    let length = text.iter().fold(0, |n, d| 10 * n + usize::from(d - b'0'));
    (length <= MOST).then_some(length)
}

fn input(text: &[u8]) -> Option<Input> {
    let (letter, rest) = text.split_first()?;
    match (letter, rest) {
        (b'c', code) => exact::<1>(code).map(|[code]| Input::Command(code)),
        (b'l', b"0") => Some(Input::LinkEncryptedResult(false)),
        (b'l', b"1") => Some(Input::LinkEncryptedResult(true)),
        (b'k', b"") => Some(Input::PassKeyConfirm),
        (b'x', b"") => Some(Input::PassKeyCancel),
        (b'i', passkey) => exact(passkey).map(|o| Input::PassKeyInput(u32::from_le_bytes(o))),
        (b'o', random) => exact(random).map(Input::OobDataReceived),
        _ => None,
    }
}

/// Reads a line without its line feed; none where it is malformed.
pub fn parse(line: &[u8]) -> Option<Step> {
    let mut fields = line.split(|&o| o == b' ');
    let given = [(); 6].map(|()| fields.next());
    if fields.next().is_some() {
        return None;
    }
    let role = match given[0]? {
        b"c" => Role::Central,
        b"p" => Role::Peripheral,
        _ => return None,
    };
    let parsed = Step {
        role,
        list_len: list_length(given[1]?)?,
        machine: exact(given[2]?)?,
        input: input(given[3]?)?,
        payload: octets(given[4]?)?,
        answers: octets(given[5]?)?,
    };
    let may_carry = matches!(parsed.input, Input::Command(_)) || parsed.payload.is_empty();
    (may_carry && machine::is_canonical(role, &parsed.machine)).then_some(parsed)
}

/// Appends octets in hexadecimal, `-` where there are none.
pub fn push_octets(out: &mut Vec<u8>, octets: &[u8]) {
    const DIGITS: &[u8; 16] = b"0123456789abcdef";
    if octets.is_empty() {
        out.push(b'-');
    }
    for octet in octets {
        out.push(DIGITS[usize::from(octet >> 4)]);
        out.push(DIGITS[usize::from(octet & 15)]);
    }
}

fn push_input(out: &mut Vec<u8>, input: Input) {
    match input {
        Input::Command(code) => {
            out.push(b'c');
            push_octets(out, &[code]);
        }
        Input::LinkEncryptedResult(on) => out.extend([b'l', b'0' + u8::from(on)]),
        Input::PassKeyConfirm => out.push(b'k'),
        Input::PassKeyCancel => out.push(b'x'),
        Input::PassKeyInput(passkey) => {
            out.push(b'i');
            push_octets(out, &passkey.to_le_bytes());
        }
        Input::OobDataReceived(random) => {
            out.push(b'o');
            push_octets(out, &random);
        }
    }
}

/// Appends a step as a line, without its line feed.
pub fn push_step(out: &mut Vec<u8>, given: &Step) {
    out.push(if given.role == Role::Central { b'c' } else { b'p' });
    out.extend(format!(" {} ", given.list_len).bytes());
    push_octets(out, &given.machine);
    out.push(b' ');
    push_input(out, given.input);
    out.push(b' ');
    push_octets(out, &given.payload);
    out.push(b' ');
    push_octets(out, &given.answers);
}

/// Appends an answer as a line, without its line feed.
pub fn push_answer(out: &mut Vec<u8>, answer: &Answer) {
    if let Some(name) = answer.panicked {
        out.extend(format!("panicked:{name} ").bytes());
    }
    let outcome = match answer.outcome {
        Outcome::Ended => "ended",
        Outcome::Wants => "wants",
        Outcome::Refused(1) => "refused1",
        Outcome::Refused(2) => "refused2",
        Outcome::Refused(_) => "refused3",
    };
    out.extend(format!("{outcome} {} {} ", answer.read, answer.written).bytes());
    push_octets(out, &answer.machine);
    out.push(b' ');
    push_octets(out, &answer.list);
}

/// The answer to a line, with its line feed.
pub fn push_reply(out: &mut Vec<u8>, line: &[u8]) {
    match parse(line) {
        Some(given) => push_answer(out, &step(&given)),
        None => out.extend(b"malformed"),
    }
    out.push(b'\n');
}

/// Reads one line into `line`, at most one octet more than the longest; none at the end of the
/// input. The flag says whether the line feed was there.
pub fn next_line(reader: &mut impl BufRead, line: &mut Vec<u8>) -> io::Result<Option<bool>> {
    line.clear();
    let mut begun = false;
    loop {
        let buffer = reader.fill_buf()?;
        if buffer.is_empty() {
            return Ok(begun.then_some(false));
        }
        begun = true;
        let end = buffer.iter().position(|&o| o == b'\n');
        let length = end.unwrap_or(buffer.len());
        let room = (LONGEST_LINE + 1).saturating_sub(line.len());
        line.extend_from_slice(&buffer[..length.min(room)]);
        reader.consume(length + usize::from(end.is_some()));
        if end.is_some() {
            return Ok(Some(true));
        }
    }
}

/// Answers every line of the input.
pub fn answer_all(mut reader: impl BufRead, mut writer: impl Write) -> io::Result<()> {
    let (mut line, mut out) = (Vec::new(), Vec::new());
    while let Some(whole) = next_line(&mut reader, &mut line)? {
        if whole && line.len() <= LONGEST_LINE {
            push_reply(&mut out, &line);
        } else {
            out.extend(b"malformed\n");
        }
        if out.len() > 1 << 16 {
            writer.write_all(&out)?;
            out.clear();
        }
    }
    writer.write_all(&out)?;
    writer.flush()
}
