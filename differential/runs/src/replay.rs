//! Goes through a run's moves again as document 01's fair link says, apart from the program that
//! played them: whether each was allowed, and what the link has come to behind the last.

use std::collections::VecDeque;

use cases::link::{Move, Shared, ROLES};
use reference::machine::Record;
use reference::{calls, Input, Outcome, Step};

use crate::claims::{Claim, Violations};
use crate::play::Run;

/// A call that was listed: kind and body.
pub type Call = (u8, Vec<u8>);

#[derive(Clone, Copy, Debug, PartialEq, Eq)]
pub enum Due {
    PassKey,
    Oob,
    Report,
}

/// A step that wants: its input and answers, and the calls that it has listed.
struct Open {
    given: Step,
    listed: Vec<Call>,
}

pub struct End {
    pub machine: Record,
    pub queue: VecDeque<Call>,
    pub due: Vec<Due>,
    open: Option<Open>,
    pub calls: Vec<Call>,
    had_oob: bool,
}

impl End {
    fn fresh(machine: Record) -> Self {
        let (queue, due, calls) = (VecDeque::new(), Vec::new(), Vec::new());
        Self { machine, queue, due, open: None, calls, had_oob: false }
    }

    /// Whether nothing is queued, due or open.
    pub fn is_idle(&self) -> bool {
        self.queue.is_empty() && self.due.is_empty() && self.open.is_none()
    }

    pub fn bodies(&self, code: u8) -> Vec<&[u8]> {
        self.calls.iter().filter(|(kind, _)| *kind == code).map(|(_, body)| &body[..]).collect()
    }
}

/// What the moves have come to.
pub struct Played {
    /// Terminal, head.
    pub ends: [End; 2],
    /// Moves of the first kind.
    pub inputs: usize,
}

/// Goes through all moves; a move that was not allowed or not fair is noted, and then made.
pub fn replay(run: &Run, found: &mut Violations) -> Played {
    let mut played = Played { ends: run.start.machines().map(End::fresh), inputs: 0 };
    played.ends[1].queue.push_back((0x01, run.start.request.to_vec()));
    for (number, moved) in run.moves.iter().enumerate() {
        if let Err(why) = played.take(&run.shared, moved) {
            found.note(Claim::Allowed, format!("move {}: {why}", number + 1));
        }
        if let Err(why) = fair_answers(&run.shared, moved) {
            found.note(Claim::Fair, format!("move {}: {why}", number + 1));
        }
        if let Some(why) = refused(moved) {
            found.note(Claim::Accepted, format!("move {}: {why}", number + 1));
        }
        if let Err(why) = played.follow(moved) {
            found.note(Claim::Listed, format!("move {}: {why}", number + 1));
        }
    }
    played
}

fn refused(moved: &Move) -> Option<String> {
    match (moved.answer.panicked, moved.answer.outcome) {
        (Some(name), _) => Some(format!("panicked:{name}")),
        (None, Outcome::Refused(number)) => Some(format!("refused {number}")),
        _ => None,
    }
}

/// The calls on the list.
fn listed(moved: &Move) -> Option<Vec<Call>> {
    let records = calls::records(moved.answer.list.get(..moved.answer.written)?)?;
    Some(records.into_iter().map(|(kind, body)| (kind.code, body.to_vec())).collect())
}

impl Played {
    /// Takes the input out of its queue or of what is due, or the open step that is run again.
    fn take(&mut self, shared: &Shared, moved: &Move) -> Result<(), String> {
        let Move { at, given, .. } = moved;
        let head_had_oob = self.ends[1].had_oob;
        let end = &mut self.ends[*at];
        if moved.again {
            return run_again(end.open.as_ref(), given);
        }
        self.inputs += 1;
        if given.role != ROLES[*at] || given.machine != end.machine {
            return Err("another machine than the one of that end".into());
        }
        if end.open.is_some() {
            return Err("an input at an end that has an open step".into());
        }
        let due = match given.input {
            Input::Command(code) => return take_packet(end, code, &given.payload),
            Input::PassKeyInput(passkey) if passkey == shared.passkey(&end.machine) => Due::PassKey,
            Input::OobDataReceived(data) if data == shared.oob => Due::Oob,
            Input::LinkEncryptedResult(true) => Due::Report,
            other => return Err(format!("no input of a fair link: {other:?}")),
        };
        let place = end.due.iter().position(|d| *d == due).ok_or(format!("{due:?} is not due"))?;
        end.due.remove(place);
        end.had_oob |= due == Due::Oob;
        if due == Due::Oob && *at == 0 && !head_had_oob {
            return Err("the terminal gets its OOB data before the head".into());
        }
        Ok(())
    }

    /// What the step comes to: its new calls count, and it is open or leaves its machine.
    fn follow(&mut self, moved: &Move) -> Result<(), String> {
        let all = listed(moved).ok_or("what is listed is no call list")?;
        let end = &mut self.ends[moved.at];
        let before = end.open.take().map_or(Vec::new(), |open| open.listed);
        let known = if moved.again { before.len() } else { 0 };
        let same = all.get(..known).is_some_and(|first| first == &before[..known]);
        for call in all.iter().skip(known) {
            self.count(moved.at, call);
        }
        let end = &mut self.ends[moved.at];
        end.machine = moved.answer.machine;
        if moved.answer.outcome == Outcome::Wants {
            end.open = Some(Open { given: moved.given.clone(), listed: all });
            if end.machine != moved.given.machine {
                return Err("a step that wants changed the machine".into());
            }
        }
        same.then_some(()).ok_or("a step that was run again listed other calls than before".into())
    }

    /// A packet joins the other end's queue; the first 0x23, 0x25 and 0x3a make an event due.
    fn count(&mut self, at: usize, call: &Call) {
        let end = &mut self.ends[at];
        let is_first = end.calls.iter().all(|(kind, _)| *kind != call.0);
        end.calls.push(call.clone());
        match call.0 {
            0x23 if is_first => end.due.push(Due::PassKey),
            0x25 if is_first => end.due.push(Due::Oob),
            0x3a if is_first => end.due.push(Due::Report),
            code if code < 0x20 => self.ends[1 - at].queue.push_back(call.clone()),
            _ => {}
        }
    }
}

fn run_again(open: Option<&Open>, given: &Step) -> Result<(), String> {
    let before = &open.ok_or("no step is open there")?.given;
    let same = (before.role, before.machine, before.input) == (given.role, given.machine, given.input);
    if !same || before.payload != given.payload {
        return Err("run again on another machine or input".into());
    }
    let more = given.answers.len() > before.answers.len() && given.answers.starts_with(&before.answers);
    more.then_some(()).ok_or("run again without its answers and one more".into())
}

fn take_packet(end: &mut End, code: u8, payload: &[u8]) -> Result<(), String> {
    if end.due.contains(&Due::Report) {
        return Err("a packet at an end whose report is due".into());
    }
    match end.queue.pop_front() {
        Some(oldest) if oldest == (code, payload.to_vec()) => Ok(()),
        Some((oldest, _)) => Err(format!("packet {code:02x} instead of the oldest queued, {oldest:02x}")),
        None => Err(format!("packet {code:02x}, and none is queued")),
    }
}

/// Whether the answers that the step reached are a fair host's: all verdicts 0, a drawn passkey the
/// one that is shown, nothing that refusal 3 is for.
fn fair_answers(shared: &Shared, moved: &Move) -> Result<(), String> {
    if moved.given.list_len < reference::step::LONGEST {
        return Err("the list is too short".into());
    }
    let Some(all) = listed(moved) else {
        return Ok(());
    };
    let answered = all.len() - usize::from(moved.answer.outcome == Outcome::Wants && !all.is_empty());
    let mut rest = &moved.given.answers[..];
    for (code, _) in &all[..answered] {
        let Some((kind, (&found, body))) = calls::find(*code).zip(rest.split_first()) else {
            return Err(format!("no answer to {code:02x}"));
        };
        let Some((body, after)) = body.split_at_checked(kind.answer).filter(|_| found == *code) else {
            return Err(format!("a cut answer to {code:02x}, or one of another kind"));
        };
        let other_passkey = *code == 0x36 && body != shared.shown.to_le_bytes();
        if kind.verdict && body[0] != 0 || calls::forbidden(*code, body) || other_passkey {
            return Err(format!("an answer to {code:02x} that is not fair"));
        }
        rest = after;
    }
    Ok(())
}
