//! Demand 3: what document 01 claims of every fair run, each claim looked at apart.

use reference::machine::{self, Record};
use reference::{Input, Outcome};

use crate::method::{self, Method};
use crate::play::Run;
use crate::replay::{replay, Played};

/// The most inputs of any list of moves.
pub const MOST_INPUTS: usize = 18;

/// The most moves, re-runs included: each input and each host call that a step makes is one at most.
pub const MOST_MOVES: usize = 56;

/// `Allowed` and `Fair` are premises: the run is one of the fair link. The others are claimed of it.
#[derive(Clone, Copy, Debug, PartialEq, Eq, PartialOrd, Ord)]
pub enum Claim {
    /// Every answer of the other program is the Rust's. See [`crate::port`].
    Equal,
    /// Every move is one that the link allows.
    Allowed,
    /// Every answer is one that a fair host gives.
    Fair,
    /// No step is refused, and the Rust does not panic.
    Accepted,
    /// A list of calls can be read, a re-run lists what it listed before, a wanting step keeps its machine.
    Listed,
    /// The moves are bounded.
    Bounded,
    /// Inputs are at most 18.
    FewInputs,
    /// At the end nothing is queued, due or open.
    Idle,
    /// The head has sent one response.
    Answered,
    /// Inputs are 8 + entries + twice the keys.
    Counted,
    /// Each end has called for encryption once.
    EncryptsOnce,
    /// Both with the same key.
    SameKey,
    /// Both with the same level.
    SameLevel,
    /// The terminal stands in Success.
    TerminalEnds,
    /// The head stands in Success, or in the excepted case waits for the identity key.
    HeadEnds,
    /// Both bonds hold the LTK that the head sent, cut to the negotiated size, and its EDIV and Rand.
    SameBonds,
    /// The shared passkey was shown once by an end that the method has show it, and by none else.
    Shown,
}

#[derive(Default)]
pub struct Violations(pub Vec<(Claim, String)>);

impl Violations {
    pub fn note(&mut self, claim: Claim, what: impl Into<String>) {
        self.0.push((claim, what.into()));
    }

    fn unless(&mut self, holds: bool, claim: Claim, what: impl FnOnce() -> String) {
        if !holds {
            self.note(claim, what());
        }
    }
}

/// What a run that keeps every claim was.
#[derive(Clone, Debug)]
pub struct Facts {
    pub method: Method,
    pub both_bond: bool,
    pub excepted: bool,
    pub inputs: usize,
    /// The packets of keys that each end sent, as "LTK", "IRK".
    pub keys: [Vec<&'static str>; 2],
}

/// Holds a run against every claim.
pub fn check(run: &Run) -> Result<Facts, Violations> {
    let mut found = Violations::default();
    let played = replay(run, &mut found);
    let moves = run.moves.len();
    found.unless(moves <= MOST_MOVES, Claim::Bounded, || format!("{moves} moves"));
    found.unless(played.inputs <= MOST_INPUTS, Claim::FewInputs, || format!("{} inputs", played.inputs));
    for (end, name) in played.ends.iter().zip(["terminal", "head"]) {
        found.unless(end.is_idle(), Claim::Idle, || {
            format!("{name}: {} queued, {} due, or a step open", end.queue.len(), end.due.len())
        });
    }
    encryption(&played, &mut found);
    let terminal = &played.ends[0].machine;
    found.unless(terminal[machine::PHASE] == 9, Claim::TerminalEnds, || standing("terminal", terminal));
    let facts = with_answer(run, &played, &mut found);
    match facts {
        Some(facts) if found.0.is_empty() => Ok(facts),
        _ => Err(found),
    }
}

fn standing(name: &str, m: &Record) -> String {
    let phase = machine::PHASES.get(usize::from(m[machine::PHASE])).unwrap_or(&"no phase");
    format!("the {name} stands in {phase} {:02x} {:02x}", m[machine::DETAIL], m[machine::REASON])
}

/// Call 0x3a at both ends: once, one key, one level.
fn encryption(played: &Played, found: &mut Violations) {
    let [terminal, head] = [0, 1].map(|at: usize| played.ends[at].bodies(0x3a));
    for (calls, name) in [(&terminal, "terminal"), (&head, "head")] {
        found.unless(calls.len() == 1, Claim::EncryptsOnce, || format!("the {name} called {} times", calls.len()));
    }
    if let (Some(a), Some(b)) = (terminal.first(), head.first()) {
        found.unless(a[..16] == b[..16], Claim::SameKey, || "the keys differ".into());
        found.unless(a[16] == b[16], Claim::SameLevel, || format!("levels {} and {}", a[16], b[16]));
    }
}

/// Event 0x22 at either end: the passkey that is drawn and typed, where the method has that end show it.
fn shown(run: &Run, played: &Played, method: Method, found: &mut Violations) {
    let passkey = run.shared.shown.to_le_bytes();
    for (at, shows, name) in [(0, Method::TerminalShows, "terminal"), (1, Method::HeadShows, "head")] {
        let due: &[&[u8]] = if method == shows { &[&passkey] } else { &[] };
        let bodies = played.ends[at].bodies(0x22);
        found.unless(bodies == due, Claim::Shown, || format!("the {name} shows {bodies:02x?}, and {due:02x?} is due"));
    }
}

/// Whether a record carries the bonding flag as the Rust reads it: its two bits are 1.
fn bonds(record: &[u8; 6]) -> bool {
    record[2] & 3 == 1
}

/// The claims that speak of the answer, the response sent.
fn with_answer(run: &Run, played: &Played, found: &mut Violations) -> Option<Facts> {
    let request = &run.start.request;
    let responses = played.ends[1].bodies(0x02);
    found.unless(responses.len() == 1, Claim::Answered, || format!("{} responses", responses.len()));
    let answer: &[u8; 6] = responses.first().copied()?.try_into().ok()?;
    let method = method::choose(request, answer);
    found.unless(method.is_some(), Claim::Answered, || "request or answer is no record".into());
    let method = method?;
    shown(run, played, method, found);
    let both_bond = bonds(request) && bonds(answer);
    let named = (answer[4] & 3).count_ones() + (answer[5] & 3).count_ones();
    let keys = if both_bond { named as usize } else { 0 };
    let expected = 8 + method.entries() + 2 * keys;
    found.unless(played.inputs == expected, Claim::Counted, || {
        format!("{} inputs, and 8 + {} + 2 * {keys} are due", played.inputs, method.entries())
    });
    let excepted = !both_bond && request[4] & 2 == 2;
    head_ends(run, &played.ends[1].machine, excepted, found);
    if both_bond && answer[5] & 1 == 1 {
        let size = usize::from(request[3].min(answer[3]));
        same_bonds(size, played, found);
    }
    let keys = [0, 1].map(|at: usize| sent_keys(played, at));
    Some(Facts { method, both_bond, excepted, inputs: played.inputs, keys })
}

fn sent_keys(played: &Played, at: usize) -> Vec<&'static str> {
    let pairs = [([0x06, 0x07], "LTK"), ([0x08, 0x09], "IRK")];
    let sent = |codes: [u8; 2]| codes.iter().all(|code| !played.ends[at].bodies(*code).is_empty());
    pairs.into_iter().filter(|(codes, _)| sent(*codes)).map(|(_, name)| name).collect()
}

/// The head in Success; in the excepted case it is in neither Success nor Error, and a step on an
/// IdentityInformation ends without a host call and has its bond hold that key.
fn head_ends(run: &Run, head: &Record, excepted: bool, found: &mut Violations) {
    if !excepted {
        return found.unless(head[machine::PHASE] == 9, Claim::HeadEnds, || standing("head", head));
    }
    found.unless(!matches!(head[machine::PHASE], 9 | 10), Claim::HeadEnds, || standing("head", head));
    let Some((given, answer)) = &run.probe else {
        return found.note(Claim::HeadEnds, "the head was not asked to read an identity key");
    };
    let asked = given.machine == *head && given.input == Input::Command(0x08) && given.payload.len() == 16;
    let read = answer.outcome == Outcome::Ended
        && answer.machine[machine::BOND_PRESENT] == 1
        && answer.machine[machine::BOND + 28..][..16] == given.payload[..];
    found.unless(asked && given.answers.is_empty() && read, Claim::HeadEnds, || {
        "the head does not read an IdentityInformation as the identity key".into()
    });
}

/// The head has sent one 0x06 and one 0x07, and both bonds hold what stands in them.
fn same_bonds(size: usize, played: &Played, found: &mut Violations) {
    let claim = Claim::SameBonds;
    let [ltks, identifications] = [0x06, 0x07].map(|code: u8| played.ends[1].bodies(code));
    let ([ltk], [identification]) = (&ltks[..], &identifications[..]) else {
        return found.note(claim, "the head has not sent one LTK, EDIV and Rand");
    };
    let cut: Vec<u8> = ltk.iter().enumerate().map(|(at, &o)| if at < size { o } else { 0 }).collect();
    for (end, name) in played.ends.iter().zip(["terminal", "head"]) {
        found.unless(end.machine[machine::BOND_PRESENT] == 1, claim, || format!("the {name} has no bond"));
        let bond = &end.machine[machine::BOND..];
        found.unless(bond[..16] == cut[..], claim, || {
            format!("the {name}'s LTK is not the one sent, cut to {size} octets")
        });
        found.unless(bond[16..26] == **identification, claim, || {
            format!("the {name}'s EDIV or Rand is not the one sent")
        });
    }
}
