//! Document 01's fair link: a terminal and a head, queues between them, events due, open steps. Plays
//! whole pairings in every method, in random orders of moves, with random fair hosts.

use std::collections::VecDeque;

use reference::machine::{self, Record};
use reference::{calls, step, Answer, Input, Outcome, Role, Step};

use crate::answers::{fitting, wanted, Mood};
use crate::machines;
use crate::random::Random;
use crate::vary;
use crate::Sink;

/// What the start leads to; `Any` leaves all to chance.
#[derive(Clone, Copy, Debug, PartialEq, Eq)]
enum Aim {
    JustWorks,
    TerminalShows,
    HeadShows,
    BothType,
    OutOfBand,
    Any,
}

const AIMS: [Aim; 6] = [Aim::JustWorks, Aim::TerminalShows, Aim::HeadShows, Aim::BothType, Aim::OutOfBand, Aim::Any];

/// What is free of a fresh pair: the record in the request, the head's own, and both addresses.
#[derive(Clone, Debug)]
pub struct Start {
    pub request: [u8; 6],
    pub head: [u8; 6],
    pub terminal_address: [u8; 7],
    pub head_address: [u8; 7],
}

impl Start {
    /// The fresh machines, the terminal's first.
    pub fn machines(&self) -> [Record; 2] {
        [
            fresh(Role::Central, self.terminal_address, self.head_address, self.request),
            fresh(Role::Peripheral, self.head_address, self.terminal_address, self.head),
        ]
    }
}

/// What both ends' people share: the OOB data, the passkey that is shown and typed, and the one
/// that is typed where no end shows it.
#[derive(Clone, Debug)]
pub struct Shared {
    pub oob: [u8; 16],
    pub shown: u32,
    pub typed: u32,
}

impl Shared {
    /// The passkey typed at an end, by the method that its machine holds.
    pub fn passkey(&self, machine: &Record) -> u32 {
        match machine[machine::METHOD] {
            2 | 3 | 6 => self.shown,
            _ => self.typed,
        }
    }
}

/// How the head's host answers 0x33 and 0x34, and how ready all hosts are to answer at once.
struct Hosts {
    bonds: bool,
    oob: bool,
    ready: usize,
}

#[derive(Clone, Copy, PartialEq, Eq)]
enum Due {
    PassKey,
    Oob,
    Report,
}

struct End {
    machine: Record,
    queue: VecDeque<(u8, Vec<u8>)>,
    due: Vec<Due>,
    open: Option<Open>,
    /// Kinds 0x23, 0x25 and 0x3a that were listed already.
    seen: Vec<u8>,
    had_oob: bool,
}

/// A step that has begun, its answer records so far, and how many of its calls have counted.
struct Open {
    given: Step,
    records: Vec<Vec<u8>>,
    counted: usize,
}

/// One move: at which end (0 the terminal), whether a step was run again, the step, the answer
/// records that it was given, and what it came to.
#[derive(Clone, Debug)]
pub struct Move {
    pub at: usize,
    pub again: bool,
    pub given: Step,
    pub records: Vec<Vec<u8>>,
    pub answer: Answer,
}

pub struct Link {
    pub start: Start,
    pub shared: Shared,
    hosts: Hosts,
    /// Terminal, head.
    ends: [End; 2],
}

pub const ROLES: [Role; 2] = [Role::Central, Role::Peripheral];

/// I/O of terminal and head that lead to the method, with MITM at the head's side.
fn io(r: &mut Random, aim: Aim) -> [u8; 2] {
    match aim {
        Aim::JustWorks => {
            r.pick(&[[3, 3], [3, 0], [3, 2], [3, 4], [0, 3], [2, 3], [4, 3], [0, 0], [0, 1], [1, 0], [1, 1]])
        }
        Aim::TerminalShows => r.pick(&[[0, 2], [0, 4], [1, 2], [1, 4], [4, 2], [4, 4]]),
        Aim::HeadShows => r.pick(&[[2, 0], [2, 1], [2, 4], [4, 0], [4, 1]]),
        Aim::BothType => [2, 2],
        Aim::OutOfBand | Aim::Any => [r.below(5) as u8, r.below(5) as u8],
    }
}

/// OOB octets of request, head's record, and head's answer to 0x34.
fn oob(r: &mut Random, aim: Aim) -> (u8, u8, bool) {
    match aim {
        Aim::OutOfBand => r.pick(&[(1, 1, true), (1, 1, false), (1, 0, true)]),
        Aim::Any => (r.below(2) as u8, r.below(2) as u8, r.chance(50)),
        _ => r.pick(&[(0, 0, false), (0, 0, false), (0, 1, true), (0, 0, true), (1, 0, false)]),
    }
}

/// Key flags: those that matter, now and then with others.
fn flags(r: &mut Random) -> u8 {
    if r.chance(85) {
        r.below(16) as u8
    } else {
        r.octet()
    }
}

fn start(r: &mut Random, aim: Aim, request_oob: u8, head_oob: u8) -> Start {
    let [terminal_io, head_io] = io(r, aim);
    let auth = match r.below(8) {
        0 => r.octet(),
        _ => r.pick(&[0, 4, 8, 0x0c]) | u8::from(r.chance(75)),
    };
    let sizes = [7 + r.below(10) as u8, 7 + r.below(10) as u8];
    let request = [terminal_io, request_oob, auth, sizes[0], flags(r), flags(r)];
    // Of the initiator's keys the head's record names none that the request lacks.
    let initiator = flags(r) & (request[4] | !3);
    let responder = r.pick(&[0, 0, 0, 1, 2, 3, 8]);
    let head = [head_io, head_oob, r.octet(), sizes[1], initiator, responder];
    Start { request, head, terminal_address: machines::address(r), head_address: machines::address(r) }
}

fn fresh(role: Role, local: [u8; 7], peer: [u8; 7], record: [u8; 6]) -> Record {
    let mut m = [0; machine::LENGTH];
    m[machine::LOCAL_ADDRESS..][..7].copy_from_slice(&local);
    m[machine::PEER_ADDRESS..][..7].copy_from_slice(&peer);
    m[machine::LOCAL_FEATURES..][..6].copy_from_slice(&record);
    // The constructors' record of the peer: no input or output, Secure Connections, 16 octets.
    m[machine::PEER_FEATURES..][..6].copy_from_slice(&[3, 0, 8, 16, 0, 0]);
    if role == Role::Central {
        m[machine::PREQ] = 0x01;
        m[machine::PREQ + 1..][..6].copy_from_slice(&record);
    }
    m
}

fn end(machine: Record) -> End {
    End { machine, queue: VecDeque::new(), due: Vec::new(), open: None, seen: Vec::new(), had_oob: false }
}

impl Link {
    /// A fresh pair: the request is queued to the head, nothing else has happened.
    pub fn new(r: &mut Random) -> Self {
        let aim = r.pick(&AIMS);
        let (request_oob, head_oob, oob_answer) = oob(r, aim);
        let start = start(r, aim, request_oob, head_oob);
        let typed = if r.chance(50) { r.word() as u32 } else { r.passkey() };
        let shared = Shared { oob: r.octets(), shown: r.passkey(), typed };
        let hosts = Hosts { bonds: r.chance(75), oob: oob_answer, ready: r.pick(&[0, 50, 80, 80, 95, 100]) };
        let mut ends = start.machines().map(end);
        ends[1].queue.push_back((0x01, start.request.to_vec()));
        Self { start, shared, hosts, ends }
    }

    /// The inputs that an end without an open step may get now; none stands for its oldest packet.
    fn allowed(&self, at: usize) -> Vec<Option<Due>> {
        let end = &self.ends[at];
        let mut found = Vec::new();
        if !end.queue.is_empty() && !end.due.contains(&Due::Report) {
            found.push(None);
        }
        let head_first = |due: &Due| at == 0 && *due == Due::Oob && !self.ends[1].had_oob;
        found.extend(end.due.iter().filter(|due| !head_first(due)).map(|due| Some(*due)));
        found
    }

    /// One random move; none where none is allowed.
    pub fn play(&mut self, r: &mut Random) -> Option<Move> {
        let mut moves = Vec::new();
        for at in 0..2 {
            if self.ends[at].open.is_some() {
                moves.push((at, None));
            } else {
                moves.extend(self.allowed(at).into_iter().map(|input| (at, Some(input))));
            }
        }
        if moves.is_empty() {
            return None;
        }
        let (at, input) = r.pick(&moves);
        let open = match input {
            Some(input) => self.begin(r, at, input)?,
            None => self.ends[at].open.take()?,
        };
        Some(self.run(r, at, open, input.is_none()))
    }

    /// Takes an input out of the queue or of what is due. The list is long enough for any step.
    fn begin(&mut self, r: &mut Random, at: usize, input: Option<Due>) -> Option<Open> {
        let end = &mut self.ends[at];
        let (input, payload) = match input {
            None => end.queue.pop_front().map(|(code, payload)| (Input::Command(code), payload))?,
            Some(due) => {
                end.due.retain(|d| *d != due);
                end.had_oob |= due == Due::Oob;
                let event = match due {
                    Due::PassKey => Input::PassKeyInput(self.shared.passkey(&end.machine)),
                    Due::Oob => Input::OobDataReceived(self.shared.oob),
                    Due::Report => Input::LinkEncryptedResult(true),
                };
                (event, Vec::new())
            }
        };
        let given = Step {
            role: ROLES[at],
            list_len: reference::step::LONGEST + if r.chance(95) { 0 } else { r.below(100) },
            machine: end.machine,
            input,
            payload,
            answers: Vec::new(),
        };
        Some(Open { given, records: Vec::new(), counted: 0 })
    }

    /// Runs an open step with some more answers, at least one where it is a re-run. What is left
    /// over behind the answers of a step that ends is free.
    fn run(&mut self, r: &mut Random, at: usize, mut open: Open, again: bool) -> Move {
        let mut must = again;
        let mut answer = loop {
            open.given.answers = open.records.concat();
            let answer = step(&open.given);
            match wanted(&answer) {
                Some(code) if must || r.chance(self.hosts.ready) => {
                    let record = self.fair(r, code, &answer);
                    open.records.push(record);
                    must = false;
                }
                _ => break answer,
            }
        };
        let mut given = open.given.clone();
        if answer.outcome == Outcome::Ended && r.chance(10) {
            let length = 1 + r.below(30);
            given.answers.extend(r.some(length));
            answer = step(&given);
        }
        let counted = self.count(at, &answer, open.counted);
        let records = open.records.clone();
        if answer.outcome == Outcome::Wants {
            self.ends[at].open = Some(Open { counted, ..open });
        } else {
            self.ends[at].machine = answer.machine;
        }
        Move { at, again, given, records, answer }
    }

    /// A call counts once, when first listed: a packet is queued, an event falls due. Gives how
    /// many calls have counted now.
    fn count(&mut self, at: usize, answer: &Answer, counted: usize) -> usize {
        let Some(listed) = calls::records(&answer.list[..answer.written]) else {
            return counted;
        };
        for (kind, body) in &listed[counted..] {
            let due = match kind.code {
                0x23 => Due::PassKey,
                0x25 => Due::Oob,
                0x3a => Due::Report,
                code => {
                    if code < 0x20 {
                        self.ends[1 - at].queue.push_back((code, body.to_vec()));
                    }
                    continue;
                }
            };
            let end = &mut self.ends[at];
            if !end.seen.contains(&kind.code) {
                end.seen.push(kind.code);
                end.due.push(due);
            }
        }
        listed.len()
    }

    /// A fair answer: the passkey that is shown; mostly a bond with the key that was asked for.
    fn fair(&self, r: &mut Random, code: u8, answer: &Answer) -> Vec<u8> {
        let mut record = fitting(r, code, Mood::Willing);
        match code {
            0x33 => record[1] = self.hosts.bonds.into(),
            0x34 => record[1] = self.hosts.oob.into(),
            0x36 => record[1..].copy_from_slice(&self.shared.shown.to_le_bytes()),
            0x3a if r.chance(70) => {
                let body = &answer.list[answer.written - 18..answer.written];
                record[2..18].copy_from_slice(&body[..16]);
                record[18..29].fill(0);
                record[29] = body[16];
            }
            _ => {}
        }
        record
    }
}

/// One whole fair pairing, each step that ends with variations of its answers.
pub fn pairing(r: &mut Random, sink: &mut Sink) {
    let mut link = Link::new(r);
    let all = r.chance(10);
    while let Some(Move { given, records, answer, .. }) = link.play(r) {
        sink.step(&given);
        if answer.outcome != Outcome::Wants {
            vary::prefixes(sink, &given, &records);
            vary::cuts(r, sink, &given, &records, all);
            vary::leftover(r, sink, &given, &records);
        }
    }
}
