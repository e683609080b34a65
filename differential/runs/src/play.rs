//! One fair run, played on the Rust to its end.

use cases::link::{Link, Move, Shared, Start};
use cases::random::Random;
use reference::{lines, machine, Answer, Input, Outcome, Role, Step};

/// A run as it was played.
#[derive(Clone, Debug)]
pub struct Run {
    pub seed: u64,
    pub start: Start,
    pub shared: Shared,
    pub moves: Vec<Move>,
    /// A step of a head that did not come to Success, on an IdentityInformation: whether it would
    /// read it as the identity key. It belongs to no move.
    pub probe: Option<(Step, Answer)>,
}

/// More moves than any run has: a link that goes on for ever is left here.
const TOO_MANY: usize = 1000;

pub fn play(seed: u64) -> Run {
    let r = &mut Random::new(seed);
    let mut link = Link::new(r);
    let mut moves = Vec::new();
    while moves.len() < TOO_MANY {
        let Some(played) = link.play(r) else { break };
        moves.push(played);
    }
    let last = moves.iter().rev().find(|m| m.at == 1 && m.answer.outcome == Outcome::Ended);
    let head = last.map(|m| m.answer.machine).filter(|m| m[machine::PHASE] != 9);
    let probe = head.map(|machine| {
        let input = Input::Command(0x08);
        let given = Step {
            role: Role::Peripheral,
            list_len: reference::step::LONGEST,
            machine,
            input,
            payload: r.some(16),
            answers: Vec::new(),
        };
        let answer = reference::step(&given);
        (given, answer)
    });
    Run { seed, start: link.start, shared: link.shared, moves, probe }
}

impl Run {
    /// The steps with their answers, the probe last.
    pub fn steps(&self) -> impl Iterator<Item = (&Step, &Answer)> {
        let probe = self.probe.iter().map(|(given, answer)| (given, answer));
        self.moves.iter().map(|m| (&m.given, &m.answer)).chain(probe)
    }

    /// The run as step lines.
    pub fn lines(&self) -> Vec<u8> {
        let mut out = Vec::new();
        for (given, _) in self.steps() {
            lines::push_step(&mut out, given);
            out.push(b'\n');
        }
        out
    }

    /// The Rust's answers to them, one line each, without line feeds.
    pub fn answers(&self) -> Vec<Vec<u8>> {
        let line = |answer: &Answer| {
            let mut out = Vec::new();
            lines::push_answer(&mut out, answer);
            out
        };
        self.steps().map(|(_, answer)| line(answer)).collect()
    }
}
