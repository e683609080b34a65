//! What the cases reached: role x phase x input x outcome, call kind x fate, panics x outcome.
//!
//! Every cell either can be reached, and then must not be empty, or cannot, for a reason that a
//! rule gives. A cell that was reached against its rule is reported too.

use std::collections::{BTreeMap, BTreeSet};

use reference::calls::{self, Kind, KINDS};
use reference::machine::{PHASE, PHASES};
use reference::step::Cause;
use reference::{lines, Input, Role, Step};

const ROLES: [(Role, &str); 2] = [(Role::Central, "terminal"), (Role::Peripheral, "head")];

/// Command codes 0x01 to 0x0E, all others, and the events, each with one input of its sort.
const INPUTS: [(&str, Input); 21] = [
    ("PairingRequest", Input::Command(0x01)),
    ("PairingResponse", Input::Command(0x02)),
    ("PairingConfirm", Input::Command(0x03)),
    ("PairingRandom", Input::Command(0x04)),
    ("PairingFailed", Input::Command(0x05)),
    ("EncryptionInformation", Input::Command(0x06)),
    ("CentralIdentification", Input::Command(0x07)),
    ("IdentityInformation", Input::Command(0x08)),
    ("IdentityAddressInformation", Input::Command(0x09)),
    ("SigningInformation", Input::Command(0x0a)),
    ("SecurityRequest", Input::Command(0x0b)),
    ("PairingPublicKey", Input::Command(0x0c)),
    ("PairingDhKeyCheck", Input::Command(0x0d)),
    ("KeypressNotification", Input::Command(0x0e)),
    ("other code", Input::Command(0x00)),
    ("LinkEncryptedResult(false)", Input::LinkEncryptedResult(false)),
    ("LinkEncryptedResult(true)", Input::LinkEncryptedResult(true)),
    ("PassKeyConfirm", Input::PassKeyConfirm),
    ("PassKeyCancel", Input::PassKeyCancel),
    ("PassKeyInput", Input::PassKeyInput(0)),
    ("OobDataReceived", Input::OobDataReceived([0; 16])),
];

const OTHER: usize = 14;

fn input_number(input: Input) -> usize {
    match input {
        Input::Command(code @ 0x01..=0x0e) => usize::from(code) - 1,
        Input::Command(_) => OTHER,
        Input::LinkEncryptedResult(on) => 15 + usize::from(on),
        Input::PassKeyConfirm => 17,
        Input::PassKeyCancel => 18,
        Input::PassKeyInput(_) => 19,
        Input::OobDataReceived(_) => 20,
    }
}

/// Columns of the step table: ended in a phase, wants, refused 1 to 3.
const WANTS: usize = 11;
const REFUSED: usize = 11;
const COLUMNS: usize = 15;

fn column_name(column: usize) -> String {
    match column {
        WANTS => "wants".into(),
        c if c > WANTS => format!("refused{}", c - REFUSED),
        c => format!("ended in {}", PHASES[c]),
    }
}

/// What became of a call.
const FATES: [&str; 6] =
    ["wanted", "answered", "failed by verdict", "refused by kind", "refused by cut", "refused by value"];

const PANICS: [&str; 3] = ["empty-pairing-failed", "long-features", "short-identity-address"];

type Cells = BTreeMap<Vec<usize>, usize>;

#[derive(Default)]
pub struct Coverage {
    /// Role, phase, input, column.
    steps: Cells,
    /// Role, kind, fate.
    calls: Cells,
    /// Role, panic, column of ended, wants or refused 3.
    panics: Cells,
}

fn add(cells: &mut Cells, cell: Vec<usize>) {
    *cells.entry(cell).or_default() += 1;
}

fn kind_number(code: u8) -> Option<usize> {
    KINDS.iter().position(|k| k.code == code)
}

fn digits(text: &[u8]) -> Option<Vec<u8>> {
    let digit = |o: &u8| char::from(*o).to_digit(16);
    text.chunks_exact(2).map(|p| Some((digit(&p[0])? << 4 | digit(&p[1])?) as u8)).collect()
}

/// A cell: its table (0 steps, 1 calls, 2 panics) and its place there.
pub type Place = (usize, Vec<usize>);

impl Coverage {
    /// Counts one case and the reference's answer to it.
    pub fn line(&mut self, case: &[u8], panic: Option<&str>, answer: &[u8]) {
        if let Some(given) = lines::parse(case) {
            self.step(&given, panic, answer);
        }
    }

    /// The cells that were reached. Refusal 1 has one for each role and phase, as in the report.
    pub fn reached(&self) -> BTreeSet<Place> {
        let mut found = BTreeSet::new();
        for (table, cells) in [&self.steps, &self.calls, &self.panics].into_iter().enumerate() {
            found.extend(cells.keys().map(|cell| (table, cell.clone())));
        }
        let merged = |(table, mut cell): Place| {
            if table == 0 && cell[3] == REFUSED + 1 {
                cell[2] = OTHER;
            }
            (table, cell)
        };
        found.into_iter().map(merged).collect()
    }

    fn step(&mut self, given: &Step, panic: Option<&str>, answer: &[u8]) -> Option<()> {
        let fields: Vec<&[u8]> = answer.split(|&o| o == b' ').collect();
        let [outcome, _, written, machine, list] = fields[..] else {
            return None;
        };
        let role = ROLES.iter().position(|(r, _)| *r == given.role)?;
        let column = match outcome {
            b"ended" => usize::from(*digits(&machine[..2])?.first()?),
            b"wants" => WANTS,
            _ => REFUSED + usize::from(outcome.last()? - b'0'),
        };
        add(&mut self.steps, vec![role, given.machine[PHASE].into(), input_number(given.input), column]);
        if let Some(number) = panic.and_then(|name| PANICS.iter().position(|p| *p == name)) {
            add(&mut self.panics, vec![role, number, column.max(10)]);
        }
        if column > WANTS {
            return self.refusal(role, given, column);
        }
        let written: usize = std::str::from_utf8(written).ok()?.parse().ok()?;
        self.fates(role, given, column, &digits(&list[..2 * written])?)
    }

    /// The calls of a step that ended or wants, each with its answer.
    fn fates(&mut self, role: usize, given: &Step, column: usize, list: &[u8]) -> Option<()> {
        let (listed, mut answers) = (calls::records(list)?, &given.answers[..]);
        for (i, (kind, _)) in listed.iter().enumerate() {
            let number = kind_number(kind.code)?;
            if column == WANTS && i + 1 == listed.len() {
                add(&mut self.calls, vec![role, number, 0]);
                break;
            }
            let fate = if kind.verdict && *answers.get(1)? != 0 { 2 } else { 1 };
            add(&mut self.calls, vec![role, number, fate]);
            answers = answers.get(1 + kind.answer..)?;
        }
        Some(())
    }

    /// For refusal 3 the list is untouched: the reference says which answer it refused.
    fn refusal(&mut self, role: usize, given: &Step, column: usize) -> Option<()> {
        if column != REFUSED + 3 {
            return None;
        }
        let (code, cause) = reference::step(given).refusal?;
        let fate = match cause {
            Cause::Kind => 3,
            Cause::Cut => 4,
            Cause::Value => 5,
        };
        add(&mut self.calls, vec![role, kind_number(code)?, fate]);
        Some(())
    }
}

/// The phases in which a step of this phase and input can end, from the texts' `transition`.
fn ends(role: Role, phase: usize, input: Input) -> Vec<usize> {
    use Input::*;
    let head = role == Role::Peripheral;
    match (phase, input) {
        (_, Command(0x00)) => vec![],
        (_, Command(0x0e) | PassKeyConfirm) => vec![phase],
        (1, PassKeyInput(_)) => vec![3, 4, 10],
        (1, PassKeyCancel) => vec![10],
        (_, PassKeyInput(_) | PassKeyCancel) => vec![phase],
        (0, Command(0x01)) if head => vec![1, 2, 3, 10],
        (0, Command(0x02)) if !head => vec![1, 2, 3, 10],
        (0, LinkEncryptedResult(true)) if head => vec![6, 9, 10],
        (1, Command(0x03)) => vec![1, 10],
        (2, OobDataReceived(_)) if head => vec![3],
        (2, OobDataReceived(_)) => vec![3, 10],
        (3, Command(0x03)) => vec![4, 10],
        (4, Command(0x04)) => vec![5, 10],
        (5, LinkEncryptedResult(true)) => vec![6, 8, 9, 10],
        (6, Command(0x08)) => vec![7, 10],
        (7, Command(0x09)) => vec![9, 10],
        (8, Command(0x06)) => vec![8, 10],
        (8, Command(0x07)) => vec![6, 9, 10],
        _ => vec![10],
    }
}

/// Why a cell of the step table cannot be reached; none where it can.
fn step_reason(role: Role, phase: usize, input: usize, column: usize) -> Option<&'static str> {
    if column == REFUSED + 1 {
        return None;
    }
    if input == OTHER {
        return (column != REFUSED + 2)
            .then_some("a code outside 0x01 to 0x0E is refused 2 before the machine sees it");
    }
    if column == REFUSED + 2 {
        return Some("refusal 2 is for codes outside 0x01 to 0x0E");
    }
    let ends = ends(role, phase, INPUTS[input].1);
    if column < WANTS {
        return (!ends.contains(&column)).then_some("the Rust has no such transition");
    }
    let calls = ends.contains(&9) || ends.contains(&10);
    (!calls).then_some("the step makes no host call, so no answer can be wanted or refused")
}

/// Why a cell of the call table cannot be reached; none where it can.
fn call_reason(role: Role, kind: &Kind, fate: usize) -> Option<&'static str> {
    if role == Role::Central && matches!(kind.code, 0x02 | 0x24 | 0x30 | 0x33 | 0x34) {
        return Some("asked only by a head that answers a request");
    }
    if role == Role::Central && kind.code == 0x3b {
        return Some("asked only by a head whose link was encrypted with an old bond");
    }
    match fate {
        2 if !kind.verdict => Some("the answer has no verdict"),
        5 if !matches!(kind.code, 0x30 | 0x33 | 0x34 | 0x36 | 0x3a | 0x3b) => {
            Some("no value of the answer is forbidden")
        }
        _ => None,
    }
}

/// One cell for the report: its name, its count, and why it cannot be reached, if so.
struct Cell {
    name: String,
    count: usize,
    reason: Option<&'static str>,
}

impl Coverage {
    fn cells(&self) -> Vec<Cell> {
        let mut all = self.step_cells();
        for (r, (role, role_name)) in ROLES.into_iter().enumerate() {
            for (k, kind) in KINDS.iter().enumerate() {
                for (f, fate) in FATES.iter().enumerate() {
                    let name = format!("{role_name}, call {:02x} {}, {fate}", kind.code, kind.name);
                    let count = count(&self.calls, &[r, k, f]);
                    all.push(Cell { name, count, reason: call_reason(role, kind, f) });
                }
            }
            for (p, panic) in PANICS.iter().enumerate() {
                for column in [10, WANTS, REFUSED + 3] {
                    let name = format!("{role_name}, panicked:{panic}, {}", column_name(column));
                    all.push(Cell { name, count: count(&self.panics, &[r, p, column]), reason: None });
                }
            }
        }
        all
    }

    fn step_cells(&self) -> Vec<Cell> {
        let mut all = Vec::new();
        for (r, (role, role_name)) in ROLES.into_iter().enumerate() {
            for (phase, phase_name) in PHASES.iter().enumerate() {
                for (input, (input_name, _)) in INPUTS.iter().enumerate() {
                    for column in 0..COLUMNS {
                        // Refusal 1 comes before the input is looked at: one cell for each phase.
                        if column == REFUSED + 1 && input != OTHER {
                            continue;
                        }
                        all.push(Cell {
                            name: format!("{role_name}, {phase_name}, {input_name}, {}", column_name(column)),
                            count: self.step_count(r, phase, input, column),
                            reason: step_reason(role, phase, input, column),
                        });
                    }
                }
            }
        }
        all
    }

    fn step_count(&self, role: usize, phase: usize, input: usize, column: usize) -> usize {
        let inputs = if column == REFUSED + 1 { 0..INPUTS.len() } else { input..input + 1 };
        inputs.map(|i| count(&self.steps, &[role, phase, i, column])).sum()
    }

    /// How many cells can be reached, and how many of them are empty.
    pub fn empty(&self) -> (usize, usize) {
        let cells: Vec<Cell> = self.cells().into_iter().filter(|c| c.reason.is_none()).collect();
        (cells.len(), cells.iter().filter(|c| c.count == 0).count())
    }

    /// Prints the empty cells and the cells reached against their rule; true where there are none.
    pub fn check(&self) -> bool {
        let cells = self.cells();
        let (mut empty, mut against) = (0, 0);
        for cell in &cells {
            match (cell.count, cell.reason) {
                (0, None) => {
                    empty += 1;
                    println!("empty: {}", cell.name);
                }
                (n, Some(reason)) if n > 0 => {
                    against += 1;
                    println!("reached {n} times, but: {reason}: {}", cell.name);
                }
                _ => {}
            }
        }
        let reachable = cells.iter().filter(|c| c.reason.is_none()).count();
        println!("cells {reachable}, empty {empty}, reached against a rule {against}");
        empty == 0 && against == 0
    }

    /// Prints every cell that was reached, with its count, and why the others cannot be.
    pub fn tables(&self) {
        let cells = self.cells();
        for cell in cells.iter().filter(|c| c.count > 0) {
            println!("{:>8}  {}", cell.count, cell.name);
        }
        let mut reasons: BTreeMap<&str, usize> = BTreeMap::new();
        for reason in cells.iter().filter_map(|c| c.reason) {
            *reasons.entry(reason).or_default() += 1;
        }
        for (reason, count) in reasons {
            println!("{count} cells cannot be reached: {reason}");
        }
    }
}

fn count(cells: &Cells, cell: &[usize]) -> usize {
    cells.get(cell).copied().unwrap_or(0)
}
