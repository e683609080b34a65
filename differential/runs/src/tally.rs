//! What the runs were: counts for the report.

use std::collections::BTreeMap;

use cases::link::Move;
use reference::{machine, Input, Outcome};

use crate::claims::{Facts, MOST_INPUTS};
use crate::play::Run;

#[derive(Default)]
pub struct Tally {
    runs: usize,
    lines: usize,
    methods: BTreeMap<&'static str, usize>,
    mixes: BTreeMap<String, usize>,
    bonding: usize,
    excepted: usize,
    early_confirms: [usize; 2],
    wanting: usize,
    again: usize,
    left_over: usize,
    inputs: BTreeMap<usize, usize>,
    most_moves: usize,
}

fn mix(keys: &[Vec<&'static str>; 2]) -> String {
    let of = |names: &Vec<&str>| if names.is_empty() { "none".into() } else { names.join("+") };
    format!("terminal {}, head {}", of(&keys[0]), of(&keys[1]))
}

/// A Confirm that comes while a passkey is typed.
fn is_early_confirm(moved: &Move) -> bool {
    !moved.again && moved.given.machine[machine::PHASE] == 1 && moved.given.input == Input::Command(0x03)
}

impl Tally {
    pub fn add(&mut self, run: &Run, facts: &Facts) {
        self.runs += 1;
        self.lines += run.steps().count();
        *self.methods.entry(facts.method.name()).or_default() += 1;
        *self.mixes.entry(mix(&facts.keys)).or_default() += 1;
        *self.inputs.entry(facts.inputs).or_default() += 1;
        self.bonding += usize::from(facts.both_bond);
        self.excepted += usize::from(facts.excepted);
        self.most_moves = self.most_moves.max(run.moves.len());
        for moved in &run.moves {
            self.early_confirms[moved.at] += usize::from(is_early_confirm(moved));
            self.wanting += usize::from(moved.answer.outcome == Outcome::Wants);
            self.again += usize::from(moved.again);
            self.left_over += usize::from(moved.given.answers.len() > moved.answer.read);
        }
    }

    pub fn print(&self) {
        for (name, count) in &self.methods {
            println!("{count:>8}  method {name}");
        }
        for (name, count) in &self.mixes {
            println!("{count:>8}  keys passed: {name}");
        }
        println!("{:>8}  both bond, {} do not", self.bonding, self.runs - self.bonding);
        println!("{:>8}  excepted case: the head waits for the identity key", self.excepted);
        let [terminal, head] = self.early_confirms;
        println!("{:>8}  early Confirms, {terminal} at the terminal, {head} at the head", terminal + head);
        println!("{:>8}  steps that wanted, {} run again", self.wanting, self.again);
        println!("{:>8}  steps with answers left over", self.left_over);
        for inputs in 8..=MOST_INPUTS {
            println!("{:>8}  runs of {inputs} inputs", self.inputs.get(&inputs).unwrap_or(&0));
        }
        println!("{:>8}  moves at most", self.most_moves);
        println!("{} runs, {} steps, 0 different, every claim kept", self.runs, self.lines);
    }
}
