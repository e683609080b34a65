//! Times liblegacy_pairing.a and the unchanged Rust in one process on the same inputs: c1, s1, one step of each kind,
//! whole pairings. Before it times, both are played beside each other and have to agree.
//!
//!   driver [AES [short]]     AES names the Rust's AES in the heading; short leaves the steps out
//!   driver play port|rust N [TURN]
//!                            plays the first pairing, or one turn of it, N times and times nothing: for a profiler

mod ends;
mod time;

use std::hint::black_box;

use ends::{port_input, Asking, Case, Desk, End, Link, Nobody, Port, Rust, Side, Watch};
use reference::machine::PHASES;
use reference::{Input, Role};
use time::{Race, Times, BATCH, PAIRINGS};

/// The pairings, the number of their inputs, and whether the head succeeds or stays pending.
fn cases() -> Vec<(Case, usize, bool)> {
    let case = |name, terminal, head, late_entries| Case {
        name,
        sides: [Side::new(Role::Central, terminal), Side::new(Role::Peripheral, head)],
        late_entries,
        answers: Vec::new(),
    };
    let (bonding, alone, oob) = ([3, 0, 1, 16, 3, 3], [3, 0, 0, 16, 0, 3], [3, 1, 5, 16, 3, 3]);
    let (shows, types) = ([0, 0, 5, 16, 3, 3], [2, 0, 5, 9, 3, 3]);
    vec![
        (case("Just Works, both bond", bonding, bonding, false), 16, true),
        (case("passkey, the terminal shows, the head types", shows, types, false), 17, true),
        (case("the same, typed after the Confirm came", shows, types, true), 17, true),
        (case("passkey, the head shows, the terminal types", types, shows, false), 17, true),
        (case("passkey, both type", types, types, false), 18, true),
        (case("out of band", oob, oob, false), 18, true),
        (case("the head does not bond (the excepted case)", bonding, alone, false), 8, false),
    ]
}

/// One input of a pairing, with the machines that get it.
struct Turn {
    role: Role,
    input: Input,
    payload: Vec<u8>,
    answers: Vec<u8>,
    calls: Vec<u8>,
    from: [u8; 161],
    to: [u8; 161],
    port: Option<legacy_pairing::Machine>,
    rust: Option<Rust>,
}

impl Turn {
    fn begun(at: usize, input: Input, payload: &[u8], from: [u8; 161]) -> Self {
        Self {
            role: [Role::Central, Role::Peripheral][at],
            input,
            payload: payload.to_vec(),
            answers: Vec::new(),
            calls: Vec::new(),
            from,
            to: [0; 161],
            port: None,
            rust: None,
        }
    }

    /// The AES blocks: two for a confirm value that is sent; three where one is checked and the key made.
    fn blocks(&self) -> usize {
        let has = |kind| reference::calls::records(&self.calls).expect("calls").iter().any(|(k, _)| k.code == kind);
        if has(0x3a) {
            3
        } else if has(0x03) {
            2
        } else {
            0
        }
    }

    fn name(&self) -> String {
        let role = if self.role == Role::Central { "terminal" } else { "head" };
        let input = match self.input {
            Input::Command(code) => [
                "PairingRequest",
                "PairingResponse",
                "PairingConfirm",
                "PairingRandom",
                "PairingFailed",
                "EncryptionInformation",
                "CentralIdentification",
                "IdentityInformation",
                "IdentityAddressInformation",
            ][usize::from(code) - 1],
            Input::LinkEncryptedResult(_) => "LinkEncryptedResult",
            Input::PassKeyInput(_) => "PassKeyInput",
            Input::OobDataReceived(_) => "OobDataReceived",
            Input::PassKeyConfirm | Input::PassKeyCancel => "",
        };
        let phase = |m: &[u8; 161]| {
            let name = match (m[0], self.role) {
                (0, Role::Central) => "PairingResponse",
                (0, Role::Peripheral) => "PairingRequest",
                (phase, _) => PHASES[usize::from(phase)].trim_start_matches("Waiting"),
            };
            let detail = match (m[0], m[1], m[3]) {
                (1, _, 1) => " (stored)".into(),
                (8, phase, _) => format!(" {phase}"),
                _ => String::new(),
            };
            (name.to_string() + &detail).replace("Identitity", "Identity")
        };
        let shown = if self.calls.contains(&0x36) && self.calls.contains(&0x22) { ", shows" } else { "" };
        format!("{role:<8} {input:<26} {} > {}{shown}", phase(&self.from), phase(&self.to))
    }
}

struct Turns(Vec<Turn>);

impl Watch<Asking> for Turns {
    fn before(&mut self, at: usize, input: Input, payload: &[u8], end: &Asking) {
        self.0.push(Turn::begun(at, input, payload, end.record()));
    }
    fn after(&mut self, end: &Asking) {
        let turn = self.0.last_mut().expect("begun");
        turn.answers = end.answers.as_slice().to_vec();
        turn.calls = end.list[..end.written].to_vec();
        turn.to = end.record();
    }
}

impl Watch<Port> for Turns {
    fn before(&mut self, at: usize, input: Input, payload: &[u8], end: &Port) {
        self.0.push(Turn { port: Some(end.machine.clone()), ..Turn::begun(at, input, payload, end.record()) });
    }
    fn after(&mut self, end: &Port) {
        self.0.last_mut().expect("begun").to = end.record();
    }
}

impl Watch<Rust> for Turns {
    fn before(&mut self, at: usize, input: Input, payload: &[u8], end: &Rust) {
        self.0.push(Turn { rust: Some(end.clone()), ..Turn::begun(at, input, payload, end.record()) });
    }
    fn after(&mut self, end: &Rust) {
        self.0.last_mut().expect("begun").to = end.record();
    }
}

/// Plays a case in three ways, which have to agree at every turn, and gives its turns.
fn check(case: &mut Case, inputs: usize, head_succeeds: bool) -> Vec<Turn> {
    let (mut asked, mut ported, mut rusts) = (Turns(Vec::new()), Turns(Vec::new()), Turns(Vec::new()));
    Link::<Asking>::play(case, &mut asked);
    case.answers = asked.0.iter().map(|turn| turn.answers.clone()).collect();
    let port = Link::<Port>::play(case, &mut ported);
    let rust = Link::<Rust>::play(case, &mut rusts);
    let name = case.name;
    assert_eq!((port.turns, rust.turns, asked.0.len()), (inputs, inputs, inputs), "{name}: inputs");
    for (((turn, port), rust), number) in asked.0.iter_mut().zip(ported.0).zip(rusts.0).zip(1..) {
        for other in [&port, &rust] {
            let same = (turn.role, turn.input, &turn.payload, turn.from, turn.to)
                == (other.role, other.input, &other.payload, other.from, other.to);
            assert!(same, "{name}: input {number} and the machine before and after it");
        }
        (turn.port, turn.rust) = (port.port, rust.rust);
    }
    for at in [0, 1] {
        assert_eq!(port.desks[at].packets(), rust.desks[at].packets(), "{name}: packets");
        assert_eq!(port.desks[at].encryption(), rust.desks[at].encryption(), "{name}: the call for encryption");
    }
    assert_eq!(port.desks[0].encryption(), port.desks[1].encryption(), "{name}: one key at both ends");
    assert_ne!(port.desks[0].encryption()[..16], [0; 16], "{name}: a key");
    let statuses = [0, 1].map(|at| port.ends[at].machine.status().expect("a record that a step wrote"));
    assert_eq!(statuses.map(|s| s.result), [Some(Ok(())), head_succeeds.then_some(Ok(()))], "{name}: how they end");
    assert!(statuses.iter().all(|s| s.is_encrypted), "{name}: encrypted");
    asked.0
}

/// One step of both, each time on a machine of its own that stood there before.
fn race_step(race: &mut Race, turn: &Turn, side: &Side) {
    let (port, rust) = (turn.port.as_ref().expect("checked"), turn.rust.as_ref().expect("checked"));
    let (mut ports, mut rusts) = (vec![port.clone(); BATCH], vec![rust.clone(); BATCH]);
    let mut list = [0; legacy_pairing::size::CALL_LIST];
    let mut desk = Desk::new();
    race.run(
        BATCH,
        |clock| {
            ports.fill(port.clone());
            let (input, payload, answers) = black_box((turn.input, &turn.payload[..], &turn.answers[..]));
            clock.start();
            for machine in &mut ports {
                let stepped = machine.step(port_input(input, payload), answers, &mut list);
                black_box((&stepped, &mut list));
            }
            clock.stop();
            black_box(&mut ports);
        },
        |clock| {
            rusts.fill(rust.clone());
            let (input, payload) = black_box((turn.input, &turn.payload[..]));
            clock.start();
            for machine in &mut rusts {
                desk.clear();
                machine.step(input, payload, &[], side, &mut desk);
                black_box(&mut desk);
            }
            clock.stop();
            black_box(&mut rusts);
        },
    );
}

fn race_pairing<E: End>(race: &mut Race, case: &Case) {
    fn played<E: End>(case: &Case, clock: &mut time::Clock) {
        clock.start();
        for _ in 0..PAIRINGS {
            black_box(Link::<E>::play(black_box(case), &mut Nobody).turns);
        }
        clock.stop();
    }
    race.run(PAIRINGS, |clock| played::<E>(case, clock), |clock| played::<Rust>(case, clock));
}

/// A chain: each takes the result of the one before.
fn chained<T>(clock: &mut time::Clock, first: T, next: impl Fn(T) -> T) {
    let mut chain = first;
    clock.start();
    for _ in 0..BATCH {
        chain = next(chain);
    }
    clock.stop();
    black_box(chain);
}

fn race_c1(race: &mut Race) {
    let (k, r, preq, pres) = black_box(([7; 16], [9; 16], [1, 3, 0, 1, 16, 3, 3], [2, 3, 0, 1, 16, 3, 3]));
    let (ia, ra) = black_box(([0, 1, 2, 3, 4, 5, 6], [1, 7, 8, 9, 10, 11, 12]));
    let backwards = |a: [u8; 7]| [a[6], a[5], a[4], a[3], a[2], a[1]];
    let (k_number, r_number) = (u128::from_le_bytes(k), u128::from_le_bytes(r));
    let (ia_backwards, ra_backwards) = black_box((backwards(ia), backwards(ra)));
    let rusts = |r| reference::c1(k_number, r, &preq, &pres, ia[0], &ia_backwards, ra[0], &ra_backwards);
    assert_eq!(u128::from_le_bytes(legacy_pairing::c1(&k, &r, &preq, &pres, &ia, &ra)), rusts(r_number), "c1");
    race.run(
        BATCH,
        |clock| chained(clock, r, |r| legacy_pairing::c1(&k, &r, &preq, &pres, &ia, &ra)),
        |clock| chained(clock, r_number, rusts),
    );
}

fn race_s1(race: &mut Race) {
    let (k, r, other) = black_box(([7; 16], [9; 16], [11; 16]));
    let [k_number, r_number, other_number] = [k, r, other].map(u128::from_le_bytes);
    assert_eq!(
        u128::from_le_bytes(legacy_pairing::s1(&k, &r, &other)),
        reference::s1(k_number, r_number, other_number),
        "s1"
    );
    race.run(
        BATCH,
        |clock| chained(clock, r, |r| legacy_pairing::s1(&k, &r, &other)),
        |clock| chained(clock, r_number, |r| reference::s1(k_number, r, other_number)),
    );
}

fn line(name: &str, blocks: &str, times: Times) {
    println!("{name:<84} {blocks:>6} {:>9.1} {:>9.1} {:>7.2}", times.port, times.rust, times.port / times.rust);
}

fn heading(name: &str) {
    println!("\n{name:<84} {:>6} {:>9} {:>9} {:>7}", "blocks", "port, ns", "Rust, ns", "ratio");
}

/// The same work again and again.
fn profile(case: &Case, turn: Option<&Turn>, is_port: bool, count: usize) {
    let (mut list, mut desk) = ([0; legacy_pairing::size::CALL_LIST], Desk::new());
    for _ in 0..count {
        match (turn, is_port) {
            (None, true) => drop(black_box(Link::<Port>::play(black_box(case), &mut Nobody))),
            (None, false) => drop(black_box(Link::<Rust>::play(black_box(case), &mut Nobody))),
            (Some(turn), true) => {
                let mut machine = turn.port.clone().expect("checked");
                let stepped = machine.step(port_input(turn.input, &turn.payload), black_box(&turn.answers), &mut list);
                black_box((&stepped, &machine));
            }
            (Some(turn), false) => {
                let mut machine = turn.rust.clone().expect("checked");
                let side = &case.sides[usize::from(turn.role == Role::Peripheral)];
                desk.clear();
                machine.step(black_box(turn.input), &turn.payload, &[], side, &mut desk);
                black_box((&machine, &desk));
            }
        }
    }
}

fn main() {
    let arguments: Vec<String> = std::env::args().skip(1).collect();
    let aes = arguments.first().map_or("the stand-in of differential/stand-ins/aes", |a| a);
    let short = arguments.get(1).is_some_and(|a| a == "short");

    let mut cases = cases();
    let turns: Vec<Vec<Turn>> =
        cases.iter_mut().map(|(case, inputs, succeeds)| check(case, *inputs, *succeeds)).collect();
    if let [play, end, count, turn @ ..] = &arguments[..] {
        assert!(play == "play" && turn.len() < 2, "play port|rust N [TURN]");
        let turn = turn.first().map(|n| &turns[0][n.parse::<usize>().expect("a number")]);
        return profile(&cases[0].0, turn, end == "port", count.parse().expect("a number"));
    }
    println!("the Rust's AES: {aes}");
    println!(
        "both agree on {} inputs of {} pairings: machines, packets, keys",
        turns.iter().flatten().count(),
        cases.len()
    );

    // One step of each kind: what is new in its name, AES work or length of calls and answers.
    let mut steps: Vec<(&Turn, &Side, String)> = Vec::new();
    for ((case, _, _), turns) in cases.iter().zip(&turns).take(if short { 0 } else { usize::MAX }) {
        for turn in turns {
            let name = turn.name();
            let known = steps.iter().any(|(t, _, n)| *n == name && t.calls.len() == turn.calls.len());
            if !known {
                steps.push((turn, &case.sides[usize::from(turn.role == Role::Peripheral)], name));
            }
        }
    }
    steps.sort_by_key(|(turn, _, _)| (turn.role == Role::Central, turn.from[0], turn.from[1], turn.from[3]));

    let mut races: Vec<Race> = Vec::new();
    races.resize_with(2 + steps.len() + cases.len() + 1, Race::new);
    for _ in 0..time::ROUNDS {
        let mut next = races.iter_mut();
        let mut race = || next.next().expect("as many as rows");
        race_c1(race());
        race_s1(race());
        for (turn, side, _) in &steps {
            race_step(race(), turn, side);
        }
        for (case, _, _) in &cases {
            race_pairing::<Port>(race(), case);
        }
        race_pairing::<Asking>(race(), &cases[0].0);
    }

    let times: Vec<Times> = races.iter().map(Race::times).collect();
    let (values, rest) = times.split_at(2);
    let (stepped, pairings) = rest.split_at(steps.len());
    heading("values");
    line("c1", "2", values[0]);
    line("s1 (one block with its key)", "1", values[1]);
    if !short {
        heading("one step: input, phase > next phase");
        for ((turn, _, name), times) in steps.iter().zip(stepped) {
            line(name, &turn.blocks().to_string(), *times);
        }
    }
    heading("a whole pairing, both ends, from two new machines on");
    for (((case, inputs, _), turns), times) in cases.iter().zip(&turns).zip(pairings) {
        let blocks: usize = turns.iter().map(Turn::blocks).sum();
        line(&format!("{}: {inputs} inputs", case.name), &blocks.to_string(), *times);
    }
    line("Just Works, both bond, answers one at a time: steps are run again", "", pairings[cases.len()]);

    let aes_part =
        Times { port: 4.0 * values[0].port + 2.0 * values[1].port, rust: 4.0 * values[0].rust + 2.0 * values[1].rust };
    heading("a whole pairing in parts: 4 c1 and 2 s1, and the rest");
    line("the AES part, from the rows c1 and s1", "10", aes_part);
    for ((case, inputs, _), times) in cases.iter().zip(pairings) {
        let rest = Times { port: times.port - aes_part.port, rust: times.rust - aes_part.rust };
        line(&format!("the rest: {}: {inputs} inputs", case.name), "", rest);
    }
    let (port, rust) = Race::spread(&races);
    println!("\nleast of {} rounds; in half of the rows the median round is at least {port:.1}% (port) and {rust:.1}% (Rust) above it", time::ROUNDS);
}
