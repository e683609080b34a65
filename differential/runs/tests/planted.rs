//! Each claim can fail: a run that keeps them all is changed in one place, and the claim refuses it.

use cases::link::Move;
use reference::{calls, machine, Input, Outcome};
use runs::claims::{check, Claim, Facts};
use runs::method::Method;
use runs::play::{play, Run};
use runs::port;

/// The first run of this sort; it keeps every claim.
fn run_where(wanted: impl Fn(&Run, &Facts) -> bool) -> Run {
    reference::step::silence_panics();
    let fits = |run: &Run| check(run).is_ok_and(|facts| wanted(run, &facts));
    (1..5000).map(play).find(fits).expect("there is such a run")
}

/// A run in which both bond, the head's LTK passes, and keys are cut.
fn bonding() -> Run {
    run_where(|run, facts| facts.both_bond && facts.keys[1].contains(&"LTK") && run.start.request[3] < 12)
}

fn excepted() -> Run {
    run_where(|_, facts| facts.excepted)
}

/// The claims that a changed run violates, each once.
fn violated(run: &Run) -> Vec<Claim> {
    let mut claims: Vec<Claim> = check(run).err().map_or(vec![], |found| found.0.iter().map(|(c, _)| *c).collect());
    claims.sort();
    claims.dedup();
    claims
}

/// The last move of an end that ended.
fn last(run: &mut Run, at: usize) -> &mut Move {
    let ended = |m: &&mut Move| m.at == at && m.answer.outcome == Outcome::Ended;
    run.moves.iter_mut().rev().find(ended).expect("each end has ended a step")
}

/// Where on its list a move has a call of this kind.
fn place(moved: &Move, code: u8) -> Option<usize> {
    let mut at = 0;
    for (kind, body) in calls::records(&moved.answer.list[..moved.answer.written])? {
        if kind.code == code {
            return Some(at);
        }
        at += 1 + body.len();
    }
    None
}

/// Changes one octet of the body of a call, wherever an end lists it.
fn change_body(run: &mut Run, at: usize, code: u8, octet: usize) {
    for moved in run.moves.iter_mut().filter(|m| m.at == at) {
        if let Some(place) = place(moved, code) {
            moved.answer.list[place + 1 + octet] ^= 1;
        }
    }
}

/// One more call, with its answer, on the list of an end's last step.
fn add_call(run: &mut Run, at: usize, call: &[u8], answer: &[u8]) {
    let moved = last(run, at);
    moved.given.answers.truncate(moved.answer.read);
    moved.given.answers.extend(answer);
    let written = moved.answer.written;
    moved.answer.list.splice(written..written, call.iter().copied());
    moved.answer.written += call.len();
}

#[test]
fn fair_runs_keep_every_claim() {
    reference::step::silence_panics();
    for seed in 0..1000 {
        let run = play(seed);
        let facts = check(&run).unwrap_or_else(|found| panic!("seed {seed}: {:?}", found.0));
        let numbers = [
            (Method::JustWorks, 0),
            (Method::TerminalShows, 2),
            (Method::HeadShows, 3),
            (Method::BothType, 4),
            (Method::OutOfBand, 5),
        ];
        let chosen = run.moves.last().expect("a run has moves").answer.machine[machine::METHOD];
        assert!(numbers.contains(&(facts.method, chosen)), "seed {seed}");
    }
}

#[test]
fn a_second_call_for_encryption() {
    for at in 0..2 {
        let mut run = bonding();
        let answer = [&[0x3a, 0][..], &[0; 51]].concat();
        add_call(&mut run, at, &[0x3a; 19], &answer);
        assert_eq!(violated(&run), [Claim::EncryptsOnce]);
    }
}

#[test]
fn no_call_for_encryption() {
    let mut run = bonding();
    run.moves.truncate(1);
    assert!(violated(&run).contains(&Claim::EncryptsOnce));
}

#[test]
fn another_key_or_level() {
    for at in 0..2 {
        for octet in 0..16 {
            let mut run = bonding();
            change_body(&mut run, at, 0x3a, octet);
            assert_eq!(violated(&run), [Claim::SameKey]);
        }
        let mut run = bonding();
        change_body(&mut run, at, 0x3a, 16);
        assert_eq!(violated(&run), [Claim::SameLevel]);
    }
}

#[test]
fn a_missing_input() {
    let whole = bonding();
    let begin = whole.moves.iter().rposition(|m| !m.again).expect("a run has inputs");
    let mut run = whole.clone();
    run.moves.truncate(begin);
    assert!(violated(&run).contains(&Claim::Counted));
    assert!(violated(&run).contains(&Claim::Idle));
    for at in (0..begin).filter(|at| !whole.moves[*at].again) {
        let mut run = whole.clone();
        run.moves.remove(at);
        assert!(violated(&run).contains(&Claim::Counted), "move {at}");
        assert!(violated(&run).contains(&Claim::Allowed), "move {at}");
    }
}

#[test]
fn an_open_step_at_the_end() {
    let mut run = run_where(|run, _| run.moves.last().is_some_and(|m| m.again));
    run.moves.pop();
    assert!(violated(&run).contains(&Claim::Idle));
}

#[test]
fn too_many_inputs_and_moves() {
    let mut run = bonding();
    let extra = run.moves[0].clone();
    while run.moves.iter().filter(|m| !m.again).count() <= 18 {
        assert!(!violated(&run).contains(&Claim::FewInputs));
        run.moves.push(extra.clone());
    }
    assert!(violated(&run).contains(&Claim::FewInputs));
    while run.moves.len() <= 56 {
        assert!(!violated(&run).contains(&Claim::Bounded));
        run.moves.push(Move { again: true, ..extra.clone() });
    }
    assert!(violated(&run).contains(&Claim::Bounded));
}

#[test]
fn a_refused_step_or_a_panic() {
    let mut run = bonding();
    last(&mut run, 0).answer.outcome = Outcome::Refused(3);
    assert_eq!(violated(&run), [Claim::Accepted]);
    let mut run = bonding();
    last(&mut run, 0).answer.panicked = Some("unknown");
    assert_eq!(violated(&run), [Claim::Accepted]);
}

#[test]
fn another_final_state() {
    for phase in (0..=10).filter(|phase| *phase != 9) {
        let mut run = bonding();
        last(&mut run, 0).answer.machine[machine::PHASE] = phase;
        assert_eq!(violated(&run), [Claim::TerminalEnds]);
        let mut run = bonding();
        last(&mut run, 1).answer.machine[machine::PHASE] = phase;
        assert_eq!(violated(&run), [Claim::HeadEnds]);
    }
}

#[test]
fn the_excepted_case() {
    for phase in [9, 10] {
        let mut run = excepted();
        last(&mut run, 1).answer.machine[machine::PHASE] = phase;
        assert_eq!(violated(&run), [Claim::HeadEnds]);
    }
    let mut run = excepted();
    last(&mut run, 0).answer.machine[machine::PHASE] = 6;
    assert_eq!(violated(&run), [Claim::TerminalEnds]);
    let probed = |change: fn(&mut Run)| {
        let mut run = excepted();
        change(&mut run);
        assert_eq!(violated(&run), [Claim::HeadEnds]);
    };
    probed(|run| run.probe = None);
    probed(|run| run.probe.as_mut().unwrap().1.outcome = Outcome::Wants);
    probed(|run| run.probe.as_mut().unwrap().1.machine[machine::BOND + 28] ^= 1);
    probed(|run| run.probe.as_mut().unwrap().1.machine[machine::BOND_PRESENT] = 0);
    probed(|run| run.probe.as_mut().unwrap().0.machine[machine::PHASE] = 5);
    probed(|run| run.probe.as_mut().unwrap().0.answers.push(0x20));
}

#[test]
fn other_bonds() {
    for at in 0..2 {
        for octet in (0..26).chain([25]) {
            let mut run = bonding();
            last(&mut run, at).answer.machine[machine::BOND + octet] ^= 1;
            assert_eq!(violated(&run), [Claim::SameBonds], "octet {octet}");
        }
        let mut run = bonding();
        last(&mut run, at).answer.machine[machine::BOND_PRESENT] = 0;
        assert_eq!(violated(&run), [Claim::SameBonds]);
    }
    let mut run = bonding();
    for at in 0..2 {
        last(&mut run, at).answer.machine[machine::BOND + 15] = 7;
    }
    assert_eq!(violated(&run), [Claim::SameBonds], "a key that is not cut, at both ends alike");
    for (place, length, name) in [(0, 16, "LTK"), (16, 2, "EDIV"), (18, 8, "Rand")] {
        let mut run = bonding();
        for at in 0..2 {
            last(&mut run, at).answer.machine[machine::BOND + place..][..length].fill(0);
        }
        assert_eq!(violated(&run), [Claim::SameBonds], "{name} zero at both ends alike");
    }
}

#[test]
fn another_passkey_shown_or_one_too_many() {
    for (at, shows) in [(0, Method::TerminalShows), (1, Method::HeadShows)] {
        let mut run = run_where(|_, facts| facts.method == shows);
        change_body(&mut run, at, 0x22, 0);
        assert_eq!(violated(&run), [Claim::Shown]);
        for method in [Method::JustWorks, Method::BothType, Method::OutOfBand, shows] {
            let mut run = run_where(|_, facts| facts.method == method);
            let call = [&[0x22][..], &run.shared.shown.to_le_bytes()].concat();
            add_call(&mut run, at, &call, &[0x22, 0]);
            assert_eq!(violated(&run), [Claim::Shown], "{method:?}");
        }
    }
}

#[test]
fn two_responses_or_another() {
    let mut run = bonding();
    add_call(&mut run, 1, &[0x02, 0, 0, 0, 7, 0, 0], &[0x02, 0]);
    assert!(violated(&run).contains(&Claim::Answered));
    let mut run = bonding();
    run.moves.clear();
    assert!(violated(&run).contains(&Claim::Answered));
    // The answer names one key less than was passed.
    let mut run = bonding();
    change_body(&mut run, 1, 0x02, 5);
    assert!(violated(&run).contains(&Claim::Counted));
}

#[test]
fn moves_that_the_link_does_not_allow() {
    let typing = || run_where(|_, facts| facts.method == Method::BothType);
    let oob = || run_where(|_, facts| facts.method == Method::OutOfBand);
    let at_event = |run: &Run, wanted: fn(&Input) -> bool, at: usize| {
        run.moves.iter().position(|m| m.at == at && !m.again && wanted(&m.given.input)).expect("there is such a move")
    };
    let refuses = |run: &Run| assert!(violated(run).contains(&Claim::Allowed), "{:?}", violated(run));

    let mut run = typing();
    let at = at_event(&run, |input| matches!(input, Input::PassKeyInput(_)), 0);
    run.moves[at].given.input = Input::PassKeyInput(run.shared.typed ^ 1);
    refuses(&run);
    run.moves[at].given.input = Input::PassKeyConfirm;
    refuses(&run);

    let mut run = oob();
    let at = at_event(&run, |input| matches!(input, Input::OobDataReceived(_)), 1);
    run.moves[at].given.input = Input::OobDataReceived([0; 16]);
    refuses(&run);

    let mut run = oob();
    let head = at_event(&run, |input| matches!(input, Input::OobDataReceived(_)), 1);
    let terminal = at_event(&run, |input| matches!(input, Input::OobDataReceived(_)), 0);
    let early = run.moves.remove(terminal);
    run.moves.insert(head, early);
    refuses(&run);

    let mut run = bonding();
    let at = at_event(&run, |input| matches!(input, Input::LinkEncryptedResult(_)), 1);
    run.moves[at].given.input = Input::LinkEncryptedResult(false);
    refuses(&run);

    let mut run = bonding();
    let at = at_event(&run, |input| matches!(input, Input::Command(0x03)), 1);
    run.moves[at].given.payload[0] ^= 1;
    refuses(&run);

    let mut run = bonding();
    run.moves[0].given.machine[machine::LOCAL_ADDRESS] ^= 1;
    refuses(&run);
}

#[test]
fn re_runs_that_the_link_does_not_allow() {
    let changed = |change: fn(&mut Run, usize)| {
        let mut run = run_where(|run, _| run.moves.iter().any(|m| m.again));
        let at = run.moves.iter().position(|m| m.again).expect("there is a re-run");
        change(&mut run, at);
        violated(&run)
    };
    assert!(changed(|run, at| run.moves[at].given.machine[machine::METHOD] ^= 1).contains(&Claim::Allowed));
    assert!(changed(|run, at| run.moves[at].given.answers.clear()).contains(&Claim::Allowed));
    assert!(changed(|run, at| run.moves[at].given.input = Input::PassKeyCancel).contains(&Claim::Allowed));
    assert!(changed(|run, at| run.moves[at].given.payload.push(0)).contains(&Claim::Allowed));
    assert!(changed(|run, at| run.moves[at].again = false).contains(&Claim::Allowed));
}

#[test]
fn hosts_that_are_not_fair() {
    let mut run = bonding();
    let encrypts = |m: &Move| m.answer.read > 0 && m.given.answers[0] == 0x3a;
    let at = run.moves.iter().position(encrypts).expect("the terminal encrypts");
    run.moves[at].given.answers[1] = 1;
    assert!(violated(&run).contains(&Claim::Fair));
    let mut run = run_where(|_, facts| facts.method == Method::HeadShows);
    run.shared.shown ^= 1;
    assert!(violated(&run).contains(&Claim::Fair));
    let mut run = bonding();
    run.moves[0].given.list_len = 163;
    assert!(violated(&run).contains(&Claim::Fair));
}

#[test]
fn lists_that_are_none() {
    let wanting = |m: &Move| m.answer.outcome == Outcome::Wants;
    let with_wanting = || run_where(|run, _| run.moves.iter().any(wanting));
    let mut run = with_wanting();
    let at = run.moves.iter().position(wanting).expect("a step wants");
    run.moves[at].answer.machine[machine::METHOD] ^= 1;
    assert!(violated(&run).contains(&Claim::Listed));
    let mut run = run_where(|run, _| run.moves[..2].iter().all(|m| m.at == 1) && run.moves[1].again);
    run.moves[1].answer.list[0] = 0x34;
    assert!(violated(&run).contains(&Claim::Listed));
    let mut run = with_wanting();
    run.moves[at].answer.list[0] = 0xff;
    assert!(violated(&run).contains(&Claim::Listed));
}

#[test]
fn an_answer_that_is_not_the_rusts() {
    let run = bonding();
    let right = run.answers();
    assert!(port::compare(&run, &right).0.is_empty());
    for at in 0..right.len() {
        for change in [0, right[at].len() / 2, right[at].len() - 1] {
            let mut wrong = right.clone();
            wrong[at][change] ^= 1;
            assert_eq!(port::compare(&run, &wrong).0[0].0, Claim::Equal);
        }
    }
    assert_eq!(port::compare(&run, &right[1..]).0[0].0, Claim::Equal);
    assert_eq!(port::compare(&run, &right[..right.len() - 1]).0[0].0, Claim::Equal);
}
