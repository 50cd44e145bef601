//! Checks of withdrawals (document 02, No. 8) over generated states: against a
//! plain restatement, and behind a bring.

use super::checks::{begun, net_of, varied, NETS};
use super::nets::Style;
use super::rng::Rng;
use super::scripts::{self, bring_friendly, performing_step, STYLE};
use super::seasons::{add_accepting_thread, SMALL};
use super::text::{arrival_rows, bytes};
use crate::engine::{Arrival, State, LINES_IN_USE, NONE_TO_WITHDRAW};
use crate::flow;
use crate::rows::*;

const TURNS: usize = 60;

/// Whether line q is the root of an arrival, or has one above it.
fn belongs(state: &State, root: u8, q: u8) -> bool {
    let names = |p: &u8| state.net.lines[usize::from(*p)].children().contains(&Some(q));
    q == root || (0..q).find(names).is_some_and(|parent| belongs(state, root, parent))
}

/// What a withdrawal answers, and the state that it leaves, from the lines
/// that the newest arrival's root has below it.
fn plain_withdraw(state: &State) -> (Result<u8, Refusal>, State) {
    let refused = |number: u8| (Err(Refusal { number, row: 0 }), state.clone());
    let Some(root) = state.arrivals.iter().map(|arrival| arrival.root).max() else {
        return refused(NONE_TO_WITHDRAW);
    };
    let own = |q: u8| belongs(state, root, q);
    if state.threads.iter().any(|thread| own(thread.line)) {
        return refused(LINES_IN_USE);
    }
    let mut after = state.clone();
    after.net.lines = List::filled(Line::Nil);
    let present = state.net.lines.len();
    let kept = (0..present).filter(|&q| !own(q as u8));
    kept.for_each(|q| after.net.lines.push(state.net.lines[q]));
    let others: Vec<Arrival> = state.arrivals.iter().filter(|a| a.root != root).copied().collect();
    after.arrivals = List::filled(state.arrivals[0]);
    others.into_iter().for_each(|arrival| after.arrivals.push(arrival));
    (Ok(root), after)
}

/// A state begun from a generated net with a thread that takes arrivals in.
fn begun_accepting(rng: &mut Rng, style: &Style) -> State {
    let (mut net, mut estimate) = net_of(rng, style);
    add_accepting_thread(rng, &mut net, &mut estimate);
    begun(&net, &estimate)
}

/// Calls `look` with each state of generated runs of bring, steps and
/// withdrawals, and with the chance that a template's field is a wildcard.
fn each_state(mut look: impl FnMut(&mut Rng, &State, usize)) {
    for seed in 0..NETS / 2 {
        let rng = &mut Rng::new(seed);
        let style = varied(seed, if seed % 2 == 0 { SMALL } else { STYLE });
        let mut state = begun_accepting(rng, &style);
        for _ in 0..TURNS {
            look(rng, &state, style.wildcards);
            match rng.weighted(&[12, 60, 14]) {
                0 => {
                    bring_friendly(rng, &mut state, style.wildcards);
                }
                1 => {
                    let step = performing_step(rng, &state, false);
                    step.map(|(k, m, r)| state.step(k, m, r));
                }
                _ => {
                    let _ = state.withdraw();
                }
            }
        }
    }
}

/// Answers and states, refusals among them: "and the state is kept".
#[test]
fn withdrawals_agree_with_the_plain_ones() {
    let (mut done, mut none, mut in_use, mut older) = (0, 0, 0, 0);
    each_state(|_, state, _| {
        let (answer, expected) = plain_withdraw(state);
        let mut after = state.clone();
        assert_eq!(after.withdraw(), answer);
        assert_eq!(after, expected);
        match answer {
            Ok(_) => done += 1,
            Err(refusal) if refusal.number == NONE_TO_WITHDRAW => none += 1,
            Err(_) => in_use += 1,
        }
        let first = after.arrivals.first().map_or(MAX_LINES, |first| usize::from(first.root));
        let on_older = after.threads.iter().any(|thread| usize::from(thread.line) >= first);
        older += usize::from(answer.is_ok() && on_older);
        if let Ok(root) = answer {
            let refusal = after.door(usize::from(root), 0, 0).unwrap_err();
            assert_eq!(refusal.number, 24);
        }
    });
    let counts = (done, none, in_use, older);
    assert!(done > 1000 && none > 500 && in_use > 500 && older > 200, "{counts:?}");
}

/// "A bring that was not refused, directly followed by a withdrawal, leaves the
/// state equal to the one before."
#[test]
fn a_bring_is_taken_back() {
    let (mut taken, mut refused, mut busy) = (0, 0, 0);
    each_state(|rng, state, wildcards| {
        let mut after = state.clone();
        let brought = if rng.chance(70) {
            bring_friendly(rng, &mut after, wildcards)
        } else {
            let count = rng.between(1, MAX_LINES);
            let rows = arrival_rows(&scripts::chain(count));
            after.bring(&bytes(&rows)).is_ok()
        };
        if !brought {
            refused += 1;
            return assert_eq!(after, *state);
        }
        assert_ne!(after, *state);
        assert_eq!(after.withdraw().map(usize::from), Ok(state.net.lines.len()));
        assert_eq!(after, *state);
        taken += 1;
        busy += usize::from(!state.arrivals.is_empty() && !state.threads.is_empty());
    });
    let counts = (taken, refused, busy);
    assert!(taken > 2000 && refused > 100 && busy > 1000, "{counts:?}");
}

/// Demand 3, where nothing is reported: a guarded run and a bare one give the
/// same answer at every call, withdrawals among them, and equal states after it.
#[test]
fn guards_are_idle_where_nothing_is_reported() {
    let (mut performed, mut withdrawn) = (0, 0);
    for seed in 0..NETS / 2 {
        let rng = &mut Rng::new(seed);
        let mut bare = begun_accepting(rng, &varied(seed, SMALL));
        let places = flow::net_places(&bare.net, &bare.estimate);
        if flow::report(&bare.net, &bare.estimate, &places).iter().any(|&rights| rights != 0) {
            continue;
        }
        let mut guarded = bare.clone();
        for turn in 0..TURNS {
            if rng.chance(12) {
                let rows = scripts::friendly_rows(rng, &bare, 0);
                assert_eq!(bare.bring(&bytes(&rows)), guarded.bring(&bytes(&rows)));
            }
            if rng.chance(14) {
                let answer = bare.withdraw();
                assert_eq!(guarded.withdraw(), answer, "seed {seed}, turn {turn}");
                withdrawn += usize::from(answer.is_ok());
            }
            if let Some((k, m, r)) = performing_step(rng, &bare, false) {
                assert_eq!(guarded.guarded_step(k, m, r), bare.step(k, m, r), "seed {seed}");
                performed += 1;
            }
            assert_eq!(guarded, bare, "seed {seed}, turn {turn}");
        }
    }
    assert!(performed > 2000 && withdrawn > 200, "{performed} {withdrawn}");
}

/// Whether a text has the command.
fn has_withdrawal(text: &[u8]) -> bool {
    text.split(|&b| b == b'\n').any(|row| row == b"withdraw")
}

/// How many of a hundred scripts have withdrawals.
#[test]
fn some_scripts_have_withdrawals() {
    let cases = (0..NETS).map(|seed| scripts::case(&mut Rng::new(seed)));
    let share = 100 * cases.filter(|text| has_withdrawal(text)).count() / NETS as usize;
    assert!((13..=21).contains(&share), "{share}");
}
