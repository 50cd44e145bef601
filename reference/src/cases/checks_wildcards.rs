//! Checks of wildcards over generated nets: matching against its definition,
//! and a wildcard against a variable that nothing reads.

use super::checks::{begun, has_wildcard, varied, NETS};
use super::nets::{accepted, Style, LISTING};
use super::process::{template, template_mut, BUSY};
use super::rng::Rng;
use super::scripts::{self, performing_step};
use crate::engine::{State, Thread, NO_MATCH};
use crate::flow;
use crate::rows::*;

/// The first variable that is put in the place of wildcards, one for each
/// field.
const SPARE: u8 = VARS as u8 - MAX_FIELDS as u8;

const STYLE: Style = Style { weights: BUSY, max_lines: 40, ..LISTING };

fn value(thread: &Thread, term: Term) -> Option<Site> {
    match term {
        Term::Site(site) => Some(site),
        Term::Own => Some(thread.site),
        Term::Var(u) => thread.bindings.get(u),
        Term::Bind(_) | Term::Wildcard => None,
    }
}

/// "Tuple m stands at the target, has as many fields, and agrees in every
/// non-binding field"; `_` "agrees with any site".
fn plain_match(thread: &Thread, target: Term, fields: &Terms, tuple: &Tuple) -> bool {
    let agrees = |at: usize| match fields.items[at] {
        Term::Bind(_) | Term::Wildcard => true,
        term => value(thread, term) == Some(tuple.fields[at]),
    };
    value(thread, target) == Some(tuple.site)
        && fields.len == tuple.len
        && (0..usize::from(tuple.len)).all(agrees)
}

/// What u is bound to behind a template: "the new bindings, a rebound variable
/// replaced"; `_` "binds nothing".
fn plain_binding(thread: &Thread, fields: &Terms, tuple: &Tuple, u: Var) -> Option<Site> {
    let place = fields.slice().iter().position(|term| *term == Term::Bind(u));
    place.map(|at| tuple.fields[at]).or(thread.bindings.get(u))
}

/// Every tuple for thread k: whether it matches, and what is bound then. The
/// number of matches.
fn try_tuples(state: &State, k: usize) -> usize {
    let thread = &state.threads[k];
    let line = state.net.lines[usize::from(thread.line)];
    let (Line::In { next, target, fields } | Line::Read { next, target, fields }) = line else {
        return 0;
    };
    let mut matches = 0;
    for (m, tuple) in state.tuples.iter().enumerate() {
        let mut after = state.clone();
        let step = after.step(k, m, 0);
        if !plain_match(thread, target, &fields, tuple) {
            assert_eq!(step.unwrap_err().number, NO_MATCH);
            continue;
        }
        assert!(step.is_ok());
        matches += 1;
        if state.net.lines[usize::from(next)] != Line::Nil {
            for u in (0..VARS as u8).map(Var) {
                let bound = plain_binding(thread, &fields, tuple, u);
                assert_eq!(after.threads[k].bindings.get(u), bound);
            }
        }
    }
    matches
}

#[test]
fn templates_match_as_they_are_defined_to() {
    let (mut matches, mut wildcards) = (0, 0);
    for seed in 0..NETS {
        let rng = &mut Rng::new(seed);
        let (net, estimate) = accepted(rng, &varied(seed, STYLE));
        let mut state = begun(&net, &estimate);
        for turn in 0..40 {
            if turn % 10 == 0 {
                scripts::bring_friendly(rng, &mut state, 50);
            }
            let Some((k, m, r)) = performing_step(rng, &state, false) else { break };
            let line = state.net.lines[usize::from(state.threads[k].line)];
            let found = try_tuples(&state, k);
            matches += found;
            wildcards += if has_wildcard(&line) { found } else { 0 };
            state.step(k, m, r).unwrap();
        }
    }
    assert!(matches > 1000 && wildcards > 300, "{matches} {wildcards}");
}

/// The net with a spare variable bound in the place of each wildcard; none if
/// the net itself has one of these variables.
fn spared(net: &Net) -> Option<Net> {
    let mut spared = net.clone();
    for line in spared.lines.iter_mut() {
        let binds = template(line).map_or(0, Terms::binds);
        if binds >> SPARE != 0 {
            return None;
        }
        let Some(fields) = template_mut(line) else { continue };
        for (at, field) in fields.items.iter_mut().enumerate() {
            if *field == Term::Wildcard {
                *field = Term::Bind(Var(SPARE + at as u8));
            }
        }
    }
    Some(spared)
}

/// The same, but for the lines and the spare variables.
fn alike(a: &State, b: &State) -> bool {
    let bindings = |t: &Thread, s: &Thread| {
        (0..SPARE).map(Var).all(|u| t.bindings.get(u) == s.bindings.get(u))
    };
    let same = |(t, s): (&Thread, &Thread)| {
        t.site == s.site && t.policy == s.policy && t.line == s.line && bindings(t, s)
    };
    a.tuples == b.tuples
        && a.threads.len() == b.threads.len()
        && a.threads.iter().zip(b.threads.iter()).all(same)
}

/// A wildcard and a variable that nothing reads, with every B row: what is
/// accepted stays so, the reports are the same, and so are all steps.
#[test]
fn wildcards_are_variables_that_nothing_reads() {
    let (mut nets, mut steps) = (0, 0);
    for seed in 0..NETS {
        let rng = &mut Rng::new(seed);
        let (net, estimate) = accepted(rng, &varied(seed, STYLE));
        let Some(other) = spared(&net).filter(|other| *other != net) else { continue };
        let mut wide = estimate.clone();
        wide.binds[usize::from(SPARE)..].fill(below(net.sites));
        let places = flow::net_places(&net, &estimate);
        let other_places = flow::net_places(&other, &wide);
        assert_eq!(flow::first_broken(&other, &wide, &other_places), None, "seed {seed}");
        let report = flow::report(&net, &estimate, &places);
        assert_eq!(report, flow::report(&other, &wide, &other_places), "seed {seed}");
        nets += 1;
        let (mut state, mut other) = (begun(&net, &estimate), begun(&other, &wide));
        for _ in 0..60 {
            let Some((k, m, r)) = performing_step(rng, &state, false) else { break };
            let m = if rng.chance(80) { m } else { rng.below(8) };
            assert_eq!(state.guarded_step(k, m, r), other.guarded_step(k, m, r), "seed {seed}");
            assert_eq!(state.step(k, m, r), other.step(k, m, r), "seed {seed}");
            assert_eq!(state.ready(), other.ready(), "seed {seed}");
            assert!(alike(&state, &other), "seed {seed}");
            steps += 1;
        }
    }
    assert!(nets > 100 && steps > 2000, "{nets} {steps}");
}
