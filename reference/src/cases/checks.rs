//! Checks over generated cases, of which some have wildcards (document 02,
//! No. 1): the fast rules against a plain restatement of document 01, and what
//! accepted nets promise about steps; and shares and letters against plain
//! restatements of No. 7 and No. 4.

use super::damage::drop_row;
use super::letters::by_number;
use super::listings;
use super::nets::{accepted, widen, OwnRows, Style, LISTING};
use super::plain::{self, Plain};
use super::process::{template, BUSY};
use super::rng::Rng;
use super::sandboxes::peopled;
use super::scripts;
use super::seasons::add_accepting_thread;
use super::text::{bytes, estimate_rows, net_rows};
use super::wildcards::add_taken_row;
use crate::engine::{Done, State};
use crate::flow::{self, Broken};
use crate::rows::*;
use crate::{listing, script};

pub const NETS: u64 = 600;

/// The style for a seed: with no wildcards, some, or many, and with rows for
/// `self` that are fitted or drawn.
pub fn varied(seed: u64, style: Style) -> Style {
    let own_rows = if seed / 9 % 2 == 0 { OwnRows::Fitted } else { OwnRows::Drawn };
    Style { wildcards: [0, 30, 70][(seed / 3 % 3) as usize], own_rows, ..style }
}

/// A net of a style; where rows for `self` are drawn, with senders and houses.
pub(super) fn net_of(rng: &mut Rng, style: &Style) -> (Net, Estimate) {
    match style.own_rows {
        OwnRows::Fitted => accepted(rng, style),
        OwnRows::Drawn => peopled(rng, style),
    }
}

#[test]
fn rules_and_report_agree_with_the_plain_ones() {
    let (mut broken, mut whole, mut broken_wildcards) = (0, 0, 0);
    for seed in 0..NETS {
        let rng = &mut Rng::new(seed);
        let style = varied(seed, Style { max_lines: 30, ..LISTING });
        let (net, mut estimate) = net_of(rng, &style);
        if net.lines.len() > 80 {
            continue;
        }
        match seed % 3 {
            0 => drop_row(rng, &mut estimate),
            1 if style.wildcards > 0 => add_taken_row(rng, &net, &mut estimate),
            1 => widen(rng, &net, &mut estimate),
            _ => {}
        }
        let places = flow::net_places(&net, &estimate);
        let plain = Plain::of(&net, &estimate);
        let expected = plain.first_broken();
        assert_eq!(flow::first_broken(&net, &estimate, &places), expected, "seed {seed}");
        if expected.is_none() {
            whole += 1;
            let report = flow::report(&net, &estimate, &places);
            assert_eq!(report[..], plain.report()[..], "seed {seed}");
        } else {
            broken += 1;
        }
        if let Some(Broken::Line(q)) = expected {
            broken_wildcards += usize::from(has_wildcard(&net.lines[q]));
        }
    }
    let counts = (broken, whole, broken_wildcards);
    assert!(broken > 50 && whole > 100 && broken_wildcards > 10, "{counts:?}");
}

pub fn has_wildcard(line: &Line) -> bool {
    template(line).is_some_and(|fields| fields.slice().contains(&Term::Wildcard))
}

/// For every count of rights held, up to 5 towards each of 32 sites.
#[test]
fn shares_are_the_nearest() {
    for held in 1..=(LETTERS.len() * SITES) as u32 {
        for used in 0..=held {
            let share = listing::share(held, used);
            let distance = |n: u32| (1000 * used).abs_diff(n * held);
            assert!(share <= 1000, "{used} of {held}");
            for n in (0..=1000).filter(|&n| n != share) {
                let as_near = distance(n) == distance(share);
                let nearer = distance(n) < distance(share);
                assert!(!nearer && (!as_near || share & 1 == 0), "{used} of {held}");
            }
        }
    }
}

/// "Each entry has the letters of its set's bits, in the order `oirea`, and
/// no other."
#[test]
fn letters_are_those_of_the_bits() {
    let bits = [(1, 'o'), (2, 'i'), (4, 'r'), (8, 'e'), (16, 'a')];
    let by_number = by_number();
    assert_eq!(by_number.len(), 32);
    for set in 0..=31 {
        let held = bits.iter().filter(|(bit, _)| set & bit != 0);
        let plain: String = held.map(|(_, letter)| letter).collect();
        assert_eq!(listing::letters(set), plain, "set {set}");
        assert_eq!(by_number[usize::from(set)], plain, "set {set}");
    }
}

/// The state begun from the texts of a net and an estimate.
pub(super) fn begun(net: &Net, estimate: &Estimate) -> State {
    State::start(&bytes(&net_rows(net)), &bytes(&estimate_rows(estimate))).unwrap()
}

#[test]
fn door_agrees_with_the_plain_one() {
    let style = Style { weights: BUSY, max_lines: 20, sandbox_rows: 8, widened: 90, ..LISTING };
    let (mut passed, mut closed) = (0, 0);
    for seed in 0..NETS / 6 {
        let rng = &mut Rng::new(seed);
        let style = varied(seed, style);
        let (net, estimate) = net_of(rng, &style);
        let mut state = begun(&net, &estimate);
        for _ in 0..4 {
            scripts::bring_friendly(rng, &mut state, style.wildcards);
        }
        for (arrival, end) in state.arrivals.iter().zip(plain::ends(&state)) {
            let r = usize::from(arrival.root);
            for (l, d) in (0..state.net.sites.min(6)).flat_map(|l| (0..4).map(move |d| (l, d))) {
                let door = state.door(r, usize::from(l), usize::from(d));
                let expected = plain::door(&state, ALL_RIGHTS, r, end, Site(l), d);
                assert_eq!(door, Ok(expected), "seed {seed}, door {r} {l} {d}");
                *if expected { &mut passed } else { &mut closed } += 1;
            }
        }
    }
    assert!(passed > 300 && closed > 300);
}

#[test]
fn texts_are_read_back() {
    for seed in 0..NETS {
        let (net, estimate) = net_of(&mut Rng::new(seed), &varied(seed, LISTING));
        let (mut net_read, mut estimate_read) = (Net::empty(), Estimate::empty());
        let texts = (bytes(&net_rows(&net)), bytes(&estimate_rows(&estimate)));
        let read = flow::read_both(&texts.0, &texts.1, &mut net_read, &mut estimate_read);
        assert_eq!(read, Ok(()), "seed {seed}");
        assert_eq!((net_read, estimate_read), (net, estimate), "seed {seed}");
    }
}

/// Every tuple and every binding is within the estimate.
fn state_is_within(state: &State) -> bool {
    let bound = |thread: &crate::engine::Thread| {
        (0..VARS as u8).map(Var).all(|u| match thread.bindings.get(u) {
            Some(site) => state.estimate.binds[u.index()] & site.bit() != 0,
            None => true,
        })
    };
    state.tuples.iter().all(|tuple| state.estimate.tuples.contains(tuple))
        && state.threads.iter().all(bound)
}

/// What was seen in runs: steps performed, those of them that the policies
/// forbid, the same two of threads under a sandbox on the site at which they
/// are, withdrawals, and steps on a line behind one that had come free.
#[derive(Default, Debug)]
struct Counts {
    performed: usize,
    forbidden: usize,
    at_own_site: usize,
    forbidden_there: usize,
    withdrawn: usize,
    behind: usize,
}

/// One run of bring, bare steps and, for every other seed, withdrawals; the net
/// of such a seed has a thread that takes arrivals in.
fn check_run(seed: u64, counts: &mut Counts) {
    let rng = &mut Rng::new(seed);
    let style = varied(seed, Style { weights: BUSY, sandbox_rows: 6, widened: 80, ..LISTING });
    let (mut net, mut estimate) = net_of(rng, &style);
    let withdraws = seed % 2 == 1;
    if withdraws {
        add_accepting_thread(rng, &mut net, &mut estimate);
    }
    let report = flow::report(&net, &estimate, &flow::net_places(&net, &estimate));
    let mut state = begun(&net, &estimate);
    let mut given_again = MAX_LINES;
    for turn in 0..120 {
        if turn % 15 == 0 || (withdraws && rng.chance(10)) {
            scripts::bring_friendly(rng, &mut state, style.wildcards);
        }
        if withdraws && rng.chance(15) {
            let root = state.withdraw().map_or(MAX_LINES, usize::from);
            counts.withdrawn += usize::from(root < MAX_LINES);
            given_again = given_again.min(root);
        }
        let Some((k, m, r)) = scripts::performing_step(rng, &state, false) else { continue };
        let permitted = state.judge(true, k, m, r).is_ok();
        counts.behind += usize::from(usize::from(state.threads[k].line) >= given_again);
        let sandboxed = state.threads[k].policy != net.home[state.threads[k].site.index()];
        if let Ok(Done::Acted { site, target, right }) = state.step(k, m, r) {
            counts.performed += 1;
            counts.forbidden += usize::from(!permitted);
            counts.at_own_site += usize::from(sandboxed && site == target);
            counts.forbidden_there += usize::from(sandboxed && site == target && !permitted);
            let listed = report[site.index() * SITES + target.index()] & right != 0;
            assert!(permitted || listed, "seed {seed}, turn {turn}");
        }
        assert!(state_is_within(&state), "seed {seed}, turn {turn}");
    }
}

/// What demand 3 says of accepted nets: a performed step that the policies
/// forbid is in the report, and all stays within the estimate.
#[test]
fn forbidden_steps_are_reported() {
    let mut counts = Counts::default();
    (0..NETS).for_each(|seed| check_run(seed, &mut counts));
    let Counts { performed, forbidden, withdrawn, behind, .. } = counts;
    assert!(performed > 2000 && forbidden > 200 && withdrawn > 500 && behind > 500, "{counts:?}");
    assert!(counts.at_own_site > 1000 && counts.forbidden_there > 200, "{counts:?}");
}

/// One past the greatest number of a refusal.
const NUMBERS: usize = 37;

fn refusals(out: &[u8], seen: &mut [usize; NUMBERS]) {
    for row in String::from_utf8_lossy(out).lines() {
        let mut fields = row.split(',');
        if fields.next() == Some("refused") {
            let number: usize = fields.next().unwrap().parse().unwrap();
            seen[number] += 1;
        }
    }
}

#[test]
fn every_number_is_met() {
    let mut seen = [0; NUMBERS];
    for seed in 0..NETS {
        refusals(&listing::list(&listings::case(&mut Rng::new(seed))), &mut seen);
    }
    assert!((1..=8).all(|number| seen[number] > 2), "{seen:?}");
    let mut seen = [0; NUMBERS];
    for seed in 0..NETS / 4 {
        refusals(&script::run(&scripts::case(&mut Rng::new(seed))), &mut seen);
    }
    let numbers = (1..=8).chain(21..=27).chain(35..=36);
    assert!(numbers.into_iter().all(|number| seen[number] > 2), "{seen:?}");
}

#[test]
fn cases_depend_on_the_seed_alone() {
    for seed in 0..20 {
        let twice =
            |make: fn(&mut Rng) -> Vec<u8>| make(&mut Rng::new(seed)) == make(&mut Rng::new(seed));
        assert!(twice(listings::case) && twice(scripts::case));
    }
}
