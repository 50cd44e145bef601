//! Checks of what sandboxes have for `self` (document 02, No. 3), over generated
//! texts: evaluation against its definition, the old rule, which a text gets back
//! by rows `D,k,self,-`, and the default, which is the same as a row with all
//! rights.

use super::checks::{begun, net_of, varied, NETS};
use super::nets::{Style, LISTING};
use super::plain::{self, Plain};
use super::rng::Rng;
use super::sandboxes::{self, sandbox_group};
use super::scripts::{friendly_rows, STYLE};
use super::text::{bytes, estimate_rows, net_rows, Rows};
use super::Kind;
use crate::engine::State;
use crate::flow::{self, check, Answer, Broken};
use crate::listing::{letters, list, part, MAX_INPUT};
use crate::rows::*;
use crate::script;

/// Bytes of a text that is short enough for the plain restatement.
const SHORT: usize = 4000;

/// The rows of a text.
fn rows_of(text: &[u8]) -> Rows {
    let text = text.strip_suffix(b"\n").unwrap_or(text);
    text.split(|&b| b == b'\n').map(<[u8]>::to_vec).collect()
}

/// Whether a sandbox has a row towards a site or `self`, and its rights.
fn rights_of(rows: &Rows, k: usize, t: &str) -> Option<String> {
    let begin = format!("D,{k},{t},");
    let row = rows.iter().find(|row| row.starts_with(begin.as_bytes()))?;
    Some(String::from_utf8_lossy(&row[begin.len()..]).into_owned())
}

/// A text whose net has a row for `self` with these rights wherever there was
/// none; how many were added.
fn with_own_rows(text: &[u8], rights: &str) -> (Vec<u8>, usize) {
    let (net, rest) = part(text);
    let mut rows = rows_of(net);
    let silent: Vec<usize> =
        (0..SANDBOXES).filter(|&k| rights_of(&rows, k, "self").is_none()).collect();
    for k in &silent {
        let end = sandbox_group(&rows).end;
        rows.insert(end, format!("D,{k},self,{rights}").into_bytes());
    }
    ([bytes(&rows), b".\n".to_vec(), rest.to_vec()].concat(), silent.len())
}

/// What a text holds that is not refused.
fn read(text: &[u8]) -> (Net, Estimate) {
    let (mut net, mut estimate) = (Net::empty(), Estimate::empty());
    let (net_text, estimate_text) = part(text);
    flow::read_both(net_text, estimate_text, &mut net, &mut estimate).unwrap();
    (net, estimate)
}

/// The listings about sandboxes that are read.
fn listings() -> impl Iterator<Item = Vec<u8>> {
    let texts = (0..NETS).map(|seed| sandboxes::listing(&mut Rng::new(seed)));
    texts.filter(|text| !list(text).starts_with(b"refused"))
}

/// "Evaluated at site l, sandbox d gives site t the set d(t), but gives l itself
/// d(l) ∩ d(self)"; "a sandbox with no `self` row has all five rights for `self`".
fn evaluated(rows: &Rows, k: usize, l: usize, t: usize) -> String {
    let towards = rights_of(rows, k, &format!("s{t}")).unwrap_or_default();
    let own = if l == t { rights_of(rows, k, "self") } else { None };
    let own = own.unwrap_or("oirea".to_string());
    "oirea".chars().filter(|&right| towards.contains(right) && own.contains(right)).collect()
}

#[test]
fn evaluation_is_that_of_the_rows() {
    // By what the sandbox has for `self`: no row, no rights, some.
    let mut seen = [0; 3];
    for text in listings() {
        let (net, _) = read(&text);
        let mut rows = rows_of(part(&text).0);
        rows.retain(|row| row.starts_with(b"D,"));
        let n = usize::from(net.sites).min(8);
        let pairs = (0..n).flat_map(|l| (0..n).map(move |t| (l, t)));
        for (k, (l, t)) in pairs.flat_map(|pair| (0..6).map(move |k| (k, pair))) {
            let held = net.sandboxes[k].at(Site(l as u8))[t];
            assert_eq!(letters(held), evaluated(&rows, k, l, t), "{k} {l} {t}");
            let kind = match net.sandboxes[k].own {
                None => 0,
                Some(NO_RIGHTS) => 1,
                Some(_) => 2,
            };
            seen[kind] += usize::from(l == t && net.sandboxes[k].towards[t] != NO_RIGHTS);
        }
    }
    assert!(seen.iter().all(|&count| count > 500), "{seen:?}");
}

/// `-` towards a site is the same as no row.
#[test]
fn rows_without_rights_towards_sites_say_nothing() {
    let mut changed = 0;
    for text in listings() {
        let (net, estimate) = part(&text);
        let mut rows = rows_of(net);
        let all = rows.len();
        rows.retain(|row| {
            !(row.starts_with(b"D") && row.ends_with(b",-")) || row.ends_with(b",self,-")
        });
        changed += usize::from(rows.len() < all);
        let less = [bytes(&rows), b".\n".to_vec(), estimate.to_vec()].concat();
        assert_eq!(list(&less), list(&text));
    }
    assert!(changed > 200, "{changed}");
}

/// "a sandbox with no `self` row has all five rights for `self`": the same as a
/// row with them, in listings and in scripts.
#[test]
fn the_default_is_a_row_with_all_rights() {
    let mut added = 0;
    for text in listings().chain((0..NETS).map(|seed| Kind::Listing.case(seed))) {
        let (with_rows, silent) = with_own_rows(&text, "oirea");
        if list(&text).starts_with(b"refused") || with_rows.len() > MAX_INPUT {
            continue;
        }
        added += silent;
        assert_eq!(list(&with_rows), list(&text));
    }
    for text in (0..NETS / 2).map(|seed| sandboxes::script(&mut Rng::new(seed))) {
        let (with_rows, silent) = with_own_rows(&text, "oirea");
        added += silent;
        assert_eq!(script::run(&with_rows), script::run(&text));
    }
    assert!(added > 5000, "{added}");
}

/// "Houses that relied on the old default write `D,k,self,-`": where each silent
/// sandbox has that row, the check answers as before the request, when a sandbox
/// without the row had no rights for `self`.
#[test]
fn rows_without_rights_give_the_old_rule() {
    let (mut accepted, mut broken, mut others) = (0, 0, 0);
    for text in listings().filter(|text| text.len() < SHORT) {
        let (net, estimate) = read(&text);
        let old = Plain { silent: NO_RIGHTS, ..Plain::of(&net, &estimate) };
        let (with_rows, _) = with_own_rows(&text, "-");
        let (net_text, estimate_text) = part(&with_rows);
        let mut report = [0; 1024];
        let answer = check(net_text, estimate_text, &mut report);
        match old.first_broken() {
            Some(first) => {
                broken += 1;
                assert_eq!(answer, Answer::Broken(first));
            }
            None => {
                accepted += 1;
                assert_eq!(answer, Answer::Accepted);
                assert_eq!(report[..], old.report()[..]);
            }
        }
        others += usize::from(list(&with_rows) != list(&text));
    }
    assert!(accepted > 150 && broken > 30 && others > 80, "{accepted} {broken} {others}");
}

/// The same of the door.
#[test]
fn rows_without_rights_give_the_old_door() {
    let (mut passed, mut closed, mut others) = (0, 0, 0);
    let style = Style { max_lines: 12, ..STYLE };
    for seed in 0..NETS / 6 {
        let rng = &mut Rng::new(seed);
        let (net, estimate) = net_of(rng, &varied(9 + seed % 9, style));
        let mut state = begun(&net, &estimate);
        let text = [bytes(&net_rows(&net)), b".\n".to_vec(), bytes(&estimate_rows(&estimate))];
        let (with_rows, _) = with_own_rows(&text.concat(), "-");
        let (net_text, estimate_text) = part(&with_rows);
        let mut old = State::start(net_text, estimate_text).unwrap();
        for _ in 0..3 {
            let rows = bytes(&friendly_rows(rng, &state, 0));
            assert_eq!(state.bring(&rows), old.bring(&rows));
        }
        for (arrival, end) in state.arrivals.iter().zip(plain::ends(&state)) {
            let r = usize::from(arrival.root);
            for (l, d) in (0..state.net.sites.min(6)).flat_map(|l| (0..4).map(move |d| (l, d))) {
                let expected = plain::door(&state, NO_RIGHTS, r, end, Site(l), d);
                let answer = old.door(r, usize::from(l), usize::from(d));
                assert_eq!(answer, Ok(expected), "seed {seed}, door {r} {l} {d}");
                *if expected { &mut passed } else { &mut closed } += 1;
                others += usize::from(state.door(r, usize::from(l), usize::from(d)) != answer);
            }
        }
    }
    assert!(passed > 200 && closed > 200 && others > 100, "{passed} {closed} {others}");
}

/// More rights for `self` break no rule but those of eval lines to one site: at
/// several sites each has what the sandbox holds there at another one.
#[test]
fn only_evals_to_one_site_depend_on_self() {
    let mut seen = 0;
    for text in listings().filter(|text| text.len() < SHORT) {
        let (net, estimate) = read(&text);
        let new = Plain::of(&net, &estimate);
        let old = Plain { silent: NO_RIGHTS, ..new };
        for q in 0..net.lines.len() {
            if new.rule(q) == old.rule(q) {
                continue;
            }
            let places = flow::net_places(&net, &estimate);
            let Line::Eval { target, .. } = net.lines[q] else { panic!("line {q}") };
            assert_eq!(flow::reach(target, places[q], &estimate).count_ones(), 1);
            assert!(!new.rule(q));
            assert!(new.first_broken().is_some_and(|first| match first {
                Broken::Tuple(_) => true,
                Broken::Line(line) => line <= q,
            }));
            seen += 1;
        }
    }
    assert!(seen > 20, "{seen}");
}

/// How many of a hundred cases have a D row without rights.
#[test]
fn some_cases_have_rows_without_rights() {
    let has_row = |text: &Vec<u8>| {
        rows_of(text).iter().any(|row| row.starts_with(b"D,") && row.ends_with(b",-"))
    };
    for (kind, shares) in [(Kind::Listing, 7..=13), (Kind::Script, 9..=15)] {
        let cases = (0..NETS).map(|seed| kind.case(seed));
        let share = 100 * cases.filter(has_row).count() / NETS as usize;
        assert!(shares.contains(&share), "{} {share}", kind.name());
    }
}

/// Nets of every style are accepted, those with senders and houses too.
#[test]
fn nets_are_accepted() {
    for seed in 0..NETS {
        let (net, estimate) = net_of(&mut Rng::new(seed), &varied(seed, LISTING));
        let places = flow::net_places(&net, &estimate);
        assert_eq!(flow::first_broken(&net, &estimate, &places), None, "seed {seed}");
    }
}
