//! What cases cover of the rows of sandboxes (document 02, No. 3): rows without
//! rights, and what sandboxes have for `self`, with a row for it or without.

use super::cover::word;
use crate::engine::{Done, State, Thread, DOOR_CLOSED};
use crate::flow::*;
use crate::listing::usage;
use crate::rows::*;
use crate::script::{obey, Command};

/// What a sandbox has for `self`: no row, a row with rights, or one without. A
/// thing matters if it comes out differently with another row: no rights for the
/// first, as all had it before the request, and no row for the others.
#[derive(Clone, Copy, PartialEq)]
enum Own {
    Silent,
    Letters,
    Empty,
}

const OWNS: [Own; 3] = [Own::Silent, Own::Letters, Own::Empty];

impl Own {
    fn of(sandbox: &Sandbox) -> Own {
        match sandbox.own {
            None => Own::Silent,
            Some(NO_RIGHTS) => Own::Empty,
            Some(_) => Own::Letters,
        }
    }

    fn name(self) -> &'static str {
        match self {
            Own::Silent => "no self row",
            Own::Letters => "self row",
            Own::Empty => "self -",
        }
    }

    /// The net in which all sandboxes of this kind have the other row; none if
    /// no sandbox is another policy then.
    fn other(self, net: &Net) -> Option<Net> {
        let mut other = net.clone();
        let mut differs = false;
        for sandbox in other.sandboxes.iter_mut().filter(|sandbox| Own::of(sandbox) == self) {
            let before = *sandbox;
            sandbox.own = if self == Own::Silent { Some(NO_RIGHTS) } else { None };
            differs |= members(Mask::MAX).any(|l| before.at(l) != sandbox.at(l));
        }
        differs.then_some(other)
    }
}

/// The fields of a D row.
struct Fields<'a> {
    pair: [&'a [u8]; 2],
    rights: &'a [u8],
}

fn sandbox_fields(row: &[u8]) -> Option<Fields<'_>> {
    let fields: Vec<&[u8]> = row.split(|&b| b == b',').collect();
    match fields[..] {
        [b"D", k, t, rights] => Some(Fields { pair: [k, t], rights }),
        _ => None,
    }
}

impl Fields<'_> {
    fn is_empty_set(&self) -> bool {
        self.rights == b"-"
    }

    fn towards(&self) -> &'static str {
        if self.pair[1] == b"self" {
            "self"
        } else {
            "a site"
        }
    }

    /// The sandbox and the site, of a row that was read.
    fn numbers(&self) -> Option<(usize, Site)> {
        let number = |bytes: &[u8]| std::str::from_utf8(bytes).ok()?.parse::<u8>().ok();
        let site = self.pair[1].strip_prefix(b"s").and_then(number)?;
        Some((usize::from(number(self.pair[0])?), Site(site)))
    }
}

/// A row that is refused, by its number; `above` are the rows before it.
pub fn refused(part: &str, above: &[&[u8]], row: &[u8], number: u8) -> Vec<String> {
    let what = match number {
        BAD_FORM => misspelt(row),
        OVER_LIMIT | NO_SITE => beside(row),
        OUT_OF_ORDER => repeated(above, row),
        _ => None,
    };
    what.map(|what| format!("{part} refused {number}, {what}")).into_iter().collect()
}

/// Rights that alone make a row malformed.
fn misspelt(row: &[u8]) -> Option<String> {
    let end = row.iter().rposition(|&b| b == b',')? + 1;
    parse_row(&[&row[..end], b"o"].concat())?;
    let towards = sandbox_fields(row).map(|fields| fields.towards());
    match (row.first(), towards, &row[end..]) {
        (Some(letter @ (b'R' | b'E')), _, b"-") => Some(format!("- in {}", char::from(*letter))),
        (_, Some(t), b"") => Some(format!("no rights towards {t}")),
        (_, Some(t), b"--") => Some(format!("-- towards {t}")),
        (_, Some(t), [b'-', rest @ ..]) if letters_alone(rest) => {
            Some(format!("- before letters, towards {t}"))
        }
        (_, Some(t), [rest @ .., b'-']) if letters_alone(rest) => {
            Some(format!("- behind letters, towards {t}"))
        }
        _ => None,
    }
}

fn letters_alone(bytes: &[u8]) -> bool {
    !bytes.is_empty() && bytes.iter().all(|byte| LETTERS.contains(byte))
}

/// A number beside `-` that is over its limit, or a site that is not there.
fn beside(row: &[u8]) -> Option<String> {
    let fields = sandbox_fields(row).filter(Fields::is_empty_set)?;
    let (_, over) = parse_row(&[b"D,", fields.pair[0], b",self,-"].concat())?;
    if over {
        return Some(format!("sandbox of - towards {}", fields.towards()));
    }
    Some("site of -".to_string())
}

/// Rows of one pair, or a row in the wrong place.
fn repeated(above: &[&[u8]], row: &[u8]) -> Option<String> {
    let fields = sandbox_fields(row)?;
    let kind = |fields: &Fields| if fields.is_empty_set() { "-" } else { "letters" };
    let mut before = above.iter().filter_map(|row| sandbox_fields(row));
    let Some(first) = before.find(|other| other.pair == fields.pair) else {
        return fields.is_empty_set().then(|| "- out of place".to_string());
    };
    let pair = (kind(&first), kind(&fields));
    (pair != ("letters", "letters"))
        .then(|| format!("{} behind {}, towards {}", pair.1, pair.0, fields.towards()))
}

/// The sandboxes that lines name, and where they are evaluated.
fn evaluated(net: &Net, estimate: &Estimate, places: &Places) -> Vec<(usize, Mask)> {
    let place = |(line, &place): (&Line, &Mask)| match *line {
        Line::Eval { target, sandbox, .. } => {
            Some((usize::from(sandbox), reach(target, place, estimate)))
        }
        Line::Accept { sandbox, .. } => Some((usize::from(sandbox), place)),
        _ => None,
    };
    net.lines.iter().zip(places).filter_map(place).collect()
}

/// The D rows of a net that was read, and the sandboxes that its lines name.
pub fn taken(text: &[u8], net: &Net, estimate: &Estimate) -> Vec<String> {
    let mut seen = Vec::new();
    let evaluated = evaluated(net, estimate, &net_places(net, estimate));
    let mut count = 0;
    for fields in text.split(|&b| b == b'\n').filter_map(sandbox_fields) {
        count += usize::from(fields.towards() == "a site");
        if !fields.is_empty_set() {
            continue;
        }
        seen.push(format!("- towards {}", fields.towards()));
        let Some((k, t)) = fields.numbers() else { continue };
        if evaluated.iter().any(|&(sandbox, sites)| sandbox == k && sites & t.bit() != 0) {
            let own = Own::of(&net.sandboxes[k]).name();
            seen.push(format!("{own}: - towards a site where it is evaluated"));
        }
    }
    for &(k, sites) in &evaluated {
        let own = Own::of(&net.sandboxes[k]).name();
        seen.push(format!("{own}: evaluated at {}", how_many(sites)));
        if net.sandboxes[k] == Sandbox::SILENT {
            seen.push("no rights at all: evaluated".to_string());
        }
    }
    if count == SANDBOXES * usize::from(net.sites) {
        seen.push("a row towards a site for each pair".to_string());
    }
    seen
}

fn how_many(sites: Mask) -> &'static str {
    match sites.count_ones() {
        0 => "no site",
        1 => "one site",
        _ => "several sites",
    }
}

/// What the check says where it matters what sandboxes have for `self`.
pub fn checked(net: &Net, estimate: &Estimate) -> Vec<String> {
    let places = net_places(net, estimate);
    let mut seen = Vec::new();
    for own in OWNS {
        let Some(other) = own.other(net) else { continue };
        let broken = [net, &other].map(|net| first_broken(net, estimate, &places));
        let name = own.name();
        match broken {
            [Some(_), None] => seen.push(format!("{name}: broken, accepted otherwise")),
            [None, Some(_)] => seen.push(format!("{name}: accepted, broken otherwise")),
            [None, None] => {
                let parts = reported([net, &other], estimate, &places);
                seen.extend(parts.into_iter().map(|what| format!("{name}: {what}")));
            }
            [first, second] if first != second => seen.push(format!("{name}: broken elsewhere")),
            _ => {}
        }
    }
    seen
}

/// Which rows are others in the listings of two accepted nets, and by what.
fn reported(nets: [&Net; 2], estimate: &Estimate, places: &Places) -> Vec<String> {
    let [net, other] = nets;
    let reports = nets.map(|net| report(net, estimate, places));
    let differs = |site: Site| {
        let rows = reports.map(|report| report[site.index() * SITES..][..SITES].to_vec());
        rows[0] != rows[1]
    };
    let mut seen = Vec::new();
    for root in net.roots.iter().filter(|root| differs(root.site)) {
        let [uses, others] = nets.map(|net| use_map(net, estimate, root.line, root.site.bit()));
        if uses != others {
            seen.push("other V rows, by an accept of a root".to_string());
        }
    }
    for (line, &place) in net.lines.iter().zip(places) {
        let Line::Eval { body, .. } = *line else { continue };
        let (sites, part) = eval_part(line, place, net, estimate);
        if part == eval_part(line, place, other, estimate).1 || !members(sites).any(differs) {
            continue;
        }
        let [uses, others] = nets.map(|net| use_map(net, estimate, body, sites));
        let by = if uses == others { "an eval" } else { "an accept of a body" };
        seen.push(format!("other V rows, by {by} at {}", how_many(sites)));
    }
    if members(below(net.sites)).any(|s| usage(net, estimate, s) != usage(other, estimate, s)) {
        seen.push("other U rows".to_string());
    }
    seen
}

/// Under which sandbox a thread runs, and where it was evaluated; none for the
/// home policy.
#[derive(Clone, Copy)]
struct Birth {
    sandbox: usize,
    site: Site,
    /// Whether it was sent by an eval whose target may be several sites.
    several: bool,
}

/// A script followed in states that have the other rows, each beside the state
/// itself. Lines and arrivals go along with it; threads and tuples are taken
/// over from it before a question is asked.
pub struct Others {
    states: Vec<(Own, State)>,
    births: Vec<Option<Birth>>,
}

impl Others {
    pub fn of(state: &State) -> Others {
        let other = |own: Own| Some((own, State { net: own.other(&state.net)?, ..state.clone() }));
        Others {
            states: OWNS.into_iter().filter_map(other).collect(),
            births: vec![None; state.threads.len()],
        }
    }

    /// All that one command adds.
    pub fn follow(
        &mut self,
        before: &State,
        after: &State,
        command: &Command,
        call: (&str, Option<[usize; 3]>),
        answer: &[&str],
    ) -> Vec<String> {
        for (_, state) in &mut self.states {
            state.threads = before.threads.clone();
            state.tuples = before.tuples.clone();
        }
        match (command, call) {
            (Command::Bring(_) | Command::Row(b"withdraw"), _) => {
                self.states.iter_mut().for_each(|(_, state)| drop(obey(state, command)));
                vec![]
            }
            (Command::Row(b"ready"), _) => self.ready(before),
            (_, ("door", Some(numbers))) => self.door(before, numbers),
            (_, (name @ ("step" | "guarded"), Some(choice))) => {
                let mut seen = self.accept(before, choice, answer);
                if name == "guarded" {
                    seen.extend(self.guarded(before, choice, answer));
                }
                if answer[0] != "refused" {
                    self.perform(before, after, choice);
                }
                seen
            }
            _ => vec![],
        }
    }

    fn ready(&self, before: &State) -> Vec<String> {
        let mut seen = Vec::new();
        let place = |state: &State| state.ready().unwrap_or(state.threads.len());
        for (own, state) in &self.states {
            let (here, there) = (place(before), place(state));
            if here < there {
                seen.push(format!("{}: ready, later or none otherwise", own.name()));
            }
            if here > there {
                seen.push(format!("{}: not ready, earlier otherwise", own.name()));
            }
        }
        seen
    }

    fn door(&self, before: &State, [r, l, d]: [usize; 3]) -> Vec<String> {
        let mut seen = Vec::new();
        for (own, state) in &self.states {
            let answers = [before, state].map(|state| state.door(r, l, d));
            let what = match answers {
                [Ok(true), Ok(false)] => "passes, closed otherwise",
                [Ok(false), Ok(true)] => "closed, passes otherwise",
                _ => continue,
            };
            let reasons = reasons([before, state], r, Site(l as u8), d).into_iter();
            seen.extend(reasons.map(|by| format!("{}: door {what}, for {by}", own.name())));
        }
        seen
    }

    fn accept(&self, before: &State, [k, m, r]: [usize; 3], answer: &[&str]) -> Vec<String> {
        let Some(thread) = before.threads.get(k) else { return vec![] };
        let Line::Accept { .. } = line_of(before, thread) else { return vec![] };
        let mut seen = Vec::new();
        for (own, state) in &self.states {
            let closed = state.judge(false, k, m, r) == Err(DOOR_CLOSED);
            let what = match answer {
                ["performed", ..] if closed => "performed, 25 otherwise",
                ["refused", "25", _] if !closed => "refused 25, not otherwise",
                _ => continue,
            };
            seen.push(format!("{}: accept {what}", own.name()));
        }
        seen
    }

    /// A guarded step that the home policy allows, and that the thread's policy
    /// allows or not for what its sandbox has for `self`.
    fn guarded(&self, before: &State, [k, m, r]: [usize; 3], answer: &[&str]) -> Vec<String> {
        let Ok(Done::Acted { site, target, right }) = before.judge(false, k, m, r) else {
            return vec![];
        };
        let Some(birth) = self.births[k] else { return vec![] };
        if before.net.home[site.index()][target.index()] & right == NO_RIGHTS {
            return vec![];
        }
        let thread = &before.threads[k];
        let mut seen = Vec::new();
        for (own, state) in &self.states {
            let other = state.net.sandboxes[birth.sandbox].at(birth.site);
            let held = [thread.policy, other].map(|policy| policy[target.index()] & right != 0);
            let what = match (answer, held) {
                (["performed", ..], [true, false]) => "performed, 26 otherwise",
                (["refused", "26", _], [false, true]) => "refused 26, not otherwise",
                _ => continue,
            };
            let line = word(&line_of(before, thread));
            seen.push(format!("{}: guarded {line} {what}", own.name()));
            if birth.several {
                seen.push(format!("{}: guarded {what}, at one of several sites", own.name()));
            }
        }
        seen
    }

    /// Follows the list of threads through a step that was performed.
    fn perform(&mut self, before: &State, after: &State, [k, ..]: [usize; 3]) {
        let thread = &before.threads[k];
        let line = line_of(before, thread);
        let born = match line {
            Line::Par { .. } | Line::Rep { .. } => self.births[k],
            Line::Eval { target, sandbox, .. } => {
                let several = match target {
                    Term::Var(u) => before.estimate.binds[u.index()].count_ones() > 1,
                    _ => false,
                };
                let site = after.threads.last().map_or(thread.site, |last| last.site);
                Some(Birth { sandbox: usize::from(sandbox), site, several })
            }
            Line::Accept { sandbox, .. } => {
                Some(Birth { sandbox: usize::from(sandbox), site: thread.site, several: false })
            }
            _ => None,
        };
        let is_nil = |line: Option<u8>| {
            line.is_some_and(|line| matches!(before.net.lines[usize::from(line)], Line::Nil))
        };
        if !matches!(line, Line::Rep { .. }) && is_nil(line.children()[0]) {
            self.births.remove(k);
        }
        if self.births.len() < after.threads.len() {
            self.births.push(born);
        }
    }
}

fn line_of(state: &State, thread: &Thread) -> Line {
    state.net.lines[usize::from(thread.line)]
}

/// For what the door answers differently in two states: what the arrival uses
/// itself, or a body that it sends.
fn reasons(states: [&State; 2], r: usize, l: Site, d: usize) -> Vec<String> {
    let within_sandbox = |state: &State| {
        let uses = use_map(&state.net, &state.estimate, r as u8, l.bit());
        within(&uses, &state.net.sandboxes[d].at(l))
    };
    let mut seen = Vec::new();
    if within_sandbox(states[0]) != within_sandbox(states[1]) {
        seen.push("its own rights".to_string());
    }
    let estimate = &states[0].estimate;
    let (lines, rows) = (&states[0].net.lines, RowSets::of(estimate));
    let mut places: Places = [0; MAX_LINES];
    places[r] = l.bit();
    spread_places(lines, r, estimate, &mut places);
    let next = states[0].arrivals.iter().map(|arrival| usize::from(arrival.root)).find(|&q| q > r);
    for q in r..next.unwrap_or(lines.len()) {
        let judged = states.map(|state| {
            let holds = line_rule(&lines[q], places[q], &state.net, estimate, &rows);
            holds && eval_part(&lines[q], places[q], &state.net, estimate).1 == EMPTY_POLICY
        });
        if let (Line::Eval { target, .. }, true) = (lines[q], judged[0] != judged[1]) {
            seen.push(format!("a body at {}", how_many(reach(target, places[q], estimate))));
        }
    }
    seen
}
