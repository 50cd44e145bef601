//! Named inputs for timing: the smallest and the large net, hostile nets, long
//! reports, many sandboxes, and nets whose steps come back to the same state.

use super::rng::Rng;
use super::Kind;
use crate::listing::{letters, part, MAX_INPUT};
use crate::rows::*;

/// Texts, an arrival, and steps as threes of bytes (k, m, r).
pub struct Heavy {
    pub name: &'static str,
    pub net: Vec<u8>,
    pub estimate: Vec<u8>,
    pub arrival: Vec<u8>,
    pub choices: Vec<u8>,
}

/// A seed whose net of 32 sites and 256 lines is accepted, with 256 A rows
/// and every B and E row in its estimate.
const LARGE_SEED: u64 = 478;

/// Texts of mixed sets, timed in turn.
const TURNS: u64 = 16;

/// Net M and its estimate.
pub const NET: &str =
    "N,6\nR,s0,s0,i\nR,s0,s1,e\nR,s1,s0,o\nR,s1,s2,oir\nD,0,s0,o\nD,0,s2,r\nD,1,s2,or\n\
    T,s2,s3,s4\nT,s2,s3,s5\nL,s0,0\nL,s1,6\nQ,0,eval,1,s1,3,0\nQ,1,in,2,self,!u0\nQ,2,nil\n\
    Q,3,read,4,s2,s3,!u1\nQ,4,out,5,s0,u1\nQ,5,nil\nQ,6,accept,7,1\nQ,7,nil\n";
pub const ESTIMATE: &str = "B,u0,s4\nB,u0,s5\nB,u1,s4\nB,u1,s5\nA,s0,s4\nA,s0,s5\nA,s2,s3,s4\n\
    A,s2,s3,s5\nE,s1,s0,o\nE,s1,s2,r\n";

/// Binds u0 to u3, and asks for nothing: no tuple stands at s31.
const BINDER: &str = "read,1,s31,!u0,!u1,!u2,!u3";

impl Heavy {
    fn new(name: &'static str, net: String, estimate: String) -> Heavy {
        let (net, estimate) = (net.into_bytes(), estimate.into_bytes());
        Heavy { name, net, estimate, arrival: vec![], choices: vec![] }
    }

    fn with_arrival(self, arrival: String) -> Heavy {
        Heavy { arrival: arrival.into_bytes(), ..self }
    }

    fn with_choices(self, choices: &[[u8; 3]]) -> Heavy {
        Heavy { choices: choices.concat(), ..self }
    }

    /// The input as one for `lotcheck`, or, with an arrival or steps, as one
    /// for `lotrun`.
    pub fn input(&self) -> Vec<u8> {
        let mut text = [&self.net[..], b".\n", &self.estimate[..]].concat();
        if !self.arrival.is_empty() || !self.choices.is_empty() {
            text.extend_from_slice(b".\nbring\n");
            text.extend_from_slice(&self.arrival);
            text.extend_from_slice(b".\n");
        }
        for step in self.choices.chunks(3) {
            text.extend_from_slice(
                format!("step,{},{},{}\n", step[0], step[1], step[2]).as_bytes(),
            );
        }
        text
    }
}

fn numbered(lines: &[String]) -> String {
    lines.iter().enumerate().map(|(q, line)| format!("Q,{q},{line}\n")).collect()
}

/// The rows of `letter` for every pair of two counts.
fn pairs(firsts: usize, seconds: usize, row: impl Fn(usize, usize) -> String) -> String {
    (0..firsts).flat_map(|a| (0..seconds).map(move |b| (a, b))).map(|(a, b)| row(a, b)).collect()
}

fn binds(sizes: &[usize]) -> String {
    let row = |(u, &size): (usize, &usize)| -> String {
        (0..size).map(|s| format!("B,u{u},s{s}\n")).collect()
    };
    sizes.iter().enumerate().map(row).collect()
}

/// 256 rows, every choice of the first four sites for four places.
fn four_by_four(letter: char) -> String {
    let row =
        |a: usize, b: usize| format!("{letter},s{},s{},s{},s{},s7\n", a / 4, a % 4, b / 4, b % 4);
    pairs(16, 16, row)
}

/// A binder, then one line up to 242 times, then nil.
fn repeated(name: &'static str, line: impl Fn(usize) -> String, estimate: String) -> Heavy {
    let mut lines = vec![BINDER.to_string()];
    lines.extend((2..244).map(line));
    lines.push("nil".to_string());
    Heavy::new(name, format!("N,32\nL,s30,0\n{}", numbered(&lines)), estimate)
}

/// Sandbox 0 with every right everywhere, and E rows with every right.
fn open_sandbox() -> (String, String) {
    let towards: String = (0..SITES).map(|t| format!("D,0,s{t},oirea\n")).collect();
    let rights = pairs(SITES, SITES, |s, t| format!("E,s{s},s{t},oirea\n"));
    (towards + "D,0,self,oirea\n", rights)
}

/// Lines behind a binder, with sandbox 0 open and u0 to u3 full.
fn open_net(name: &'static str, lines: &[String]) -> Heavy {
    let (sandbox, rights) = open_sandbox();
    let net = format!("N,32\n{sandbox}L,s30,0\n{}", numbered(lines));
    Heavy::new(name, net, binds(&[SITES; 4]) + &rights)
}

fn evals() -> Heavy {
    let mut lines = vec![BINDER.to_string()];
    lines.extend((0..120).map(|i| format!("eval,{},u0,{},0", i + 2, i + 122)));
    lines.extend((0..121).map(|_| "nil".to_string()));
    open_net("120 evals over full variables", &lines)
}

fn nested_evals() -> Heavy {
    let mut lines = vec![BINDER.to_string()];
    for at in (1..255).step_by(2) {
        lines.push(format!("eval,{},u0,{},0", at + 1, at + 2));
        lines.push("nil".to_string());
    }
    lines.push("nil".to_string());
    open_net("127 nested evals", &lines)
}

fn accepts() -> Heavy {
    let mut lines: Vec<String> = (1..256).map(|next| format!("accept,{next},0")).collect();
    lines.push("nil".to_string());
    open_net("255 accepts", &lines)
}

fn wide_accepts() -> Heavy {
    let mut lines = vec![BINDER.to_string(), "eval,2,u0,3,0".to_string(), "nil".to_string()];
    lines.extend((4..256).map(|next| format!("accept,{next},0")));
    lines.push("nil".to_string());
    open_net("252 accepts at 32 sites", &lines)
}

/// 255 lines with one template at s0, where 256 A rows have four fields each.
fn readers(name: &'static str, template: &str, binds: String) -> Heavy {
    let mut lines: Vec<String> =
        (1..256).map(|next| format!("read,{next},s0,{template}")).collect();
    lines.push("nil".to_string());
    let rows = pairs(16, 16, |a, b| format!("A,s0,s{a},s{},s{b},s{}\n", a + 16, b + 16));
    Heavy::new(name, format!("N,32\nL,s30,0\n{}", numbered(&lines)), binds + &rows)
}

/// The same lines with wildcards, with binders, and with both.
fn reading() -> [Heavy; 3] {
    [
        readers("255 reads, four wildcards each", "_,_,_,_", String::new()),
        readers("255 reads, three wildcards and !u0", "_,_,_,!u0", binds(&[SITES])),
        readers("255 reads, four binders each", "!u0,!u1,!u2,!u3", binds(&[SITES; 4])),
    ]
}

/// T and A rows that differ only in their last fields.
fn alike() -> Heavy {
    let rows = |letter: char| pairs(16, 16, |a, b| format!("{letter},s0,s0,s0,s{a},s{b}\n"));
    Heavy::new("256 T and A rows alike", format!("N,32\n{}", rows('T')), rows('A'))
}

/// An E row for each pair of sites, all of which are reported, and nothing to
/// judge: `list` does little else than read and print.
fn reported(name: &'static str, rights: impl Fn(usize, usize) -> u8) -> Heavy {
    let rows = pairs(SITES, SITES, |s, t| format!("E,s{s},s{t},{}\n", letters(rights(s, t))));
    Heavy::new(name, "N,32\n".to_string(), rows)
}

fn all_rights() -> Heavy {
    reported("1,024 E rows, all rights", |_, _| ALL_RIGHTS)
}

/// Several texts whose sets are drawn by seed: on one text again and again a
/// processor predicts nearly every branch.
pub fn mixed_sets() -> Vec<Heavy> {
    let draw = |seed: u64| {
        let rng = &mut Rng::new(seed);
        let most = usize::from(ALL_RIGHTS);
        let sets: Vec<u8> = (0..SITES * SITES).map(|_| rng.between(1, most) as u8).collect();
        reported("1,024 E rows, mixed sets", |s, t| sets[SITES * s + t])
    };
    (1..=TURNS).map(draw).collect()
}

/// A D row of every sandbox towards every site and `self`, all with the same
/// rights, and nothing that names a sandbox.
fn sandbox_rows(name: &'static str, rights: &str) -> Heavy {
    let of_one = |k: usize| -> String {
        let towards: String = (0..SITES).map(|t| format!("D,{k},s{t},{rights}\n")).collect();
        format!("{towards}D,{k},self,{rights}\n")
    };
    let rows: String = (0..SANDBOXES).map(of_one).collect();
    Heavy::new(name, format!("N,32\n{rows}"), String::new())
}

/// The rows with all letters, and those without rights.
fn all_sandboxes() -> [Heavy; 2] {
    [
        sandbox_rows("1,056 D rows, all rights", "oirea"),
        sandbox_rows("1,056 D rows, no rights", "-"),
    ]
}

/// Every sandbox has all rights towards every site, and for `self` the row
/// given, or none; 84 evals over a full variable take them in turn. The body of
/// each reads where it is.
fn wide_evals(name: &'static str, own: &str) -> Heavy {
    let mut rows = pairs(SANDBOXES, SITES, |k, t| format!("D,{k},s{t},oirea\n"));
    if !own.is_empty() {
        rows += &(0..SANDBOXES).map(|k| format!("D,{k},self,{own}\n")).collect::<String>();
    }
    let mut lines = vec![BINDER.to_string()];
    for i in 0..84 {
        let at = 1 + 3 * i;
        lines.push(format!("eval,{},u0,{},{}", at + 3, at + 1, i % SANDBOXES));
        lines.extend([format!("read,{},self,self", at + 2), "nil".to_string()]);
    }
    lines.push("nil".to_string());
    let rights = pairs(SITES, SITES, |s, t| format!("E,s{s},s{t},oirea\n"));
    let net = format!("N,32\n{rows}L,s30,0\n{}", numbered(&lines));
    Heavy::new(name, net, binds(&[SITES; 4]) + &rights)
}

/// The same evals with no row for `self`, and with one without rights.
fn silent_sandboxes() -> [Heavy; 2] {
    [
        wide_evals("84 evals, 32 sandboxes without self row", ""),
        wide_evals("84 evals, 32 sandboxes with self row -", "-"),
    ]
}

/// A net of one row: what a call costs before there is anything to do.
pub fn smallest() -> Heavy {
    Heavy::new("N,1 alone", "N,1\n".to_string(), String::new())
}

/// The input of a listing seed.
fn seeded(name: &'static str, seed: u64) -> Heavy {
    let case = Kind::Listing.case(seed);
    let (net, estimate) = part(&case);
    Heavy { name, net: net.to_vec(), estimate: estimate.to_vec(), arrival: vec![], choices: vec![] }
}

/// The first input of 65,536 bytes that is read.
fn full() -> Heavy {
    let read = |heavy: &Heavy| {
        let (mut net, mut estimate) = (Net::empty(), Estimate::empty());
        crate::flow::read_both(&heavy.net, &heavy.estimate, &mut net, &mut estimate).is_ok()
    };
    let sized = |seed: &u64| Kind::Listing.case(*seed).len() == MAX_INPUT;
    let found = (1..).filter(sized).map(|seed| seeded("65,536 bytes", seed)).find(read);
    found.expect("some seed is such")
}

pub fn march() -> Heavy {
    Heavy::new("net M", NET.to_string(), ESTIMATE.to_string())
}

pub fn large() -> Heavy {
    seeded("large net", LARGE_SEED)
}

/// The inputs of check.
pub fn checks() -> Vec<Heavy> {
    let fields = "u0,u1,u2,u3,s7";
    let rows = four_by_four('A');
    let outs = |next: usize| format!("out,{next},{fields}");
    let ins = |next: usize| format!("in,{next},u0,u1,u2,!u3,!u4");
    let mut all = vec![
        march(),
        large(),
        full(),
        repeated("242 outs, 256 choices each", outs, binds(&[4; 4]) + &rows),
        repeated("242 outs, one reach empty", outs, binds(&[32, 32, 32, 0]) + &rows),
        repeated("242 ins over full variables", ins, binds(&[32; 5]) + &rows),
        evals(),
        nested_evals(),
        accepts(),
        wide_accepts(),
        alike(),
        all_rights(),
    ];
    all.extend(reading());
    all.push(smallest());
    all.extend(all_sandboxes());
    all.extend(silent_sandboxes());
    all
}

/// Every home policy has all 160 rights, and every share is a half: 34 of
/// 160 at s0, 38 at s1 and so on to 158. All R and E rows are there. The use
/// maps of two roots at each site, three accepts each, are within the E rows.
pub fn halves() -> Heavy {
    let home = pairs(SITES, SITES, |s, t| format!("R,s{s},s{t},oirea\n"));
    let sandbox: String = (0..SITES).map(|t| format!("D,0,s{t},r\n")).collect();
    let roots: String = (0..MAX_ROOTS).map(|i| format!("L,s{},{}\n", i % SITES, 4 * i)).collect();
    let accept_or_nil = |q: usize| match q % 4 {
        3 => "nil".to_string(),
        _ => format!("accept,{},0", q + 1),
    };
    let lines: Vec<String> = (0..MAX_LINES).map(accept_or_nil).collect();
    let rights = pairs(SITES, SITES, |s, t| {
        // The rights of a row: r alone, or up to all; the site's own row has a.
        let used = 34 + 4 * s;
        let more = (SITES + t - s) % SITES < used % SITES;
        let letters = ["r", "ra", "rea", "irea", "oirea"][used / SITES - 1 + usize::from(more)];
        format!("E,s{s},s{t},{letters}\n")
    });
    let net = format!("N,32\n{home}{sandbox}D,0,self,r\n{roots}{}", numbered(&lines));
    Heavy::new("32 shares, each a half", net, rights)
}

/// A net with a thread that waits at each place below 20, 100 tuples, and at
/// place 20 a thread `rep` over the lines given, which are numbered from 41
/// on. A child of it stands at place 21.
fn cycle(name: &'static str, lines: &[&str], choices: &[[u8; 3]]) -> Heavy {
    cycle_over(name, "", lines, choices)
}

/// The same, with `more` behind the three fields of each tuple.
fn cycle_over(name: &'static str, more: &str, lines: &[&str], choices: &[[u8; 3]]) -> Heavy {
    let mut net = "N,8\nR,s1,s0,r\nR,s1,s2,oire\nD,0,s0,r\n".to_string();
    net += &(0..100)
        .map(|i| format!("T,s0,s{},s{},s{}{more}\n", i / 25, i / 5 % 5, i % 5))
        .collect::<String>();
    net += &(0..20).map(|i| format!("L,s{},{}\n", i % 8, 2 * i)).collect::<String>();
    net += "L,s1,40\n";
    let mut all = Vec::new();
    for i in 0..20 {
        all.extend([format!("in,{},s0,!u0,!u1,s7", 2 * i + 1), "nil".to_string()]);
    }
    all.push("rep,41".to_string());
    all.extend(lines.iter().map(|line| line.to_string()));
    Heavy::new(name, net + &numbered(&all), String::new()).with_choices(choices)
}

/// Steps that come back to the state they began from.
pub fn cycles() -> Vec<Heavy> {
    let (rep, next) = ([20, 0, 0], [21, 0, 0]);
    let (last, some) = ([21, 100, 0], [21, 50, 0]);
    let out = "out,42,s2,s3,self";
    vec![
        cycle("rep, par", &["par,42,43", "nil", "nil"], &[rep, next]),
        cycle("rep, eval", &["eval,42,s2,43,0", "nil", "nil"], &[rep, next]),
        cycle("rep, read", &["read,42,s0,!u1,!u2,!u3", "nil"], &[rep, some]),
        cycle_over(
            "rep, read of four wildcards",
            ",s6",
            &["read,42,s0,_,_,_,_", "nil"],
            &[rep, some],
        ),
        cycle_over(
            "rep, read of four binders",
            ",s6",
            &["read,42,s0,!u1,!u2,!u3,!u4", "nil"],
            &[rep, some],
        ),
        cycle("rep, out, in", &[out, "in,43,s2,s3,!u2", "nil"], &[rep, next, last]),
        mixed(),
        cycle("rep, accept, read", &["accept,42,0", "nil"], &[rep, [21, 0, 43], some])
            .with_arrival("Q,0,read,1,s0,!u1,!u2,!u3\nQ,1,nil\n".to_string()),
    ]
}

/// Every line but accept.
pub fn mixed() -> Heavy {
    let lines = [
        "out,42,s2,s3,self",
        "read,43,s2,s3,!u2",
        "in,44,s2,!u3,u2",
        "eval,45,s2,46,0",
        "par,47,48",
        "nil",
        "nil",
        "nil",
    ];
    let (next, last) = ([21, 0, 0], [21, 100, 0]);
    let choices = [[20, 0, 0], next, last, [21, 100, 0], next, next];
    cycle("rep, out, read, in, eval, par", &lines, &choices)
}

/// Steps that are refused.
pub fn refusals() -> Vec<Heavy> {
    let at = |name, choice: [u8; 3]| mixed().renamed(name).with_choices(&[choice]);
    vec![at("refused 21", [63, 0, 0]), at("refused 23", [0, 50, 0])]
}

/// An arrival of `count` lines with a rule to be judged for each. The door
/// is closed to it for its last line alone, or open.
fn long_arrival(count: usize, passes: bool) -> String {
    let mut lines = vec![BINDER.to_string()];
    let outs = count - 5;
    lines.extend((2..outs + 2).map(|next| format!("out,{next},u0,u1,u2,u3,s7")));
    // Sandbox 0 has every right, sandbox 1 none.
    let sandbox = if passes { 0 } else { 1 };
    lines.push(format!("eval,{},s0,{},{sandbox}", outs + 2, outs + 3));
    lines.push("nil".to_string());
    lines.push(format!("read,{},s30,s0", outs + 4));
    lines.push("nil".to_string());
    numbered(&lines)
}

/// The estimate of a long arrival.
fn long_estimate() -> String {
    let rights: String = (0..SITES).map(|t| format!("E,s0,s{t},oirea\n")).collect();
    binds(&[4; 4]) + &four_by_four('A') + &rights
}

/// The lists are full, 63 threads stand on accept at 32 sites, and the door
/// stays closed to an arrival of 250 lines.
pub fn closed_doors() -> Heavy {
    let (sandbox, _) = open_sandbox();
    let tuples: String = (0..SITES).map(|s| format!("T,s0,s{s}\n")).collect();
    let net = format!(
        "N,32\n{sandbox}{tuples}L,s0,0\nQ,0,rep,1\nQ,1,read,2,s0,!u9\nQ,2,eval,3,u9,4,0\nQ,3,nil\n\
         Q,4,accept,5,0\nQ,5,nil\n"
    );
    let mut choices = Vec::new();
    for i in 0..63 {
        choices.extend([[0, 0, 0], [i + 1, i % 32, 0], [i + 1, 0, 0]]);
    }
    let heavy = Heavy::new("63 accepts, 250 lines, door closed", net, long_estimate());
    heavy.with_arrival(long_arrival(250, false)).with_choices(&choices)
}

/// 63 threads wait on one template, and each of 256 tuples agrees with it in
/// all fields but the last.
fn waits(name: &'static str, template: &str) -> Heavy {
    let tuples = pairs(16, 16, |a, b| format!("T,s0,s{a},s{b},s{},s30\n", (a + b) % 32));
    let roots: String = (0..63).map(|i| format!("L,s{},{}\n", i % SITES, 2 * i)).collect();
    let wait_or_nil = |q: usize| match q % 2 {
        0 => format!("in,{},s0,{template}", q + 1),
        _ => "nil".to_string(),
    };
    let lines: Vec<String> = (0..126).map(wait_or_nil).collect();
    let net = format!("N,32\n{tuples}{roots}{}", numbered(&lines));
    // The step before the question is refused.
    Heavy::new(name, net, String::new()).with_choices(&[[0, 255, 0]])
}

pub fn waiting() -> [Heavy; 2] {
    [
        waits("63 waits, wildcards, 256 tuples", "_,_,_,s31"),
        waits("63 waits, binders, 256 tuples", "!u0,!u1,!u2,s31"),
    ]
}

/// A thread on accept, and an arrival of 254 lines that it is asked to take.
pub fn arrived(passes: bool) -> Heavy {
    let (sandbox, _) = open_sandbox();
    let net = format!("N,32\n{sandbox}L,s0,0\nQ,0,accept,1,0\nQ,1,nil\n");
    let name = if passes { "254 lines, door open" } else { "accept, 254 lines, door closed" };
    let heavy = Heavy::new(name, net, long_estimate());
    heavy.with_arrival(long_arrival(254, passes)).with_choices(&[[0, 0, 2]])
}

/// A thread `rep` and 63 on accept, which makes 64, and an arrival that stays;
/// it is taken in at the end, or not.
fn full_threads(name: &'static str, taken_in: bool) -> Heavy {
    let net = "N,1\nL,s0,0\nQ,0,rep,1\nQ,1,accept,2,0\nQ,2,nil\n".to_string();
    let mut choices = vec![[0, 0, 0]; 63];
    if taken_in {
        choices.push([63, 0, 3]);
    }
    let arrival = "Q,0,rep,1\nQ,1,nil\n".to_string();
    Heavy::new(name, net, String::new()).with_arrival(arrival).with_choices(&choices)
}

/// States whose newest arrival is withdrawn; from the last one it is refused.
pub fn withdrawals() -> [Heavy; 4] {
    let read = "Q,0,read,1,s0,!u1,!u2,!u3\nQ,1,nil\n".to_string();
    [
        cycle("2 lines, 21 threads elsewhere", &["accept,42,0", "nil"], &[]).with_arrival(read),
        arrived(false).renamed("254 lines, one thread elsewhere").with_choices(&[]),
        full_threads("64 threads, none on the arrival", false),
        full_threads("64 threads, the last on the arrival", true),
    ]
}

/// Every named input; of those timed in turn, the first.
pub fn all() -> Vec<Heavy> {
    let mut all = checks();
    all.extend(mixed_sets().into_iter().take(1));
    all.push(halves());
    all.extend(cycles());
    all.push(closed_doors());
    all.extend(waiting());
    all.extend([arrived(false), arrived(true)]);
    all.extend(withdrawals());
    all
}

impl Heavy {
    fn renamed(self, name: &'static str) -> Heavy {
        Heavy { name, ..self }
    }
}

#[cfg(test)]
mod tests {
    use super::super::letters::{by_number, printed};
    use super::super::shares::is_half;
    use super::*;
    use crate::engine::State;
    use crate::flow::{check, Answer, Broken};
    use crate::listing;

    #[test]
    fn heavy_nets_are_accepted() {
        for heavy in checks().iter().filter(|heavy| heavy.name != "65,536 bytes") {
            let answer = check(&heavy.net, &heavy.estimate, &mut [0; 1024]);
            assert_eq!(answer, Answer::Accepted, "{}", heavy.name);
        }
        let (mut net, mut estimate) = (Net::empty(), Estimate::empty());
        let heavy = large();
        crate::flow::read_both(&heavy.net, &heavy.estimate, &mut net, &mut estimate).unwrap();
        assert_eq!((net.sites, net.lines.len(), estimate.tuples.len()), (32, 256, 256));
        assert!(estimate.binds.iter().all(|&mask| mask == Mask::MAX));
        assert!(estimate.rights.iter().flatten().all(|&rights| rights != 0));
    }

    #[test]
    fn e_rows_are_printed() {
        assert_eq!(printed(&all_rights().input()), vec!["oirea"; SITES * SITES]);
        for heavy in mixed_sets() {
            let printed = printed(&heavy.input());
            assert_eq!(printed.len(), SITES * SITES);
            assert!(by_number()[1..].iter().all(|letters| printed.contains(letters)));
        }
    }

    #[test]
    fn shares_are_halves() {
        let heavy = halves();
        let listing = String::from_utf8(listing::list(&heavy.input())).unwrap();
        let mut rows = listing.lines();
        assert_eq!(rows.next(), Some("accepted,0"));
        for (site, row) in rows.enumerate() {
            let (held, used) = (160, 34 + 4 * site as u32);
            assert!(row.starts_with(&format!("U,s{site},{held},{used},")), "{row}");
            assert!(is_half(held, used), "{row}");
        }
        assert_eq!(listing.lines().count(), 1 + SITES);
        let count = |text: &[u8], letter: u8| {
            text.split(|&b| b == b'\n').filter(|row| row.first() == Some(&letter)).count()
        };
        assert_eq!((count(&heavy.net, b'R'), count(&heavy.estimate, b'E')), (1024, 1024));
    }

    fn begun(heavy: &Heavy) -> State {
        let mut state = State::start(&heavy.net, &heavy.estimate).unwrap();
        if !heavy.arrival.is_empty() {
            state.bring(&heavy.arrival).unwrap();
        }
        state
    }

    #[test]
    fn cycles_come_back() {
        for heavy in cycles() {
            let first = begun(&heavy);
            let mut state = first.clone();
            for step in heavy.choices.chunks(3) {
                let [k, m, r] = [step[0], step[1], step[2]].map(usize::from);
                state.guarded_step(k, m, r).or_else(|_| state.step(k, m, r)).unwrap();
            }
            assert_eq!(state, first, "{}", heavy.name);
        }
    }

    /// The last field of a tuple made another, the first thread is ready.
    #[test]
    fn waiting_threads_fail_at_the_last_field() {
        for heavy in waiting() {
            let state = begun(&heavy);
            assert_eq!((state.threads.len(), state.tuples.len()), (63, 256));
            assert_eq!(state.ready(), None);
            let text = String::from_utf8(heavy.net).unwrap();
            for row in text.lines().filter(|row| row.starts_with("T,")) {
                let last = row.replace(",s30", ",s31");
                let other = text.replace(&format!("{row}\n"), &format!("{last}\n"));
                assert_eq!(State::start(other.as_bytes(), b"").unwrap().ready(), Some(0), "{row}");
            }
        }
    }

    /// Each A row is taken by each template: with u0 to u3 unbound somewhere, a
    /// binder breaks the rule and a wildcard does not.
    #[test]
    fn readers_take_every_row() {
        let estimate = |heavy: &Heavy| String::from_utf8(heavy.estimate.clone()).unwrap();
        let check = |net: &[u8], estimate: &str| check(net, estimate.as_bytes(), &mut [0; 1024]);
        let [wildcards, both, binders] = reading();
        assert_eq!(estimate(&wildcards).lines().count(), 256);
        assert!(!estimate(&wildcards).contains('B'));
        for (heavy, row) in
            [(&both, "B,u0,s31\n"), (&binders, "B,u0,s15\n"), (&binders, "B,u3,s31\n")]
        {
            let less = estimate(heavy).replace(row, "");
            assert_eq!(check(&heavy.net, &less), Answer::Broken(Broken::Line(0)), "{row}");
            assert_eq!(check(&wildcards.net, &less), Answer::Accepted, "{row}");
        }
    }

    /// Every place of the table has a row; the bodies are sure of what they do
    /// unless the row for `self` has no rights.
    #[test]
    fn sandboxes_are_as_named() {
        let count = |heavy: &Heavy| {
            heavy.net.split(|&b| b == b'\n').filter(|row| row.first() == Some(&b'D')).count()
        };
        let [letters, none] = all_sandboxes();
        assert_eq!([count(&letters), count(&none)], [1056; 2]);
        let [silent, closed] = silent_sandboxes();
        assert_eq!([count(&silent), count(&closed)], [1024, 1056]);
        let home = pairs(SITES, SITES, |s, t| format!("R,s{s},s{t},oirea\n"));
        let at_home = |heavy: &Heavy| {
            let net = String::from_utf8(heavy.net.clone()).unwrap();
            let net = net.replace("N,32\n", &format!("N,32\n{home}")).into_bytes();
            printed(&[&net[..], b".\n", &heavy.estimate[..]].concat())
        };
        assert!(at_home(&silent).is_empty());
        assert_eq!(at_home(&closed), vec!["r"; SITES * SITES]);
        assert_eq!(smallest().input(), b"N,1\n.\n");
    }

    /// Each step performed.
    fn stepped(heavy: &Heavy) -> State {
        let mut state = begun(heavy);
        for step in heavy.choices.chunks(3) {
            let [k, m, r] = [step[0], step[1], step[2]].map(usize::from);
            state.step(k, m, r).unwrap();
        }
        state
    }

    #[test]
    fn withdrawals_are_as_named() {
        let expected = [(21, 45, Ok(43)), (1, 256, Ok(2)), (64, 5, Ok(3)), (64, 5, Err(36))];
        for (heavy, (threads, lines, answer)) in withdrawals().iter().zip(expected) {
            let mut state = stepped(heavy);
            let root = state.arrivals[0].root;
            let on_arrival = |k: &usize| state.threads[*k].line >= root;
            let places: Vec<usize> = (0..state.threads.len()).filter(on_arrival).collect();
            assert_eq!(places, if answer.is_ok() { vec![] } else { vec![63] }, "{}", heavy.name);
            assert_eq!((state.threads.len(), state.net.lines.len()), (threads, lines));
            assert_eq!(state.withdraw().map_err(|refusal| refusal.number), answer);
        }
    }

    #[test]
    fn names_are_different() {
        let mut names: Vec<&str> = all().iter().map(|heavy| heavy.name).collect();
        names.sort_unstable();
        let count = names.len();
        names.dedup();
        assert_eq!(names.len(), count);
    }

    #[test]
    fn doors_stay_closed() {
        let state = stepped(&closed_doors());
        assert_eq!(state.threads.len(), 64);
        assert_eq!(state.ready(), None);
        assert!((0..32).all(|l| state.door(6, l, 0) == Ok(false)));
        for passes in [false, true] {
            assert_eq!(begun(&arrived(passes)).door(2, 0, 0), Ok(passes));
        }
    }
}
