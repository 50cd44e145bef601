//! What the stored cases must have.

use super::cover::NAMED_SHARES;
use super::letters;
use super::seasons::SPELLINGS;
use super::Kind;
use crate::listing::MAX_INPUT;
use crate::rows::*;

/// A thing to be seen, how often at least, in how many cases, and at how many
/// different rows.
pub struct Wanted {
    pub name: String,
    pub least: usize,
    pub cases: usize,
    pub rows: usize,
}

const OFTEN: usize = 5;
const SOME: usize = 2;
const MANY_ROWS: usize = 10;

fn often(name: impl Into<String>) -> Wanted {
    Wanted { name: name.into(), least: OFTEN, cases: OFTEN, rows: 0 }
}

fn some(name: impl Into<String>) -> Wanted {
    Wanted { name: name.into(), least: SOME, cases: 1, rows: 0 }
}

fn once(name: impl Into<String>) -> Wanted {
    Wanted { name: name.into(), least: 1, cases: 1, rows: 0 }
}

fn at_many_rows(name: String) -> Wanted {
    Wanted { name, least: OFTEN, cases: OFTEN, rows: MANY_ROWS }
}

pub fn required(kind: Kind) -> Vec<Wanted> {
    let mut all = Vec::new();
    match kind {
        Kind::Listing => {
            all.extend(refusals());
            all.extend(VERDICTS.map(often));
            all.extend(LIMITS.map(some));
            all.extend(SHARES.map(often));
            all.extend(NAMED_SHARES.map(|(held, used)| some(format!("share: {used} of {held}"))));
            all.extend(printed());
            for line in ["out", "in", "read", "eval"] {
                all.push(often(format!("broken: Q {line} towards several sites")));
                all.push(often(format!("accepted: Q {line} towards several sites")));
            }
            all.extend(
                (MAX_INPUT - 1..=MAX_INPUT + 1).map(|n| some(format!("input of {n} bytes"))),
            );
            all.extend(wildcards_read().into_iter().map(wildcard));
            all.extend(wildcards_refused("net").into_iter().map(wildcard));
            all.extend(WILDCARD_LISTINGS.map(wildcard));
            all.extend(sandbox_rows().into_iter().map(sandbox));
            all.extend(sandboxes_checked().into_iter().map(sandbox));
            all.push(some("sandbox: a row towards a site for each pair"));
        }
        Kind::Script => {
            all.extend((BAD_FORM..=FREE_VARIABLE).map(|n| often(format!("bring: refused {n}"))));
            all.extend(COMMANDS.map(often));
            all.extend(["bring: of the greatest length", "bring: too long"].map(once));
            all.extend(["step", "guarded"].into_iter().flat_map(steps));
            let lines = ["out", "in", "read", "eval", "accept"];
            all.extend(lines.map(|line| often(format!("guarded {line}: refused 26"))));
            let read = wildcards_read().into_iter();
            all.extend(read.map(|what| wildcard(format!("{what}, performed"))));
            all.extend(wildcards_refused("bring").into_iter().map(wildcard));
            all.extend(WILDCARD_SCRIPTS.map(wildcard));
            all.extend(withdrawals());
            all.extend(sandboxes_run().into_iter().map(sandbox));
        }
    }
    all
}

fn wildcard(name: impl Into<String>) -> Wanted {
    often(format!("wildcard: {}", name.into()))
}

/// Templates with wildcards: at each place, as many, beside what.
fn wildcards_read() -> Vec<String> {
    let mut all = Vec::new();
    for count in 1..=MAX_FIELDS {
        all.extend(["in", "read"].map(|line| format!("field {count} of {line}")));
        all.push(format!("{count} in one template"));
        all.push(format!("nothing else in {count} fields"));
    }
    all.extend(["!u", "a site", "self", "a variable"].map(|what| format!("beside {what}")));
    all
}

/// Wildcards where none may stand, what is none, and what is refused beside
/// them.
fn wildcards_refused(part: &str) -> Vec<String> {
    let refused_1 = |what: String| format!("{part} refused 1, {what}");
    let mut all = vec![refused_1("_ in out".to_string()), refused_1("five fields".to_string())];
    for line in ["out", "in", "read", "eval"] {
        all.push(refused_1(format!("_ as the target of {line}")));
    }
    for line in ["in", "read"] {
        all.extend(["__", "!_"].map(|word| refused_1(format!("{word} in {line}"))));
    }
    all.extend(
        [OVER_LIMIT, NO_SITE, BAD_TEMPLATE].map(|n| format!("{part} refused {n}, beside _")),
    );
    all
}

const WILDCARD_LISTINGS: [&str; 18] = [
    "net refused 1, _ in N",
    "net refused 1, _ in R",
    "net refused 1, _ in D",
    "net refused 1, _ in T",
    "net refused 1, _ in L",
    "net refused 1, _ as a number of Q",
    "estimate refused 1, _ in B",
    "estimate refused 1, _ in A",
    "estimate refused 1, _ in E",
    "net refused 8, for want of a binder",
    "broken in, beside !u",
    "broken read, beside !u",
    "broken in, holds with self there",
    "broken read, holds with self there",
    "accepted in, a spare variable breaks it",
    "accepted read, a spare variable breaks it",
    "accepted in, rows of another length break it",
    "accepted read, rows of another length break it",
];

const WILDCARD_SCRIPTS: [&str; 24] = [
    "step in performed",
    "step read performed",
    "guarded in performed",
    "guarded read performed",
    "in refused 23, elsewhere",
    "read refused 23, elsewhere",
    "in refused 23, another number of fields",
    "read refused 23, another number of fields",
    "in refused 23, a field disagrees",
    "read refused 23, a field disagrees",
    "in refused 26",
    "read refused 26",
    "!u there would replace a binding, performed",
    "another line has !u there, performed",
    "brought in in",
    "brought in read",
    "door passes",
    "door closed",
    "door passes, a spare variable closes it",
    "door closed, for a template with _",
    "accept performed",
    "accept refused 25",
    "ready finds it",
    "ready passes over it",
];

fn sandbox(name: impl Into<String>) -> Wanted {
    often(format!("sandbox: {}", name.into()))
}

/// What a sandbox has for `self`.
const OWNS: [&str; 3] = ["no self row", "self row", "self -"];

/// Rows without rights, read and refused.
fn sandbox_rows() -> Vec<String> {
    let mut all = Vec::new();
    for t in ["a site", "self"] {
        all.push(format!("- towards {t}"));
        all.push(format!("net refused 1, no rights towards {t}"));
        all.push(format!("net refused 1, -- towards {t}"));
        all.push(format!("net refused 1, - before letters, towards {t}"));
        all.push(format!("net refused 1, - behind letters, towards {t}"));
        all.push(format!("net refused 2, sandbox of - towards {t}"));
        let pairs = ["- behind -", "- behind letters", "letters behind -"];
        all.extend(pairs.map(|pair| format!("net refused 3, {pair}, towards {t}")));
    }
    let others = [
        "net refused 1, - in R",
        "estimate refused 1, - in E",
        "net refused 2, site of -",
        "net refused 3, - out of place",
        "estimate refused 3, - out of place",
        "net refused 4, site of -",
    ];
    all.extend(others.map(String::from));
    all
}

/// Where sandboxes are evaluated, and what the check says for it.
fn sandboxes_checked() -> Vec<String> {
    let mut all = vec!["no rights at all: evaluated".to_string()];
    for own in OWNS {
        let things = [
            "evaluated at no site",
            "evaluated at one site",
            "evaluated at several sites",
            "- towards a site where it is evaluated",
            "broken elsewhere",
            "other V rows, by an eval at one site",
            "other V rows, by an eval at several sites",
            "other V rows, by an accept of a root",
            "other V rows, by an accept of a body at one site",
            "other U rows",
        ];
        all.extend(things.map(|what| format!("{own}: {what}")));
    }
    // More rights for `self` can only break a rule, and fewer only keep it.
    all.push("no self row: broken, accepted otherwise".to_string());
    all.extend(["self row", "self -"].map(|own| format!("{own}: accepted, broken otherwise")));
    all
}

/// Doors, accepts, guarded steps and `ready` that come out differently for what
/// a sandbox has for `self`.
fn sandboxes_run() -> Vec<String> {
    let mut all = Vec::new();
    let lines = ["out", "in", "read", "eval", "accept"];
    let bodies = ["one site", "several sites"];
    for own in OWNS {
        let silent = own == "no self row";
        let (door, accept, guarded, ready) = if silent {
            ("passes, closed", "performed, 25", "performed, 26", "ready, later or none")
        } else {
            ("closed, passes", "refused 25, not", "refused 26, not", "not ready, earlier")
        };
        all.push(format!("{own}: door {door} otherwise, for its own rights"));
        all.extend(bodies.map(|at| format!("{own}: door {door} otherwise, for a body at {at}")));
        all.push(format!("{own}: accept {accept} otherwise"));
        all.extend(lines.map(|line| format!("{own}: guarded {line} {guarded} otherwise")));
        all.push(format!("{own}: guarded {guarded} otherwise, at one of several sites"));
        all.push(format!("{own}: {ready} otherwise"));
        // By what E rows have to have.
        let reverse = if silent { "closed, passes" } else { "passes, closed" };
        all.push(format!("{own}: door {reverse} otherwise, for a body at one site"));
    }
    all
}

fn withdrawals() -> Vec<Wanted> {
    let mut all = Vec::new();
    all.extend(WITHDRAWALS.map(|what| often(format!("withdraw: {what}"))));
    all.extend(SPELLINGS.map(|row| often(format!("withdraw: bad command `{row}`"))));
    all.extend(RARE_WITHDRAWALS.map(|what| some(format!("withdraw: {what}"))));
    // Five generated scripts, beside the one in `carriers.rs`.
    let elsewhere = often("withdraw: refused 36, by a thread at another site");
    all.push(Wanted { cases: OFTEN + 1, ..elsewhere });
    all
}

const WITHDRAWALS: [&str; 42] = [
    "refused 35",
    "refused 35, nothing was brought",
    "refused 35, all were withdrawn",
    "refused 35, behind a refused bring",
    "refused 35, directly behind one",
    "refused 35, directly behind a refusal",
    "refused 36",
    "refused 36, a thread on the root",
    "refused 36, threads on later lines alone",
    "refused 36, by one thread of several",
    "refused 36, by the last of several",
    "refused 36, by the last of 64",
    "refused 36, behind a refused bring",
    "refused 36, directly behind one",
    "refused 36, directly behind a refusal",
    "done, no thread",
    "done, 64 threads",
    "done, a thread on an older arrival",
    "done, a thread elsewhere",
    "done, directly behind bring",
    "done, behind a refused bring",
    "done, directly behind one",
    "done, taken in and run to its end",
    "done, never taken in",
    "done, another is left",
    "done, three or more in a row, down to none",
    "done, of 256 lines",
    "bring refused 1, a row withdraw",
    "bring refused 2, for want of lines",
    "brought, refused with 2 before a withdrawal",
    "brought, a number given again to other lines",
    "brought, a number given again to the same lines",
    "door refused 24, root withdrawn",
    "step refused 24, root withdrawn",
    "guarded refused 24, root withdrawn",
    "door, another answer for a number given again",
    "accept refused 25, a number given again",
    "accept performed, a number given again",
    "performed, a line whose number had another",
    "ready, another place than before",
    "more than 256 lines in all",
    "1,024 lines in all",
];

const RARE_WITHDRAWALS: [&str; 5] = [
    "refused 36, by the first of several",
    "done, line 0",
    "done, line 255",
    "1,024 lines in all, in short arrivals",
    "1,024 lines in all, in long arrivals",
];

/// Every set of rights but the empty one, which has no V row.
fn printed() -> impl Iterator<Item = Wanted> {
    let sets = letters::by_number().into_iter().skip(1);
    sets.map(|letters| often(format!("rights printed: {letters}")))
}

/// Texts refused: by number, and by the group of the row named.
fn refusals() -> Vec<Wanted> {
    let mut all = Vec::new();
    for number in BAD_FORM..=NO_SITE {
        all.push(at_many_rows(format!("net: refused {number}")));
        all.push(at_many_rows(format!("estimate: refused {number}")));
        all.extend(
            ["R", "D", "T", "L", "Q"].map(|at| some(format!("net: refused {number} at {at}"))),
        );
        all.extend(["B", "A", "E"].map(|at| some(format!("estimate: refused {number} at {at}"))));
    }
    all.extend((BAD_FORM..=OUT_OF_ORDER).map(|n| some(format!("net: refused {n} at N"))));
    all.extend((BAD_NUMBERING..=FREE_VARIABLE).map(|n| often(format!("net: refused {n}"))));
    all.extend(["in", "read"].map(|line| some(format!("net: refused 7 at Q {line}"))));
    let with_sites = ["out", "in", "read", "eval"];
    all.extend(with_sites.map(|line| some(format!("net: refused 4 at Q {line}"))));
    all
}

const VERDICTS: [&str; 7] = [
    "broken: T",
    "broken: Q out",
    "broken: Q in",
    "broken: Q read",
    "broken: Q eval",
    "accepted: report empty",
    "accepted: report not empty",
];

const SHARES: [&str; 7] = [
    "share: exact",
    "share: down",
    "share: up",
    "share: a half, down to the even one",
    "share: a half, up to the even one",
    "share: a half, many rights",
    "share: 0 of 0",
];

const LIMITS: [&str; 14] = [
    "taken: 1 sites",
    "taken: 32 sites",
    "taken: 255 T rows",
    "taken: 256 T rows",
    "taken: 63 L rows",
    "taken: 64 L rows",
    "taken: 255 Q rows",
    "taken: 256 Q rows",
    "taken: 255 A rows",
    "taken: 256 A rows",
    "net: one row of T too many",
    "net: one row of L too many",
    "net: one row of Q too many",
    "estimate: one row of A too many",
];

const COMMANDS: [&str; 14] = [
    "bring: taken",
    "door: passes",
    "door: closed",
    "door: refused 24",
    "door: refused 4",
    "door: refused 2",
    "ready: a place",
    "ready: none",
    "bad command",
    "a variable bound anew",
    "a thread ended",
    "64 threads",
    "256 tuples",
    "accept: an arrival taken in again",
];

/// Every line performed and refused by a step; a guarded one also has 26.
fn steps(name: &str) -> Vec<Wanted> {
    let refusals: [(&str, &[u8]); 7] = [
        ("par", &[27]),
        ("rep", &[27]),
        ("out", &[27]),
        ("in", &[22, 23]),
        ("read", &[22, 23]),
        ("eval", &[27]),
        ("accept", &[24, 25, 27]),
    ];
    let mut all = vec![often(format!("{name}: refused 21"))];
    for (line, numbers) in refusals {
        all.push(often(format!("{name} {line}: performed")));
        all.extend(numbers.iter().map(|n| some(format!("{name} {line}: refused {n}"))));
    }
    all
}
