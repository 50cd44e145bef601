//! The rules, the report and the door, restated plainly from the definitions.

use crate::engine::State;
use crate::flow::{self, Broken};
use crate::rows::*;

pub fn sites(mask: Mask) -> Vec<Site> {
    (0..SITES as u8).map(Site).filter(|s| mask & s.bit() != 0).collect()
}

/// A net beside an estimate, and the rights for `self` of a sandbox that has no
/// row for it: all since document 02, No. 3, and none before.
#[derive(Clone, Copy)]
pub struct Plain<'a> {
    pub net: &'a Net,
    pub estimate: &'a Estimate,
    pub silent: u8,
}

impl Plain<'_> {
    pub fn of<'a>(net: &'a Net, estimate: &'a Estimate) -> Plain<'a> {
        Plain { net, estimate, silent: ALL_RIGHTS }
    }

    fn reach(&self, term: Term, here: Mask) -> Vec<Site> {
        sites(flow::reach(term, here, self.estimate))
    }

    /// The place set of a line, found by going up to its root.
    fn place(&self, q: usize) -> Mask {
        let Net { roots, lines, .. } = self.net;
        if let Some(root) = roots.iter().find(|root| usize::from(root.line) == q) {
            return root.site.bit();
        }
        let is_parent = |p: &usize| lines[*p].children().contains(&Some(q as u8));
        let parent = (0..q).find(is_parent).expect("every line is named");
        let above = self.place(parent);
        match lines[parent] {
            Line::Eval { target, body, .. } if usize::from(body) == q => {
                flow::reach(target, above, self.estimate)
            }
            _ => above,
        }
    }

    /// Tries every choice of sites for the fields from `at` on.
    fn all_choices(&self, fields: &Terms, at: usize, row: &mut Tuple, here: Mask) -> bool {
        if at == usize::from(fields.len) {
            return self.estimate.tuples.contains(row);
        }
        self.reach(fields.items[at], here).into_iter().all(|site| {
            row.fields[at] = site;
            for field in &mut row.fields[at + 1..] {
                *field = Site(0);
            }
            self.all_choices(fields, at + 1, row, here)
        })
    }

    fn out_rule(&self, target: Term, fields: &Terms, here: Mask) -> bool {
        // A field whose reach is empty leaves no choice, wherever it stands.
        let empty = |term: &Term| self.reach(*term, here).is_empty();
        fields.slice().iter().any(empty)
            || self.reach(target, here).into_iter().all(|site| {
                let mut row = Tuple { site, len: fields.len, ..Tuple::BLANK };
                self.all_choices(fields, 0, &mut row, here)
            })
    }

    fn template_rule(&self, target: Term, fields: &Terms, here: Mask) -> bool {
        self.estimate.tuples.iter().all(|row| {
            let at_target = self.reach(target, here).contains(&row.site);
            let pairs = || fields.slice().iter().zip(row.fields());
            let applies = at_target
                && row.len == fields.len
                && pairs().all(|(term, field)| match term {
                    Term::Bind(_) | Term::Wildcard => true,
                    _ => self.reach(*term, here).contains(field),
                });
            !applies
                || pairs().all(|(term, field)| match term {
                    Term::Bind(u) => sites(self.estimate.binds[u.index()]).contains(field),
                    _ => true,
                })
        })
    }

    /// d evaluated at l, towards t.
    pub fn evaluated(&self, sandbox: u8, l: Site, t: usize) -> u8 {
        let d = &self.net.sandboxes[usize::from(sandbox)];
        if t != l.index() {
            return d.towards[t];
        }
        match d.own {
            Some(rights) => d.towards[t] & rights,
            None => d.towards[t] & self.silent,
        }
    }

    /// The rule of one line.
    pub fn rule(&self, q: usize) -> bool {
        let here = self.place(q);
        match &self.net.lines[q] {
            Line::Out { target, fields, .. } => self.out_rule(*target, fields, here),
            Line::In { target, fields, .. } | Line::Read { target, fields, .. } => {
                self.template_rule(*target, fields, here)
            }
            Line::Eval { target, sandbox, .. } => {
                let reach = self.reach(*target, here);
                reach.iter().all(|l| {
                    let held = &self.estimate.rights[l.index()];
                    let lies_within = |other: &Site| {
                        (0..SITES).all(|t| self.evaluated(*sandbox, *other, t) & !held[t] == 0)
                    };
                    reach.iter().all(lies_within)
                })
            }
            _ => true,
        }
    }

    pub fn first_broken(&self) -> Option<Broken> {
        let tuple = self.net.tuples.iter().position(|t| !self.estimate.tuples.contains(t));
        let line = || (0..self.net.lines.len()).find(|&q| !self.rule(q));
        tuple.map(Broken::Tuple).or_else(|| line().map(Broken::Line))
    }

    /// The rights on t in the use map of line q, by recursion.
    pub fn uses(&self, q: usize, t: usize) -> u8 {
        let here = self.place(q);
        let below = |line: u8| self.uses(usize::from(line), t);
        let on = |target: Term, right: u8| {
            if self.reach(target, here).iter().any(|s| s.index() == t) {
                right
            } else {
                0
            }
        };
        match self.net.lines[q] {
            Line::Nil => 0,
            Line::Par { next, second } => below(next) | below(second),
            Line::Rep { next } => below(next),
            Line::Out { next, target, .. } => on(target, OUT) | below(next),
            Line::In { next, target, .. } => on(target, IN) | below(next),
            Line::Read { next, target, .. } => on(target, READ) | below(next),
            Line::Eval { next, target, .. } => on(target, EVAL) | below(next),
            Line::Accept { next, sandbox } => {
                let taken = sites(here).into_iter().map(|l| self.evaluated(sandbox, l, t));
                on(Term::Own, ACCEPT) | taken.fold(0, |all, rights| all | rights) | below(next)
            }
        }
    }

    /// The rights on t that a body uses and its sandbox may lack.
    fn unsure(&self, reach: &[Site], body: u8, sandbox: u8, t: usize) -> u8 {
        let held = reach.iter().map(|l| self.evaluated(sandbox, *l, t));
        let sure = held.fold(u8::MAX, |all, rights| all & rights);
        self.uses(usize::from(body), t) & !sure
    }

    pub fn report(&self) -> Vec<u8> {
        let Net { home, roots, lines, .. } = self.net;
        let mut report = vec![0; SITES * SITES];
        let all = |s: usize| (0..SITES).map(move |t| (s * SITES + t, t));
        for root in roots.iter() {
            for (byte, t) in all(root.site.index()) {
                report[byte] |= self.uses(usize::from(root.line), t) & !home[root.site.index()][t];
            }
        }
        for (q, line) in lines.iter().enumerate() {
            let Line::Eval { target, body, sandbox, .. } = *line else { continue };
            let reach = self.reach(target, self.place(q));
            for (byte, t) in reach.iter().flat_map(|subject| all(subject.index())) {
                report[byte] |= self.unsure(&reach, body, sandbox, t);
            }
        }
        for s in 0..usize::from(self.net.sites) {
            let held = &self.estimate.rights[s];
            all(s).for_each(|(byte, t)| report[byte] |= held[t] & !home[s][t]);
        }
        report
    }
}

/// The door by its definition, for the arrival in lines r to `end`.
pub fn door(state: &State, silent: u8, r: usize, end: usize, l: Site, d: u8) -> bool {
    let mut net = state.net.clone();
    net.roots = List::filled(Root { site: l, line: r as u8 });
    net.roots.push(Root { site: l, line: r as u8 });
    let plain = Plain { net: &net, estimate: &state.estimate, silent };
    let adds_nothing = |q: usize| {
        let Line::Eval { target, body, sandbox, .. } = net.lines[q] else { return true };
        let reach = plain.reach(target, plain.place(q));
        (0..SITES).all(|t| plain.unsure(&reach, body, sandbox, t) == 0)
    };
    let within_sandbox = |t: usize| plain.uses(r, t) & !plain.evaluated(d, l, t) == 0;
    (r..end).all(|q| plain.rule(q) && adds_nothing(q)) && (0..SITES).all(within_sandbox)
}

/// Where the lines of each arrival end.
pub fn ends(state: &State) -> Vec<usize> {
    let roots = state.arrivals.iter().skip(1).map(|arrival| usize::from(arrival.root));
    roots.chain([state.net.lines.len()]).collect()
}
