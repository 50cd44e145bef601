//! The engine: start, bring, withdraw, bare and guarded steps, the door, ready.

use crate::flow::{read_both, sound_sites, use_map};
use crate::rows::*;

pub const MAX_THREADS: usize = 64;

/// Numbers of the refusals of steps.
pub const NO_THREAD: u8 = 21;
pub const NO_TUPLE: u8 = 22;
pub const NO_MATCH: u8 = 23;
pub const NO_ARRIVAL: u8 = 24;
pub const DOOR_CLOSED: u8 = 25;
pub const NO_RIGHT: u8 = 26;
pub const NO_ROOM: u8 = 27;

/// Numbers of the refusals of a withdrawal (document 02, No. 8).
pub const NONE_TO_WITHDRAW: u8 = 35;
pub const LINES_IN_USE: u8 = 36;

/// A site or none for each variable.
#[derive(Clone, Copy, PartialEq, Eq, Debug)]
pub struct Bindings([u8; VARS]);

impl Bindings {
    const UNBOUND: u8 = u8::MAX;
    pub const NONE: Bindings = Bindings([Bindings::UNBOUND; VARS]);

    pub fn get(&self, u: Var) -> Option<Site> {
        let site = self.0[u.index()];
        (site != Bindings::UNBOUND).then_some(Site(site))
    }

    fn set(&mut self, u: Var, site: Site) {
        self.0[u.index()] = site.0;
    }
}

#[derive(Clone, Copy, PartialEq, Eq, Debug)]
pub struct Thread {
    pub site: Site,
    pub policy: Policy,
    pub line: u8,
    pub bindings: Bindings,
}

impl Thread {
    const BLANK: Thread =
        Thread { site: Site(0), policy: EMPTY_POLICY, line: 0, bindings: Bindings::NONE };

    /// The site that a target, or a field that does not take any site, stands
    /// for here. Roots are closed and bindings are handed on, so a variable met
    /// is bound.
    fn value(&self, term: Term) -> Site {
        match term {
            Term::Site(site) => site,
            Term::Own => self.site,
            Term::Var(u) => self.bindings.get(u).expect("roots are closed"),
            Term::Bind(_) | Term::Wildcard => unreachable!("these take any site"),
        }
    }

    /// What `in` and `read` ask of a tuple here.
    fn pattern(&self, target: Term, fields: &Terms) -> Pattern {
        let mut pattern =
            Pattern { site: self.value(target), len: fields.len, fields: [None; MAX_FIELDS] };
        for (field, &term) in pattern.fields.iter_mut().zip(fields.slice()) {
            if !term.takes_any() {
                *field = Some(self.value(term));
            }
        }
        pattern
    }
}

/// A template whose fields are evaluated; one that takes any site is none.
struct Pattern {
    site: Site,
    len: u8,
    fields: [Option<Site>; MAX_FIELDS],
}

impl Pattern {
    /// The tuple "stands at the target, has as many fields, and agrees in
    /// every non-binding field".
    fn matches(&self, tuple: &Tuple) -> bool {
        let agrees = |(mine, theirs): (&Option<Site>, &Site)| mine.is_none_or(|s| s == *theirs);
        tuple.site == self.site
            && tuple.len == self.len
            && self.fields.iter().zip(&tuple.fields).all(agrees)
    }
}

#[derive(Clone, Copy, PartialEq, Eq, Debug)]
pub struct Arrival {
    pub root: u8,
    /// The sites at which its rules hold and its eval lines add nothing to
    /// a report. It depends on nothing that a step changes.
    sound: Mask,
}

/// The answer of a performed step.
#[derive(Clone, Copy, PartialEq, Eq, Debug)]
pub enum Done {
    Silent,
    Acted { site: Site, target: Site, right: u8 },
}

/// A state; the lines brought stand behind those of the net in `net.lines`.
#[derive(Clone, PartialEq, Eq, Debug)]
pub struct State {
    pub net: Net,
    pub estimate: Estimate,
    pub arrivals: List<Arrival, MAX_LINES>,
    pub threads: List<Thread, MAX_THREADS>,
    pub tuples: List<Tuple, MAX_TUPLES>,
}

impl State {
    /// "It begins from both texts, with one thread per L row, in order, under
    /// the home policy, nothing bound, and the T rows."
    pub fn start(net_text: &[u8], estimate_text: &[u8]) -> Result<State, Refusal> {
        let (mut net, mut estimate) = (Net::empty(), Estimate::empty());
        read_both(net_text, estimate_text, &mut net, &mut estimate)?;
        let mut state = State {
            tuples: net.tuples.clone(),
            net,
            estimate,
            arrivals: List::filled(Arrival { root: 0, sound: 0 }),
            threads: List::filled(Thread::BLANK),
        };
        for at in 0..state.net.roots.len() {
            let Root { site, line } = state.net.roots[at];
            let policy = state.net.home[site.index()];
            state.append(Thread { site, policy, line, bindings: Bindings::NONE });
        }
        Ok(state)
    }

    /// "Bring takes Q rows numbered from 0, renumbers them behind the present
    /// lines, and makes line 0 a root." Answers the root's line number.
    pub fn bring(&mut self, text: &[u8]) -> Result<u8, Refusal> {
        let mut lines = List::filled(Line::Nil);
        let present = self.net.lines.len();
        read_arrival(text, self.net.sites, present, &mut lines)?;
        let root = present as u8;
        for line in lines.iter() {
            self.net.lines.push(line.renumbered(root));
        }
        let sound = sound_sites(&self.net, &self.estimate, present);
        self.arrivals.push(Arrival { root, sound });
        Ok(root)
    }

    /// "Withdraws the newest arrival; its lines become free again." They are
    /// those from its root on. Answers the root's line number. 35 while the
    /// state has no arrival, then 36 while a thread stands on one of the lines,
    /// row 0 each; a refusal changes nothing.
    pub fn withdraw(&mut self) -> Result<u8, Refusal> {
        let root = self.arrivals.last().ok_or(Refusal::whole(NONE_TO_WITHDRAW))?.root;
        if self.threads.iter().any(|thread| thread.line >= root) {
            return Err(Refusal::whole(LINES_IN_USE));
        }
        self.arrivals.truncate(self.arrivals.len() - 1);
        self.net.lines.truncate(usize::from(root));
        Ok(root)
    }

    /// The door called by itself: 24, then 4, then 2, row 0 each.
    pub fn door(&self, r: usize, l: usize, d: usize) -> Result<bool, Refusal> {
        let arrival = self.arrival(r).ok_or(Refusal::whole(NO_ARRIVAL))?;
        if l >= usize::from(self.net.sites) {
            return Err(Refusal::whole(NO_SITE));
        }
        if d >= SANDBOXES {
            return Err(Refusal::whole(OVER_LIMIT));
        }
        Ok(self.passes(arrival, Site(l as u8), &self.net.sandboxes[d]))
    }

    fn arrival(&self, r: usize) -> Option<&Arrival> {
        let root = u8::try_from(r).ok()?;
        let at = self.arrivals.binary_search_by_key(&root, |arrival| arrival.root).ok()?;
        Some(&self.arrivals[at])
    }

    fn passes(&self, arrival: &Arrival, l: Site, sandbox: &Sandbox) -> bool {
        arrival.sound & l.bit() != 0
            && within(&use_map(&self.net, &self.estimate, arrival.root, l.bit()), &sandbox.at(l))
    }

    /// A bare step.
    pub fn step(&mut self, k: usize, m: usize, r: usize) -> Result<Done, Refusal> {
        self.act(false, k, m, r)
    }

    /// A guarded step.
    pub fn guarded_step(&mut self, k: usize, m: usize, r: usize) -> Result<Done, Refusal> {
        self.act(true, k, m, r)
    }

    fn act(&mut self, guarded: bool, k: usize, m: usize, r: usize) -> Result<Done, Refusal> {
        let done = self.judge(guarded, k, m, r).map_err(Refusal::whole)?;
        self.perform(k, m, r);
        Ok(done)
    }

    fn is_nil(&self, line: u8) -> bool {
        matches!(self.net.lines[usize::from(line)], Line::Nil)
    }

    /// Tests a step without performing it: "Steps go 21 to 27."
    pub fn judge(&self, guarded: bool, k: usize, m: usize, r: usize) -> Result<Done, u8> {
        let thread = self.threads.get(k).ok_or(NO_THREAD)?;
        match self.net.lines[usize::from(thread.line)] {
            Line::Nil => unreachable!("no thread stands on nil"),
            Line::Par { next, second } => {
                self.room(!self.is_nil(next), second)?;
                Ok(Done::Silent)
            }
            Line::Rep { next } => {
                self.room(true, next)?;
                Ok(Done::Silent)
            }
            Line::Out { target, .. } => {
                let done = self.allowed(guarded, thread, thread.value(target), OUT)?;
                if self.tuples.is_full() {
                    Err(NO_ROOM)
                } else {
                    Ok(done)
                }
            }
            Line::In { target, fields, .. } => {
                self.judge_take(guarded, thread, target, &fields, m, IN)
            }
            Line::Read { target, fields, .. } => {
                self.judge_take(guarded, thread, target, &fields, m, READ)
            }
            Line::Eval { next, target, body, .. } => {
                let done = self.allowed(guarded, thread, thread.value(target), EVAL)?;
                self.room(!self.is_nil(next), body)?;
                Ok(done)
            }
            Line::Accept { next, sandbox } => self.judge_accept(guarded, thread, next, sandbox, r),
        }
    }

    fn judge_take(
        &self,
        guarded: bool,
        thread: &Thread,
        target: Term,
        fields: &Terms,
        m: usize,
        right: u8,
    ) -> Result<Done, u8> {
        let tuple = self.tuples.get(m).ok_or(NO_TUPLE)?;
        let pattern = thread.pattern(target, fields);
        if !pattern.matches(tuple) {
            return Err(NO_MATCH);
        }
        self.allowed(guarded, thread, pattern.site, right)
    }

    fn judge_accept(
        &self,
        guarded: bool,
        thread: &Thread,
        next: u8,
        sandbox: u8,
        r: usize,
    ) -> Result<Done, u8> {
        let arrival = self.arrival(r).ok_or(NO_ARRIVAL)?;
        if !self.passes(arrival, thread.site, &self.net.sandboxes[usize::from(sandbox)]) {
            return Err(DOOR_CLOSED);
        }
        let done = self.allowed(guarded, thread, thread.site, ACCEPT)?;
        self.room(!self.is_nil(next), arrival.root)?;
        Ok(done)
    }

    /// "Guarded steps need the right in the thread's policy and in the home
    /// policy of its site; bare ones need neither."
    fn allowed(&self, guarded: bool, thread: &Thread, target: Site, right: u8) -> Result<Done, u8> {
        let home = &self.net.home[thread.site.index()];
        let held = thread.policy[target.index()] & home[target.index()] & right != 0;
        if guarded && !held {
            return Err(NO_RIGHT);
        }
        Ok(Done::Acted { site: thread.site, target, right })
    }

    /// Tests the length of the thread list after the step, nil threads gone.
    fn room(&self, stays: bool, appended: u8) -> Result<(), u8> {
        let kept = self.threads.len() - usize::from(!stays);
        if kept + usize::from(!self.is_nil(appended)) > MAX_THREADS {
            return Err(NO_ROOM);
        }
        Ok(())
    }

    /// Performs a step that `judge` has let through.
    fn perform(&mut self, k: usize, m: usize, r: usize) {
        let thread = self.threads[k];
        match self.net.lines[usize::from(thread.line)] {
            Line::Nil => {}
            Line::Par { next, second } => {
                self.advance(k, next);
                self.append(Thread { line: second, ..thread });
            }
            Line::Rep { next } => self.append(Thread { line: next, ..thread }),
            Line::Out { next, target, fields } => {
                self.tuples.push(make_tuple(&thread, target, &fields));
                self.advance(k, next);
            }
            Line::In { next, fields, .. } => {
                self.bind(k, m, &fields);
                self.tuples.remove(m);
                self.advance(k, next);
            }
            Line::Read { next, fields, .. } => {
                self.bind(k, m, &fields);
                self.advance(k, next);
            }
            Line::Eval { next, target, body, sandbox } => {
                let site = thread.value(target);
                let policy = self.net.sandboxes[usize::from(sandbox)].at(site);
                self.advance(k, next);
                self.append(Thread { site, policy, line: body, bindings: thread.bindings });
            }
            Line::Accept { next, sandbox } => {
                let policy = self.net.sandboxes[usize::from(sandbox)].at(thread.site);
                self.advance(k, next);
                let site = thread.site;
                self.append(Thread { site, policy, line: r as u8, bindings: Bindings::NONE });
            }
        }
    }

    /// Binds the variables of a template to the fields of tuple m.
    fn bind(&mut self, k: usize, m: usize, fields: &Terms) {
        let bindings = &mut self.threads[k].bindings;
        for (term, &field) in fields.slice().iter().zip(self.tuples[m].fields()) {
            if let Term::Bind(u) = *term {
                bindings.set(u, field);
            }
        }
    }

    /// Moves thread k to `next`; a thread that comes to nil is taken out.
    fn advance(&mut self, k: usize, next: u8) {
        if self.is_nil(next) {
            self.threads.remove(k);
        } else {
            self.threads[k].line = next;
        }
    }

    /// Appends a thread unless it stands on nil.
    fn append(&mut self, thread: Thread) {
        if !self.is_nil(thread.line) {
            self.threads.push(thread);
        }
    }

    /// "The lowest place where some m and r make a bare step perform."
    pub fn ready(&self) -> Option<usize> {
        (0..self.threads.len()).find(|&k| self.can_step(k))
    }

    fn can_step(&self, k: usize) -> bool {
        let thread = &self.threads[k];
        match self.net.lines[usize::from(thread.line)] {
            Line::In { target, fields, .. } | Line::Read { target, fields, .. } => {
                let pattern = thread.pattern(target, &fields);
                self.tuples.iter().any(|tuple| pattern.matches(tuple))
            }
            Line::Accept { .. } => self
                .arrivals
                .iter()
                .any(|arrival| self.judge(false, k, 0, usize::from(arrival.root)).is_ok()),
            _ => self.judge(false, k, 0, 0).is_ok(),
        }
    }
}

/// The tuple that an `out` puts at its target.
fn make_tuple(thread: &Thread, target: Term, fields: &Terms) -> Tuple {
    let mut tuple = Tuple { site: thread.value(target), len: fields.len, ..Tuple::BLANK };
    for (field, &term) in tuple.fields.iter_mut().zip(fields.slice()) {
        *field = thread.value(term);
    }
    tuple
}
