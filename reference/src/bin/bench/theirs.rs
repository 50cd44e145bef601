//! The same calls of the reference, with the same answers as numbers.

use reference::cases::heavy::Heavy;
use reference::engine::State;
use reference::flow::{self, Answer, Broken};
use reference::listing;
use reference::rows::{Estimate, Net};
use std::hint::black_box;

const BROKEN_T: u32 = 1 << 16;
const BROKEN_Q: u32 = 2 << 16;
const REFUSED: u32 = 3 << 16;
const NO_PLACE: u32 = 64;
const PLACES: u32 = NO_PLACE + 1;

pub fn check(heavy: &Heavy, report: &mut [u8]) -> u32 {
    match flow::check(&heavy.net, &heavy.estimate, report) {
        Answer::Accepted => 0,
        Answer::Broken(Broken::Tuple(row)) => BROKEN_T + row as u32,
        Answer::Broken(Broken::Line(line)) => BROKEN_Q + line as u32,
        Answer::Refused(refusal) => REFUSED + u32::from(refusal.number),
    }
}

pub fn read(heavy: &Heavy) -> u32 {
    let (mut net, mut estimate) = (Net::empty(), Estimate::empty());
    let result = flow::read_both(&heavy.net, &heavy.estimate, &mut net, &mut estimate);
    black_box((&net, &estimate));
    result.map_or_else(|refusal| u32::from(refusal.number), |()| 0)
}

pub fn list(input: &[u8]) -> Vec<u8> {
    black_box(listing::list(input))
}

fn placed(state: &State) -> u32 {
    state.ready().map_or(NO_PLACE, |k| k as u32)
}

fn begun(heavy: &Heavy) -> State {
    State::start(&heavy.net, &heavy.estimate).expect("a heavy net starts")
}

fn brought(heavy: &Heavy) -> State {
    let mut state = begun(heavy);
    // No arrival is refused, and changes nothing.
    let _ = state.bring(&heavy.arrival);
    state
}

/// A bare step for each three of the choices.
fn stepped(heavy: &Heavy) -> State {
    let mut state = brought(heavy);
    for at in (0..heavy.choices.len()).step_by(3) {
        let [k, m, r] = choice(&heavy.choices, at);
        let _ = state.step(k, m, r);
    }
    state
}

fn choice(choices: &[u8], at: usize) -> [usize; 3] {
    [choices[at], choices[at + 1], choices[at + 2]].map(usize::from)
}

pub fn start(heavy: &Heavy, count: usize) -> u32 {
    let mut last = begun(heavy);
    for _ in 1..count {
        last = begun(heavy);
        black_box(&last);
    }
    placed(&last)
}

/// The arrival brought to copies of one state; without `bring`, the copies
/// alone.
pub fn bring(heavy: &Heavy, bring: bool, count: usize) -> u32 {
    let state = begun(heavy);
    let mut last = state.clone();
    for _ in 0..count {
        last = state.clone();
        if bring {
            let _ = last.bring(&heavy.arrival);
        }
        black_box(&last);
    }
    placed(&last)
}

/// The newest arrival withdrawn from copies of one state; without `withdraw`,
/// the copies alone. Answers how many lines the last one has, and the place
/// that is ready.
pub fn withdraw(heavy: &Heavy, withdraw: bool, count: usize) -> u32 {
    let state = stepped(heavy);
    let mut last = state.clone();
    for _ in 0..count {
        last = state.clone();
        if withdraw {
            let _ = last.withdraw();
        }
        black_box(&last);
    }
    last.net.lines.len() as u32 * PLACES + placed(&last)
}

pub fn steps(heavy: &Heavy, guarded: bool, count: usize) -> u32 {
    let mut state = brought(heavy);
    let (mut performed, mut at) = (0, 0);
    for _ in 0..count {
        let [k, m, r] = choice(&heavy.choices, at);
        let done = if guarded { state.guarded_step(k, m, r) } else { state.step(k, m, r) };
        performed += u32::from(done.is_ok());
        at = if at + 3 < heavy.choices.len() { at + 3 } else { 0 };
    }
    black_box(&state);
    performed
}

pub fn door(heavy: &Heavy, at: [u8; 3], count: usize) -> u32 {
    let state = brought(heavy);
    let [r, l, d] = at.map(usize::from);
    let mut sum: u32 = 0;
    for _ in 0..count {
        let answer = match black_box(&state).door(r, l, d) {
            Ok(passes) => u32::from(passes),
            Err(refusal) => u32::from(refusal.number),
        };
        sum = sum.wrapping_add(answer);
    }
    sum
}

pub fn ready(heavy: &Heavy, count: usize) -> u32 {
    let state = stepped(heavy);
    let mut sum: u32 = 0;
    for _ in 0..count {
        sum = sum.wrapping_add(placed(black_box(&state)));
    }
    sum
}
