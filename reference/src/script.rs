//! `lotrun`: net, estimate and commands in, one row out for each command as
//! soon as it is there, and the last state.

use crate::engine::{Done, State};
use crate::listing::{letters, part, write_refusal, write_text};
use crate::rows::*;
use std::io::{self, BufRead, Read, Write};

/// Most bytes up to and including the second row `.`; more are 2, row 0.
pub const MAX_HEAD: usize = 1 << 20;
/// Most bytes of a command row, its 0A not counted; more are a bad command.
pub const MAX_ROW: usize = 1 << 20;
/// Most bytes of an arrival's rows; more are 2, row 0.
pub const MAX_ARRIVAL: usize = 65_536;

/// The row `.`, with its 0A.
const PARTING_ROW: &[u8] = b".\n";

/// The whole output for one input.
pub fn run(input: &[u8]) -> Vec<u8> {
    let mut out = Vec::new();
    run_to(input, &mut out).expect("slices are read and vectors written without failure");
    out
}

/// Writes each row of the output before more of the input is waited for.
pub fn run_to(input: impl BufRead, out: &mut impl Write) -> io::Result<()> {
    let mut input = Input::new(input);
    let mut state = match input.start()? {
        Err(refusal) => return write_out(out, &refusal_row(refusal)),
        Ok(state) => state,
    };
    write_out(out, b"started\n")?;
    while let Some(command) = input.next_command()? {
        write_out(out, &obey(&mut state, &command))?;
    }
    write_out(out, &show_state(&state))
}

fn write_out(out: &mut impl Write, rows: &[u8]) -> io::Result<()> {
    out.write_all(rows)?;
    out.flush()
}

fn refusal_row(refusal: Refusal) -> Vec<u8> {
    let mut row = Vec::new();
    write_refusal(&mut row, refusal);
    row
}

/// A command row, and the arrival behind a row `bring`.
pub enum Command<'a> {
    Row(&'a [u8]),
    Bring(&'a [u8]),
    /// The arrival has more than `MAX_ARRIVAL` bytes.
    BringTooLong,
    /// A row of more than `MAX_ROW` bytes, or bytes behind the last 0A, which
    /// are no row.
    Bad,
}

/// Where reading stopped.
#[derive(Clone, Copy, PartialEq)]
enum Stop {
    RowEnd,
    InputEnd,
    Limit,
}

/// The input of a script. The head is taken off it first, then the commands.
pub struct Input<R> {
    source: R,
    /// What is read of the head, of a row or of an arrival.
    kept: Vec<u8>,
    /// Whether the end was met: nothing is read behind it.
    ended: bool,
}

impl<R: BufRead> Input<R> {
    pub fn new(source: R) -> Input<R> {
        Input { source, kept: Vec::new(), ended: false }
    }

    /// Takes the head off, and starts from its two texts.
    pub fn start(&mut self) -> io::Result<Result<State, Refusal>> {
        if !self.read_head()? {
            return Ok(Err(Refusal::whole(OVER_LIMIT)));
        }
        let (net_text, rest) = part(&self.kept);
        let (estimate_text, _) = part(rest);
        Ok(State::start(net_text, estimate_text))
    }

    /// Takes the next command off, with the arrival behind a row `bring`.
    pub fn next_command(&mut self) -> io::Result<Option<Command<'_>>> {
        self.kept.clear();
        match self.read(MAX_ROW + 1)? {
            Stop::Limit => {
                self.skip_row()?;
                return Ok(Some(Command::Bad));
            }
            Stop::InputEnd if self.kept.is_empty() => return Ok(None),
            Stop::InputEnd => return Ok(Some(Command::Bad)),
            Stop::RowEnd => self.kept.pop(),
        };
        if self.kept != b"bring" {
            return Ok(Some(Command::Row(&self.kept)));
        }
        let whole = self.read_arrival()?;
        Ok(Some(if whole { Command::Bring(&self.kept) } else { Command::BringTooLong }))
    }

    /// Whether the head is within its limit; of a longer one the rest is not
    /// read.
    fn read_head(&mut self) -> io::Result<bool> {
        let mut partings = 0;
        while partings < 2 {
            let start = self.kept.len();
            let stop = self.read(MAX_HEAD + 1 - start)?;
            if self.kept.len() > MAX_HEAD {
                return Ok(false);
            }
            if stop == Stop::InputEnd {
                break;
            }
            partings += usize::from(&self.kept[start..] == PARTING_ROW);
        }
        Ok(true)
    }

    /// Whether the arrival is within its limit; a longer one is read up to its
    /// row `.` all the same, and not kept.
    fn read_arrival(&mut self) -> io::Result<bool> {
        self.kept.clear();
        let mut whole = true;
        loop {
            let start = self.kept.len();
            let mut stop = self.read(MAX_ARRIVAL + PARTING_ROW.len() - start)?;
            if &self.kept[start..] == PARTING_ROW {
                self.kept.truncate(start);
                return Ok(whole);
            }
            whole &= self.kept.len() <= MAX_ARRIVAL;
            if stop == Stop::Limit {
                stop = self.skip_row()?;
            }
            if stop == Stop::InputEnd {
                return Ok(whole);
            }
            if !whole {
                self.kept.clear();
            }
        }
    }

    /// Reads the rest of a row that is not kept.
    fn skip_row(&mut self) -> io::Result<Stop> {
        loop {
            self.kept.clear();
            let stop = self.read(MAX_ARRIVAL)?;
            if stop != Stop::Limit {
                return Ok(stop);
            }
        }
    }

    /// Adds bytes to those kept, up to and including the next 0A, and at most
    /// so many. A read that is interrupted is tried again by `read_until`.
    fn read(&mut self, most: usize) -> io::Result<Stop> {
        if self.ended {
            return Ok(Stop::InputEnd);
        }
        let mut source = self.source.by_ref().take(most as u64);
        let count = source.read_until(b'\n', &mut self.kept)?;
        if count > 0 && self.kept.ends_with(b"\n") {
            return Ok(Stop::RowEnd);
        }
        self.ended = count < most;
        Ok(if self.ended { Stop::InputEnd } else { Stop::Limit })
    }
}

/// The row that a command prints.
pub fn obey(state: &mut State, command: &Command) -> Vec<u8> {
    match command {
        Command::Row(row) => answer(state, row),
        Command::Bring(arrival) => answer_bring(state, arrival),
        Command::BringTooLong => refusal_row(Refusal::whole(OVER_LIMIT)),
        Command::Bad => b"bad command\n".to_vec(),
    }
}

fn answer_bring(state: &mut State, arrival: &[u8]) -> Vec<u8> {
    match state.bring(arrival) {
        Ok(root) => format!("brought,{root}\n").into_bytes(),
        Err(refusal) => refusal_row(refusal),
    }
}

/// The row for a command other than `bring`.
fn answer(state: &mut State, row: &[u8]) -> Vec<u8> {
    let mut out = Vec::new();
    match name_and_numbers(row) {
        (b"step", Some([k, m, r])) => write_step(&mut out, state.step(k, m, r)),
        (b"guarded", Some([k, m, r])) => write_step(&mut out, state.guarded_step(k, m, r)),
        (b"door", Some([r, l, d])) => match state.door(r, l, d) {
            Ok(true) => write_text(&mut out, "passes\n"),
            Ok(false) => write_text(&mut out, "closed\n"),
            Err(refusal) => write_refusal(&mut out, refusal),
        },
        _ if row == b"ready" => match state.ready() {
            Some(k) => write_text(&mut out, &format!("ready,{k}\n")),
            None => write_text(&mut out, "ready,none\n"),
        },
        _ if row == b"withdraw" => match state.withdraw() {
            Ok(root) => write_text(&mut out, &format!("withdrawn,{root}\n")),
            Err(refusal) => write_refusal(&mut out, refusal),
        },
        _ => write_text(&mut out, "bad command\n"),
    }
    out
}

fn write_step(out: &mut Vec<u8>, result: Result<Done, Refusal>) {
    match result {
        Ok(Done::Silent) => write_text(out, "silent\n"),
        Ok(Done::Acted { site, target, right }) => {
            let right = letters(right);
            write_text(out, &format!("performed,s{},s{},{right}\n", site.0, target.0));
        }
        Err(refusal) => write_refusal(out, refusal),
    }
}

/// The first field of a row, and its numbers where it has three and no more.
pub fn name_and_numbers(row: &[u8]) -> (&[u8], Option<[usize; 3]>) {
    let mut fields = row.split(|&b| b == b',');
    let name = fields.next().unwrap_or_default();
    (name, three_numbers(fields))
}

fn three_numbers<'a>(mut fields: impl Iterator<Item = &'a [u8]>) -> Option<[usize; 3]> {
    let numbers = [number(fields.next()?)?, number(fields.next()?)?, number(fields.next()?)?];
    fields.next().is_none().then_some(numbers)
}

/// Decimal digits, at least one; a number too large for the machine is as
/// good as the largest.
fn number(digits: &[u8]) -> Option<usize> {
    if digits.is_empty() || !digits.iter().all(u8::is_ascii_digit) {
        return None;
    }
    let add = |value: usize, digit: &u8| {
        value.saturating_mul(10).saturating_add(usize::from(digit - b'0'))
    };
    Some(digits.iter().fold(0, add))
}

fn show_state(state: &State) -> Vec<u8> {
    let mut out = Vec::new();
    let (threads, tuples) = (state.threads.len(), state.tuples.len());
    let lines = state.net.lines.len();
    write_text(&mut out, &format!("state,{threads},{tuples},{lines}\n"));
    for thread in state.threads.iter() {
        show_thread(&mut out, thread);
    }
    for tuple in state.tuples.iter() {
        write_text(&mut out, &format!("tuple,s{}", tuple.site.0));
        for field in tuple.fields() {
            write_text(&mut out, &format!(",s{}", field.0));
        }
        out.push(b'\n');
    }
    write_text(&mut out, &format!("lines,{lines}\nroots"));
    for arrival in state.arrivals.iter() {
        write_text(&mut out, &format!(",{}", arrival.root));
    }
    out.push(b'\n');
    out
}

fn show_thread(out: &mut Vec<u8>, thread: &crate::engine::Thread) {
    write_text(out, &format!("thread,s{},", thread.site.0));
    for rights in thread.policy {
        write_text(out, &format!("{rights:02x}"));
    }
    write_text(out, &format!(",{},", thread.line));
    let mut gap = "";
    for u in (0..VARS as u8).map(Var) {
        if let Some(site) = thread.bindings.get(u) {
            write_text(out, &format!("{gap}u{}=s{}", u.0, site.0));
            gap = " ";
        }
    }
    write_text(out, if gap.is_empty() { "-\n" } else { "\n" });
}

#[cfg(test)]
mod tests {
    use super::*;
    use std::io::{repeat, BufReader};

    const ENDLESS: u64 = 32 << 20;

    /// Vectors grow to twice what they need.
    #[test]
    fn endless_inputs_are_not_kept() {
        for (begin, byte) in [("", b'x'), ("bring\n", b'x'), ("bring\n", b'\n')] {
            let source = begin.as_bytes().chain(repeat(byte).take(ENDLESS));
            let mut input = Input::new(BufReader::new(source));
            assert!(matches!(input.next_command(), Ok(Some(Command::Bad | Command::BringTooLong))));
            assert!(input.ended && input.kept.capacity() <= 2 * (MAX_ROW + 1));
        }
        let mut input = Input::new(BufReader::new(repeat(b'x')));
        assert!(input.start().is_ok_and(|started| started.is_err()));
        assert!(input.kept.capacity() <= 2 * (MAX_HEAD + 1));
    }
}
