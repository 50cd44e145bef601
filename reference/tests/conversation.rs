//! `lotrun` in a conversation: the limits of its input, each answer before the
//! next command is given, reads and writes that fail.

use reference::cases::limits;
use reference::script::{run, run_to, MAX_ARRIVAL, MAX_HEAD, MAX_ROW};
use std::cell::RefCell;
use std::io::{self, BufReader, ErrorKind, Read, Write};
use std::rc::Rc;

const HEAD: &str = "N,1\nL,s0,0\nQ,0,rep,1\nQ,1,nil\n.\n.\n";

#[test]
fn limits_of_the_input() {
    for (at, case) in limits::all().iter().enumerate() {
        let output = String::from_utf8(run(case.text.as_bytes())).unwrap();
        assert_eq!(output, case.output, "case {at}");
    }
}

/// Keeps what is written to it, and how much of that was flushed.
#[derive(Clone, Default)]
struct Answers(Rc<RefCell<(String, usize)>>);

impl Answers {
    fn flushed(&self) -> String {
        let kept = self.0.borrow();
        kept.0[..kept.1].to_string()
    }
}

impl Write for Answers {
    fn write(&mut self, bytes: &[u8]) -> io::Result<usize> {
        self.0.borrow_mut().0 += std::str::from_utf8(bytes).unwrap();
        Ok(bytes.len())
    }

    fn flush(&mut self) -> io::Result<()> {
        let mut kept = self.0.borrow_mut();
        kept.1 = kept.0.len();
        Ok(())
    }
}

/// Gives the texts byte by byte, every other read being interrupted, and is not
/// read behind the end. At each read, what was answered so far must be what the
/// texts given so far ask for.
struct Partner {
    turns: Vec<(String, &'static str)>,
    given: Vec<u8>,
    expected: String,
    answers: Answers,
    interrupted: bool,
    ended: bool,
}

impl Read for Partner {
    fn read(&mut self, buffer: &mut [u8]) -> io::Result<usize> {
        self.interrupted = !self.interrupted;
        if self.interrupted {
            return Err(ErrorKind::Interrupted.into());
        }
        assert_eq!(self.answers.flushed(), self.expected);
        assert!(!self.ended);
        let Some((text, answer)) = self.turns.first() else {
            self.ended = true;
            return Ok(0);
        };
        buffer[0] = text.as_bytes()[self.given.len()];
        self.given.push(buffer[0]);
        if self.given.len() == text.len() {
            self.expected += answer;
            self.given.clear();
            self.turns.remove(0);
        }
        Ok(1)
    }
}

#[test]
fn each_answer_comes_before_the_next_command() {
    let turns = [
        (HEAD, "started\n"),
        ("step,0,0,0\n", "silent\n"),
        ("bring\nQ,0,nil\n.\n", "brought,2\n"),
        ("\n", "bad command\n"),
        (&format!("bring\n{}\n.\n", "x".repeat(MAX_ARRIVAL)), "refused,2,0\n"),
        (&format!("{}\n", "x".repeat(MAX_ROW + 1)), "bad command\n"),
        ("withdraw\n", "withdrawn,2\n"),
        ("ready\n", "ready,0\n"),
        ("ready", ""),
    ];
    let mut answers = Answers::default();
    let partner = Partner {
        turns: turns.map(|(text, answer)| (text.to_string(), answer)).to_vec(),
        given: vec![],
        expected: String::new(),
        answers: answers.clone(),
        interrupted: false,
        ended: false,
    };
    run_to(BufReader::new(partner), &mut answers).unwrap();
    let expected: String = turns.iter().map(|(_, answer)| *answer).collect();
    let output = answers.flushed();
    let rest = output.strip_prefix(&expected).unwrap();
    assert!(rest.starts_with("bad command\nstate,1,0,2\n"), "{rest}");
}

/// Fails when it is read, and when it is flushed.
struct Failing;

impl Read for Failing {
    fn read(&mut self, _: &mut [u8]) -> io::Result<usize> {
        Err(io::Error::other("read failed"))
    }
}

impl Write for Failing {
    fn write(&mut self, bytes: &[u8]) -> io::Result<usize> {
        Ok(bytes.len())
    }

    fn flush(&mut self) -> io::Result<()> {
        Err(io::Error::other("flush failed"))
    }
}

/// What is printed for a text behind which reading fails.
fn cut(text: &str) -> (io::Result<()>, String) {
    let mut output = Vec::new();
    let result = run_to(BufReader::new(text.as_bytes().chain(Failing)), &mut output);
    (result, String::from_utf8(output).unwrap())
}

/// A failed read is no end of the input: neither an answer nor the state
/// follows.
#[test]
fn failed_reads() {
    let x = |count: usize| "x".repeat(count);
    for (commands, answers) in [
        ("".to_string(), ""),
        ("ready\nready".to_string(), "ready,0\n"),
        (x(MAX_ROW + 1), ""),
        ("bring\nQ,0,nil\n".to_string(), ""),
        (format!("bring\n{}", x(MAX_ARRIVAL + 1)), ""),
    ] {
        let (result, output) = cut(&format!("{HEAD}{commands}"));
        assert_eq!(result.unwrap_err().to_string(), "read failed");
        assert_eq!(output, format!("started\n{answers}"));
    }
    let (result, output) = cut("N,1\n.\n");
    assert_eq!((result.unwrap_err().to_string(), output), ("read failed".into(), "".into()));
}

/// Nothing is read behind the byte that makes the head too long.
#[test]
fn the_rest_of_a_long_head_is_not_read() {
    let (result, output) = cut(&"x".repeat(MAX_HEAD + 1));
    assert_eq!((result.unwrap(), output), ((), "refused,2,0\n".into()));
    assert!(cut(&"x".repeat(MAX_HEAD)).0.is_err());
}

#[test]
fn failed_writes() {
    let mut short = [0; 10];
    let error = run_to(format!("{HEAD}ready\n").as_bytes(), &mut &mut short[..]).unwrap_err();
    assert_eq!(error.kind(), ErrorKind::WriteZero);
    let error = run_to(HEAD.as_bytes(), &mut Failing).unwrap_err();
    assert_eq!(error.to_string(), "flush failed");
}
