//! Times the proved calls beside those of the reference on the same inputs.
//!
//! A time is the median of several rounds in which both sides take turns. What
//! comes before the call (starting, bringing, for the reference copying a
//! state) is timed apart and taken off.

mod ours;
mod theirs;

use reference::cases::heavy::{self, Heavy};
use std::cell::RefCell;
use std::slice::from_ref;

const ROUNDS: usize = 15;
/// Seconds that one measurement takes at least, what is taken off not counted;
/// and at most, where that is nearly all.
const LEAST: f64 = 0.004;
const MOST: f64 = 0.1;
/// Calls for the comparison of answers; a multiple of each cycle's steps.
const SAMPLE: usize = 24;

const CALLS: [&str; 11] = [
    "check",
    "read",
    "list",
    "start",
    "bring",
    "withdraw",
    WITH_COPY,
    "step",
    "guarded step",
    "ready",
    "door",
];

/// `withdraw`, the reference's copy of the state counted.
const WITH_COPY: &str = "withdraw+copy";

/// Does its work as often as asked, and answers a number.
type Work<'a> = Box<dyn Fn(usize) -> u32 + 'a>;

struct Side<'a> {
    work: Work<'a>,
    /// The same without the call that is timed.
    idle: Work<'a>,
}

struct Job<'a> {
    call: &'static str,
    input: &'static str,
    sides: [Side<'a>; 2],
}

/// Microseconds of one call, ours and theirs.
struct Times {
    call: &'static str,
    input: &'static str,
    each: [f64; 2],
}

/// As the C library has it.
#[repr(C)]
#[derive(Default)]
struct Timespec {
    seconds: i64,
    nanoseconds: i64,
}

extern "C" {
    fn clock_gettime(clock: i32, time: *mut Timespec) -> i32;
}

/// The processor time of this thread, so that other programs on the machine
/// disturb less.
fn processor_time() -> f64 {
    const CLOCK_THREAD_CPUTIME_ID: i32 = 3;
    let mut time = Timespec::default();
    let result = unsafe { clock_gettime(CLOCK_THREAD_CPUTIME_ID, &mut time) };
    assert_eq!(result, 0, "no clock");
    time.seconds as f64 + time.nanoseconds as f64 * 1e-9
}

fn seconds(work: &Work, count: usize) -> f64 {
    let begun = processor_time();
    std::hint::black_box(work(count));
    processor_time() - begun
}

/// How often a side must work for a measurement to be long enough.
fn enough(side: &Side) -> usize {
    let mut count = 1;
    loop {
        let work = seconds(&side.work, count);
        if work >= MOST || work >= LEAST + seconds(&side.idle, count) {
            return count;
        }
        count *= 2;
    }
}

fn once(side: &Side, count: usize) -> f64 {
    let work = seconds(&side.work, count);
    let idle = seconds(&side.idle, count);
    (work - idle) * 1e6 / count as f64
}

fn median(mut times: Vec<f64>) -> f64 {
    times.sort_by(f64::total_cmp);
    times[times.len() / 2]
}

fn measure(job: &Job) -> Times {
    let answers = [0, 1].map(|side| (job.sides[side].work)(SAMPLE));
    assert_eq!(answers[0], answers[1], "{} on {}: the answers differ", job.call, job.input);
    let counts = [0, 1].map(|side| enough(&job.sides[side]));
    let mut rounds = [vec![], vec![]];
    for _ in 0..ROUNDS {
        for side in [0, 1] {
            rounds[side].push(once(&job.sides[side], counts[side]));
        }
    }
    Times { call: job.call, input: job.input, each: rounds.map(median) }
}

fn nothing<'a>() -> Work<'a> {
    Box::new(|_| 0)
}

fn pair<'a>(
    call: &'static str,
    heavy: &'a Heavy,
    ours: impl Fn(&'a Heavy, usize) -> u32 + Copy + 'a,
    theirs: impl Fn(&'a Heavy, usize) -> u32 + Copy + 'a,
) -> Job<'a> {
    let ours = Side {
        work: Box::new(move |count| ours(heavy, count)),
        idle: Box::new(move |_| ours(heavy, 0)),
    };
    let theirs = Side {
        work: Box::new(move |count| theirs(heavy, count)),
        idle: Box::new(move |_| theirs(heavy, 0)),
    };
    Job { call, input: heavy.name, sides: [ours, theirs] }
}

/// A call that is made again and again from here, and needs nothing before.
/// It is told which of the inputs is taken: each in turn.
fn plain<'a>(
    call: &'static str,
    turns: &'a [Heavy],
    ours: impl Fn(usize) -> u32 + 'a,
    theirs: impl Fn(usize) -> u32 + 'a,
) -> Job<'a> {
    for (at, heavy) in turns.iter().enumerate() {
        assert_eq!(ours(at), theirs(at), "{call} on {}: the answers differ", heavy.name);
    }
    let last = |times: usize, once: &dyn Fn(usize) -> u32| {
        (0..times).fold(0, |_, time| once(time % turns.len()))
    };
    let ours = Side { work: Box::new(move |n| last(n, &ours)), idle: nothing() };
    let theirs = Side { work: Box::new(move |n| last(n, &theirs)), idle: nothing() };
    Job { call, input: turns[0].name, sides: [ours, theirs] }
}

fn check_job(turns: &[Heavy]) -> Job<'_> {
    let (mine, other) = (RefCell::new([0u8; 1024]), RefCell::new([0u8; 1024]));
    for heavy in turns {
        ours::check(heavy, &mut *mine.borrow_mut());
        theirs::check(heavy, &mut *other.borrow_mut());
        assert_eq!(mine, other, "{}: the reports differ", heavy.name);
    }
    plain(
        "check",
        turns,
        move |at| ours::check(&turns[at], &mut *mine.borrow_mut()),
        move |at| theirs::check(&turns[at], &mut *other.borrow_mut()),
    )
}

fn read_job(turns: &[Heavy]) -> Job<'_> {
    plain("read", turns, |at| ours::read(&turns[at]), |at| theirs::read(&turns[at]))
}

/// Document 01's `lotcheck` as a call: input bytes to output bytes.
fn list_job(turns: &[Heavy]) -> Job<'_> {
    assert_eq!(ours::listing_size(), ours::LISTING_BYTES, "the size of a listing has changed");
    let inputs: Vec<Vec<u8>> = turns.iter().map(Heavy::input).collect();
    let output = RefCell::new([0u8; ours::LISTING_BYTES]);
    for input in &inputs {
        let length = ours::list(input, &mut output.borrow_mut());
        let listing = &output.borrow()[..length];
        assert_eq!(listing, theirs::list(input), "{}: the listings differ", turns[0].name);
    }
    let (mine, other) = (inputs.clone(), inputs);
    plain(
        "list",
        turns,
        move |at| ours::list(&mine[at], &mut output.borrow_mut()) as u32,
        move |at| theirs::list(&other[at]).len() as u32,
    )
}

fn start_job(heavy: &Heavy) -> Job<'_> {
    // At least one start is made, and then one question what is ready.
    let mut job = pair("start", heavy, ours::start, theirs::start);
    job.sides[0].idle = Box::new(move |_| ours::start(heavy, 1));
    job.sides[1].idle = Box::new(move |_| theirs::start(heavy, 1));
    job
}

fn bring_job(heavy: &Heavy) -> Job<'_> {
    let mut job = pair("bring", heavy, ours::bring, |heavy, n| theirs::bring(heavy, true, n));
    job.sides[1].idle = Box::new(move |count| theirs::bring(heavy, false, count));
    job
}

/// As for `bring`, the reference's copies of the state are taken off; or not.
fn withdraw_jobs(heavy: &Heavy) -> [Job<'_>; 2] {
    let job = |call| pair(call, heavy, ours::withdraw, |heavy, n| theirs::withdraw(heavy, true, n));
    let mut alone = job("withdraw");
    alone.sides[1].idle = Box::new(move |count| theirs::withdraw(heavy, false, count));
    [alone, job(WITH_COPY)]
}

/// The door for a root, a site and a sandbox.
fn door_job(heavy: &Heavy, at: [u8; 3]) -> Job<'_> {
    let theirs = move |heavy, n| theirs::door(heavy, at, n);
    pair("door", heavy, move |heavy, n| ours::door(heavy, at, n), theirs)
}

fn jobs<'a>(inputs: &'a Inputs) -> Vec<Job<'a>> {
    let Inputs { march, large, smallest, halves, checks, mixed_sets, .. } = inputs;
    let Inputs { cycles, refusals, mixed, closed, waiting, arrived, withdrawals, .. } = inputs;
    let texts = || checks.iter().map(from_ref).chain([&mixed_sets[..]]);
    let mut jobs: Vec<Job> = texts().map(check_job).collect();
    jobs.extend(texts().map(read_job));
    jobs.extend(texts().chain([from_ref(halves)]).map(list_job));
    jobs.extend([march, large, smallest, mixed].map(start_job));
    jobs.extend(cycles.iter().filter(|heavy| !heavy.arrival.is_empty()).map(bring_job));
    jobs.extend(arrived.iter().map(bring_job));
    jobs.extend(withdrawals.iter().flat_map(withdraw_jobs));
    let steps = |heavy, n| theirs::steps(heavy, false, n);
    jobs.extend(cycles.iter().map(|heavy| pair("step", heavy, ours::steps, steps)));
    jobs.extend(refusals.iter().map(|heavy| pair("step", heavy, ours::steps, steps)));
    jobs.push(pair("step", &arrived[0], ours::steps, steps));
    let guarded = |heavy, n| theirs::steps(heavy, true, n);
    jobs.push(pair("guarded step", mixed, ours::guarded_steps, guarded));
    let asked = [mixed, closed].into_iter().chain(waiting);
    jobs.extend(asked.map(|heavy| pair("ready", heavy, ours::ready, theirs::ready)));
    jobs.extend(
        cycles.iter().filter(|heavy| !heavy.arrival.is_empty()).map(|h| door_job(h, [43, 1, 0])),
    );
    jobs.extend(arrived.iter().map(|heavy| door_job(heavy, [2, 0, 0])));
    jobs
}

struct Inputs {
    march: Heavy,
    large: Heavy,
    smallest: Heavy,
    halves: Heavy,
    checks: Vec<Heavy>,
    /// Timed in turn.
    mixed_sets: Vec<Heavy>,
    cycles: Vec<Heavy>,
    refusals: Vec<Heavy>,
    mixed: Heavy,
    closed: Heavy,
    waiting: [Heavy; 2],
    arrived: [Heavy; 2],
    withdrawals: [Heavy; 4],
}

fn main() {
    let inputs = Inputs {
        march: heavy::march(),
        large: heavy::large(),
        smallest: heavy::smallest(),
        halves: heavy::halves(),
        checks: heavy::checks(),
        mixed_sets: heavy::mixed_sets(),
        cycles: heavy::cycles(),
        refusals: heavy::refusals(),
        mixed: heavy::mixed(),
        closed: heavy::closed_doors(),
        waiting: heavy::waiting(),
        arrived: [heavy::arrived(false), heavy::arrived(true)],
        withdrawals: heavy::withdrawals(),
    };
    println!("Microseconds of processor time for a call: the median of {ROUNDS} rounds, both sides in turn.");
    println!("Both are built for release. Buffers and states are not cleared between calls.");
    println!(
        "Starting and bringing are taken off the times of engine calls. Of steps, the mean.\n"
    );
    println!("{:13} {:40} {:>11} {:>11} {:>7}", "call", "input", "ours", "reference", "ratio");
    let times: Vec<Times> = jobs(&inputs).iter().map(measure).inspect(print).collect();
    println!("\nThe largest time of each call, ours:");
    for call in CALLS {
        let of_call = times.iter().filter(|times| times.call == call);
        if let Some(worst) = of_call.max_by(|a, b| a.each[0].total_cmp(&b.each[0])) {
            println!("{:13} {:40} {:>11.3}", call, worst.input, worst.each[0]);
        }
    }
}

fn print(times: &Times) {
    let Times { call, input, each: [ours, theirs] } = times;
    println!("{call:13} {input:40} {ours:>11.3} {theirs:>11.3} {:>7.2}", ours / theirs);
}
