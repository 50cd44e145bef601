//! `lotrun [FILE]`: net, a row `.`, estimate, a row `.`, commands from a file
//! or from standard input; one row for each command as soon as it is there, then
//! the state, on standard output.

use reference::{script, streams};
use std::error::Error;
use std::io::BufReader;

fn main() -> Result<(), Box<dyn Error>> {
    let input = streams::input(std::env::args_os().skip(1))?;
    Ok(script::run_to(BufReader::new(input), &mut streams::output()?)?)
}
