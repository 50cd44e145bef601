//! `lotcheck [FILE]`: net, a row `.`, estimate from a file or from standard
//! input; the listing on standard output.

use reference::{listing, streams};
use std::error::Error;
use std::io::{Read, Write};

fn main() -> Result<(), Box<dyn Error>> {
    let mut input = Vec::with_capacity(listing::MAX_INPUT + 1);
    let source = streams::input(std::env::args_os().skip(1))?;
    source.take(listing::MAX_INPUT as u64 + 1).read_to_end(&mut input)?;
    Ok(streams::output()?.write_all(&listing::list(&input))?)
}
