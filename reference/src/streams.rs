//! What the programs read and write. Standard input and output are taken as
//! files: `Stdin` and `Stdout` take a read or write that fails because the file
//! is not open for it for the end of the input and for a success.

use std::error::Error;
use std::ffi::OsString;
use std::fs::File;
use std::io;
use std::os::fd::AsFd;

/// The file that the only argument names, or standard input without arguments.
pub fn input(arguments: impl Iterator<Item = OsString>) -> Result<File, Box<dyn Error>> {
    let arguments: Vec<OsString> = arguments.collect();
    match &arguments[..] {
        [] => Ok(File::from(io::stdin().as_fd().try_clone_to_owned()?)),
        [path] => {
            let named = |error| format!("{}: {error}", path.display());
            Ok(File::open(path).map_err(named)?)
        }
        _ => Err("at most one argument, the file to read".into()),
    }
}

pub fn output() -> io::Result<File> {
    Ok(File::from(io::stdout().as_fd().try_clone_to_owned()?))
}
