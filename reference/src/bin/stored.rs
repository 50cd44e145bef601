//! `stored listing|script FOLDER` writes the files `stdin` and `stdout` of a
//! stored run to FOLDER and prints what its cases cover. It fails if something
//! is not covered that must be.

use reference::cases::{frames, stored, Kind};
use std::error::Error;
use std::path::Path;

fn main() -> Result<(), Box<dyn Error>> {
    let arguments: Vec<String> = std::env::args().skip(1).collect();
    let [name, folder] = &arguments[..] else {
        return Err("usage: stored listing|script FOLDER".into());
    };
    let kind = Kind::named(name).ok_or("usage: stored listing|script FOLDER")?;
    let (cases, cover) = stored::choose(kind);
    let mut text = Vec::new();
    cases.iter().for_each(|case| frames::write_frame(&mut text, case));
    std::fs::write(Path::new(folder).join("stdin"), &text)?;
    std::fs::write(Path::new(folder).join("stdout"), frames::run(kind, &text))?;
    println!("{name}: {} cases, {} bytes", cases.len(), text.len());
    print!("{}", cover.table());
    let missing = cover.missing(kind);
    if missing.is_empty() {
        return Ok(());
    }
    Err(format!("{name}: not covered as often as it must be: {missing:?}").into())
}
