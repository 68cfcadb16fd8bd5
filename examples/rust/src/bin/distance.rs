//! `distance FILE FROM TO`: prints the length of the tree path between two nodes in the network of a stored file, as
//! `examples/distance.c` does.

use doeragyeol::distance;
use doeragyeol::program::{number_of, run, say, Filed, Said};
use std::ffi::{OsStr, OsString};
use std::io::Write;
use std::path::Path;
use std::process::ExitCode;

fn main() -> ExitCode {
    let words: Vec<OsString> = std::env::args_os().skip(1).collect();
    if let [name, from, to] = &words[..] {
        if let (Some(from), Some(to)) = (number_of(from), number_of(to)) {
            return run(Path::new(name), |filed, out| line(filed, from, to, out));
        }
    }
    say(OsStr::new("usage"), "distance FILE FROM TO");
    ExitCode::from(2)
}

/// The line of the length, or why it is refused.
fn line(filed: &Filed, from: u16, to: u16, out: &mut dyn Write) -> Said {
    match distance(&filed.links, &filed.parents, filed.search.root, from, to) {
        Ok(length) => writeln!(out, "distance {length}")?,
        Err(refusal) => return Ok(Err(refusal)),
    }
    Ok(Ok(()))
}
