//! `load FILE MEASURE`: prints what a router loads from a stored file, as `examples/load.c` does.

use doeragyeol::program::{measure_of, run, say, Filed, Said};
use doeragyeol::*;
use std::ffi::{OsStr, OsString};
use std::io::Write;
use std::path::Path;
use std::process::ExitCode;

fn main() -> ExitCode {
    let words: Vec<OsString> = std::env::args_os().skip(1).collect();
    if let [name, measure] = &words[..] {
        if let Some(measure) = measure_of(&measure.to_string_lossy()) {
            return run(Path::new(name), |filed, out| lines(filed, measure, out));
        }
    }
    say(OsStr::new("usage"), "load FILE sum|incr|max");
    ExitCode::from(2)
}

/// A line for each node but the root.
fn lines(filed: &Filed, measure: Measure, out: &mut dyn Write) -> Said {
    let nodes = filed
        .parents
        .iter()
        .zip(filed.entries.chunks(ENTRY_NUMBERS));
    for (node, (parent, entry)) in nodes.enumerate() {
        if node == filed.search.root as usize {
            continue;
        }
        write!(out, "node {node} when link {parent} is down: ")?;
        match crossing(entry, measure, &filed.links) {
            Some(Crossing { link, from, to }) => {
                writeln!(out, "cross link {link} from {from} to {to}")?
            }
            None if entry[ENTRY_STATE] == STATE_NONE => writeln!(out, "no link within the depth")?,
            None => writeln!(out, "bridge")?,
        }
    }
    Ok(Ok(()))
}
