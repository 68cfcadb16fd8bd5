//! `forward FILE START FAILED MEASURE`: prints the way from a start to the root while the tree link of the failed node is down, as
//! `examples/forward.c` does.

use doeragyeol::program::{measure_of, number_of, run, say, Filed, Said};
use doeragyeol::*;
use std::ffi::{OsStr, OsString};
use std::io::Write;
use std::path::Path;
use std::process::ExitCode;

fn main() -> ExitCode {
    let words: Vec<OsString> = std::env::args_os().skip(1).collect();
    if let [name, start, failed, measure] = &words[..] {
        if let Some(failure) = failure_of(start, failed, measure) {
            return run(Path::new(name), |filed, out| line(filed, failure, out));
        }
    }
    say(
        OsStr::new("usage"),
        "forward FILE START FAILED sum|incr|max",
    );
    ExitCode::from(2)
}

/// What three words ask.
fn failure_of(start: &OsStr, failed: &OsStr, measure: &OsStr) -> Option<Failure> {
    Some(Failure {
        start: number_of(start)?,
        failed: number_of(failed)?,
        measure: measure_of(&measure.to_string_lossy())?,
    })
}

/// The line of the way, or why it is refused.
fn line(filed: &Filed, failure: Failure, out: &mut dyn Write) -> Said {
    let (mut ordinary, mut detour) = ([0; ROUTE_ROW], [0; ROUTE_ROW]);
    let asked = forward(
        &filed.links,
        &filed.parents,
        filed.search,
        failure,
        &mut ordinary,
        &mut detour,
    );
    let way = match asked {
        Ok(way) => way,
        Err(refusal) => return Ok(Err(refusal)),
    };
    match way.row {
        Row::Ordinary => write!(out, "ordinary")?,
        Row::Detour => write!(out, "detour")?,
    }
    for node in way.nodes {
        write!(out, " {node}")?;
    }
    writeln!(out, " length {}", way.length)?;
    Ok(Ok(()))
}
