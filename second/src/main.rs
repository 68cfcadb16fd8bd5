//! The second program's command line.

use second::answers::{answers, first_difference};
use second::cases::{input, kept, largest, ops, series, tied};
use second::file::write;
use second::filed::{distance_line, way_line};
use second::forward::{Asked, NAMED_MEASURES};
use second::harbour::harbour;
use second::limits::{LONGEST_LISTED, WHOLE};
use second::listing::listing;
use second::samples::samples;
use second::series::lines;
use std::env::args_os;
use std::ffi::OsString;
use std::io::{stderr, stdin, stdout, Error, ErrorKind, Read, Result, Write};
use std::path::Path;
use std::process::ExitCode;

const USAGE: &str =
    "usage: second list | harbour | kept | largest [OP] | expect | compare PRINTED | cases OPS SEED COUNT | files DIR SEED COUNT
       second tied SEED COUNT | series SEED COUNT | series-expect
       second forward START FAILED sum|incr|max
       second distance FROM TO";

fn main() -> ExitCode {
    let words: Vec<OsString> = args_os().skip(1).collect();
    let words: Option<Vec<&str>> = words.iter().map(|word| word.to_str()).collect();
    match words.and_then(|words| run(&words)) {
        Some(Ok(())) => ExitCode::SUCCESS,
        Some(Err(error)) => {
            say(&format!("second: {error}"));
            ExitCode::FAILURE
        }
        None => {
            say(USAGE);
            ExitCode::from(2)
        }
    }
}

/// Says something on standard error, where that can be written.
fn say(what: &str) {
    let _ = writeln!(stderr(), "{what}");
}

/// The number that a word of digits is.
fn number(word: &str) -> Option<u16> {
    let digits = word.bytes().all(|byte| byte.is_ascii_digit());
    word.parse().ok().filter(|_| digits)
}

/// Runs a command; none where the words are no command.
fn run(words: &[&str]) -> Option<Result<()>> {
    match words {
        ["list"] => Some(answer_input(listing)),
        ["forward", start, failed, measure] => {
            let asked = asked(start, failed, measure)?;
            Some(answer_input(|file| way_line(file, &asked)))
        }
        ["distance", from, to] => {
            let (from, to) = (number(from)?, number(to)?);
            Some(answer_input(|file| distance_line(file, from, to)))
        }
        ["expect"] => Some(answer_input(answers)),
        ["compare", printed] => Some(compare(Path::new(printed))),
        ["series-expect"] => Some(answer_input(lines)),
        ["largest"] => Some(print(&largest(None))),
        ["largest", op] => Some(print(&largest(Some(op.parse().ok()?)))),
        ["kept"] => Some(print(&kept())),
        ["harbour"] => Some(print(&harbour_file())),
        ["cases", list, seed, count] => {
            let bytes = input(&ops(list)?, seed.parse().ok()?, count.parse().ok()?);
            Some(print(&bytes))
        }
        ["tied", seed, count] => {
            let (seed, count) = (seed.parse().ok()?, count.parse().ok()?);
            Some(print(&tied(seed, count)))
        }
        ["series", seed, count] => {
            let (seed, count) = (seed.parse().ok()?, count.parse().ok()?);
            Some(print(&series(seed, count).encode()))
        }
        ["files", dir, seed, count] => {
            let (seed, count) = (seed.parse().ok()?, count.parse().ok()?);
            Some(write_files(Path::new(dir), seed, count))
        }
        _ => None,
    }
}

/// What three words ask of the forwarder; none where they ask nothing.
fn asked(start: &str, failed: &str, measure: &str) -> Option<Asked> {
    let named = NAMED_MEASURES.iter().find(|named| named.0 == measure)?;
    Some(Asked {
        start: number(start)?,
        failed: number(failed)?,
        measure: named.1,
    })
}

fn harbour_file() -> Vec<u8> {
    let mut room = vec![0; LONGEST_LISTED];
    let length = write(&harbour().lend(), WHOLE, &mut room).expect("Harbour is sound");
    room.truncate(length);
    room
}

fn print(bytes: &[u8]) -> Result<()> {
    let mut out = stdout().lock();
    out.write_all(bytes)?;
    out.flush()
}

/// Prints what the function says of the standard input.
fn answer_input(function: impl Fn(&[u8]) -> String) -> Result<()> {
    let mut bytes = Vec::new();
    stdin().lock().read_to_end(&mut bytes)?;
    print(function(&bytes).as_bytes())
}

/// Fails with the first case of the standard input for which the file has
/// something else than must be printed.
fn compare(printed: &Path) -> Result<()> {
    let mut input = Vec::new();
    stdin().lock().read_to_end(&mut input)?;
    let printed = std::fs::read(printed)?;
    match first_difference(&input, &String::from_utf8_lossy(&printed)) {
        None => Ok(()),
        Some(text) => Err(Error::new(ErrorKind::Other, text)),
    }
}

fn write_files(dir: &Path, seed: u64, count: usize) -> Result<()> {
    std::fs::create_dir_all(dir)?;
    for (i, sample) in samples(seed, count).iter().enumerate() {
        let name = format!("{:04}-{}.swap", i + 1, sample.label);
        std::fs::write(dir.join(name), &sample.bytes)?;
    }
    Ok(())
}
