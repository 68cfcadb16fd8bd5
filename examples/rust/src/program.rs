//! What the programs of this crate share: the words of a call, a file that is loaded, and how a program ends.

use crate::*;
use std::ffi::OsStr;
use std::fs::File;
use std::io::{stderr, stdout, BufWriter, Read, Result, Write};
use std::os::unix::ffi::OsStrExt;
use std::os::unix::io::AsFd;
use std::path::Path;
use std::process::ExitCode;

/// The measure that a word names.
pub fn measure_of(word: &str) -> Option<Measure> {
    match word {
        "sum" => Some(Measure::Sum),
        "incr" => Some(Measure::Incr),
        "max" => Some(Measure::Max),
        _ => None,
    }
}

/// The number that a word is, where it is one and not too large for a node.
pub fn number_of(word: &OsStr) -> Option<u16> {
    let digits = word.as_bytes().iter().all(u8::is_ascii_digit);
    word.to_str()?.parse().ok().filter(|_| digits)
}

/// What a loaded file holds.
pub struct Filed {
    pub links: Vec<u16>,
    pub parents: Vec<u16>,
    pub entries: Vec<u64>,
    pub search: Search,
}

/// What a call says, behind what the printing of its lines says.
pub type Said = Result<std::result::Result<(), Refusal>>;

/// Says something of a name on standard error. Where that cannot be written nothing is said, and the program ends as it would.
pub fn say(name: &OsStr, what: &str) {
    let _ = stderr().write_all(&[name.as_bytes(), b": ", what.as_bytes(), b"\n"].concat());
}

/// Loads a file and prints the lines that are written of it. Says why not where the file cannot be read, or it or a call on it is
/// refused, or the lines cannot be printed; and answers how the program ends.
pub fn run(name: &Path, lines: impl FnOnce(&Filed, &mut dyn Write) -> Said) -> ExitCode {
    let file = match read_file(name) {
        Ok(file) => file,
        Err(_) => {
            say(name.as_os_str(), "cannot be read");
            return ExitCode::from(2);
        }
    };
    match load(&file).map_or_else(|refusal| Ok(Err(refusal)), |filed| print(&filed, lines)) {
        Ok(Ok(())) => ExitCode::SUCCESS,
        Ok(Err(refusal)) => {
            say(name.as_os_str(), &refusal.to_string());
            ExitCode::from(1)
        }
        Err(_) => {
            say(OsStr::new("standard output"), "cannot be written");
            ExitCode::from(2)
        }
    }
}

/// A file, or its first bytes where it has more than any stored file.
fn read_file(name: &Path) -> Result<Vec<u8>> {
    let mut file = Vec::new();
    File::open(name)?
        .take(FILE_BYTES as u64 + 1)
        .read_to_end(&mut file)?;
    Ok(file)
}

fn load(file: &[u8]) -> std::result::Result<Filed, Refusal> {
    let mut links = vec![0; LINKS * LINK_NUMBERS];
    let mut parents = vec![0; NODES];
    let mut entries = vec![0; NODES * ENTRY_NUMBERS];
    let header = read(file, &mut links, &mut parents, &mut entries)?;
    links.truncate(header.links * LINK_NUMBERS);
    parents.truncate(header.nodes);
    entries.truncate(header.nodes * ENTRY_NUMBERS);
    Ok(Filed {
        links,
        parents,
        entries,
        search: header.search,
    })
}

fn print(filed: &Filed, lines: impl FnOnce(&Filed, &mut dyn Write) -> Said) -> Said {
    // As a file, so that no error of a write is passed over.
    let mut out = BufWriter::new(File::from(stdout().as_fd().try_clone_to_owned()?));
    let said = lines(filed, &mut out)?;
    out.flush()?;
    Ok(said)
}
