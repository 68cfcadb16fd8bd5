//! The network that a stored file holds, the way to the root on it, and the
//! length of a tree path.

use crate::forward::{forward, Asked, Kind, Told};
use crate::limits::*;
use crate::network::Rows;
use crate::reader::{read, Said};
use crate::refusal::{refuse, Refusal, Why};
use crate::routes::tree_distance;

/// What an accepted file holds: its numbers, its network, its entries.
pub struct Filed {
    pub said: Said,
    pub rows: Rows,
    pub entries: Vec<u64>,
}

/// What a file holds. One that is too long to be listed is 20.
pub fn filed(file: &[u8]) -> Result<Filed, Refusal> {
    if file.len() > LONGEST_LISTED {
        return refuse(Why::FileLength, 0);
    }
    let mut links = vec![0; LINK_WIDTH * MOST_LINKS];
    let mut parents = vec![0; MOST_NODES];
    let mut entries = vec![0; ENTRY_WIDTH * MOST_NODES];
    let said = read(file, &mut links, &mut parents, &mut entries)?;
    links.truncate(LINK_WIDTH * said.m);
    parents.truncate(said.n);
    let rows = Rows {
        parents,
        links,
        root: said.root,
    };
    Ok(Filed {
        said,
        rows,
        entries,
    })
}

/// The line of a way on the network of a file: which way it is, its nodes and
/// its length; or of a refusal, the file's or the forwarder's.
pub fn way_line(file: &[u8], asked: &Asked) -> String {
    line(way_words(file, asked))
}

/// The line of a tree path between two nodes on the network of a file: its
/// length; or of a refusal, the file's or the tree's.
pub fn distance_line(file: &[u8], from: u16, to: u16) -> String {
    line(distance_words(file, from, to))
}

fn line(words: Result<String, Refusal>) -> String {
    words.unwrap_or_else(|refusal| refusal.words()) + "\n"
}

fn way_words(file: &[u8], asked: &Asked) -> Result<String, Refusal> {
    let Filed { said, rows, .. } = filed(file)?;
    let (mut ordinary, mut detour) = ([0; ROUTE_ROW], [0; ROUTE_ROW]);
    let lent = [&mut ordinary[..], &mut detour[..]];
    let Told {
        kind,
        count,
        length,
    } = forward(&rows.lend(), said.terms(), asked, lent)?;
    let row = match kind {
        Kind::Ordinary => ordinary,
        Kind::Detour => detour,
    };
    let nodes: Vec<String> = row[..count].iter().map(u16::to_string).collect();
    Ok(format!(
        "{} {} length {length}",
        kind.word(),
        nodes.join(" ")
    ))
}

fn distance_words(file: &[u8], from: u16, to: u16) -> Result<String, Refusal> {
    let Filed { rows, .. } = filed(file)?;
    let length = tree_distance(&rows.lend(), from, to)?;
    Ok(format!("distance {length}"))
}
