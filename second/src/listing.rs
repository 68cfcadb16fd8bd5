//! The listing of a stored file.

use crate::filed::{filed, Filed};
use crate::limits::*;
use crate::map::map;
use crate::network::Rows;
use crate::reader::Said;
use crate::refusal::Refusal;
use crate::table::State;

const SWAP: u64 = State::Swap as u64;
const BEYOND: u64 = State::Beyond as u64;

/// The listing, or the one line of a refused file.
pub fn listing(file: &[u8]) -> String {
    match accepted(file) {
        Ok(text) => text,
        Err(refusal) => format!("{}\n", refusal.words()),
    }
}

fn accepted(file: &[u8]) -> Result<String, Refusal> {
    let Filed {
        said,
        rows,
        entries,
    } = filed(file)?;
    let mut text = first_line(&said);
    for x in (0..said.n).filter(|&x| x != said.root as usize) {
        let entry = &entries[ENTRY_WIDTH * x..ENTRY_WIDTH * (x + 1)];
        text += &format!("{} {} {}\n", x, rows.parents[x], entry_words(entry));
    }
    Ok(text + &last_line(&rows, &said)?)
}

fn first_line(said: &Said) -> String {
    let depth = match said.depth {
        WHOLE => "whole".to_string(),
        hops => hops.to_string(),
    };
    format!(
        "nodes {} links {} root {} depth {}\n",
        said.n, said.m, said.root, depth
    )
}

/// The state word, and for a swap the link and cost for sum, incr, max.
fn entry_words(entry: &[u64]) -> String {
    match entry[0] {
        SWAP => {
            let [links, costs] = [&entry[1..4], &entry[4..7]];
            let pairs = links.iter().zip(costs);
            pairs.fold("swap".to_string(), |text, (link, cost)| {
                format!("{text} {link} {cost}")
            })
        }
        BEYOND => "none".to_string(),
        _ => "bridge".to_string(),
    }
}

fn last_line(rows: &Rows, said: &Said) -> Result<String, Refusal> {
    let map = map(&rows.lend(), said.terms(), &mut [0; MAP_WORDS])?;
    let lowest = match map.lowest {
        NO_NODE => "-".to_string(),
        node => node.to_string(),
    };
    Ok(format!("unprotected {} lowest {}\n", map.count, lowest))
}
