//! What the probe must print for each case.

use crate::block::payload;
use crate::change::{change, Change};
use crate::check::check;
use crate::file::write;
use crate::forward::{forward, Asked, Kind, Told, NAMED_MEASURES};
use crate::limits::*;
use crate::map::map;
use crate::probe::*;
use crate::reader::{read, Said};
use crate::refusal::Refusal;
use crate::routes::{meet_of, route, tree_distance, Route};
use crate::table::{check_entry, entry_of, table};
use std::fmt::{Display, Write};

/// The last line of most answers: nothing past the answer is ever written.
const REST: &str = "rest kept\n";
const LINKS: &str = "links kept\n";
/// The last lines of op 9: a row keeps what the forwarder does not put there.
const BOTH_ROWS: &str = "ordinary kept\ndetour kept\n";

/// All that the probe must print for an input.
pub fn answers(input: &[u8]) -> String {
    parts(input).iter().map(|part| part.text.as_str()).collect()
}

/// A part of an input, a case or what ends it, and what must be printed for it.
struct Part<'a> {
    bytes: &'a [u8],
    text: String,
}

fn parts(mut input: &[u8]) -> Vec<Part<'_>> {
    let mut list = Vec::new();
    loop {
        let before = input;
        let (text, ends) = match next(&mut input) {
            Next::Case(case) => (answer(&case), false),
            Next::Unknown => ("unknown\n".to_string(), true),
            Next::TooLong => ("too long\n".to_string(), true),
            Next::End => (String::new(), true),
        };
        let bytes = match ends {
            true => before,
            false => &before[..before.len() - input.len()],
        };
        list.push(Part { bytes, text });
        if ends {
            return list;
        }
    }
}

/// The first case for which something else was printed than must be: its
/// number from 0, its bytes, what must be printed and what is.
pub fn first_difference(input: &[u8], printed: &str) -> Option<String> {
    let list = parts(input);
    let mut rest = printed;
    for (i, part) in list.iter().enumerate() {
        let last = i + 1 == list.len();
        match rest.strip_prefix(part.text.as_str()) {
            Some(more) if !last || more.is_empty() => rest = more,
            _ => {
                let lines: Vec<&str> = rest.lines().take(part.text.lines().count() + 1).collect();
                return Some(format!(
                    "case {i}\n{}must print\n{}prints\n{}\n",
                    byte_lines(part.bytes),
                    part.text,
                    lines.join("\n"),
                ));
            }
        }
    }
    None
}

/// What the probe must print for one case.
pub fn answer(case: &Case) -> String {
    match case.op {
        CHECK => check_answer(case),
        TABLE => table_answer(case),
        MAP => map_answer(case),
        CHANGE => change_answer(case),
        CHANGE_UNFILLED => unfilled_answer(case),
        WRITE => write_answer(case),
        READ => read_answer(case),
        PAYLOAD_OF => block_answer(case),
        FORWARD => forward_answer(case),
        ROUTE => route_answer(case),
        DISTANCE => distance_answer(case),
        MEET => meet_answer(case),
        ENTRY => entry_answer(case),
        _ => node_answer(case),
    }
}

fn refused(call: &str, refusal: &Refusal) -> String {
    format!("{call} {}\n", refusal.words())
}

/// `ok`, or the refusal, of a call that answers nothing more.
fn verdict(call: &str, answer: Result<(), Refusal>) -> String {
    match answer {
        Ok(()) => format!("{call} ok\n"),
        Err(refusal) => refused(call, &refusal),
    }
}

/// `ok` and a number, or the refusal.
fn number(call: &str, answer: Result<impl Display, Refusal>) -> String {
    match answer {
        Ok(number) => format!("{call} ok {number}\n"),
        Err(refusal) => refused(call, &refusal),
    }
}

/// Numbers with a space before each.
fn spaced<T: ToString>(numbers: &[T]) -> String {
    numbers
        .iter()
        .map(|w| format!(" {}", w.to_string()))
        .collect()
}

/// The line of node x: the node, then the entry's numbers.
fn entry_line(x: usize, entry: &[u64]) -> String {
    format!("{x}{}\n", spaced(entry))
}

/// The entry lines of the first `count` entries.
fn entry_lines(row: &[u64], count: usize) -> String {
    let entries = row.chunks_exact(ENTRY_WIDTH).take(count).enumerate();
    entries.map(|(x, entry)| entry_line(x, entry)).collect()
}

/// The link lines of the first `count` links.
fn link_lines(row: &[u16], count: usize) -> String {
    let links = row.chunks_exact(LINK_WIDTH).take(count);
    links
        .map(|link| format!("link{}\n", spaced(link)))
        .collect()
}

fn byte_lines(bytes: &[u8]) -> String {
    let mut text = String::new();
    for line in bytes.chunks(BYTES_A_LINE) {
        for byte in line {
            write!(text, "{byte:02x}").expect("a string takes all");
        }
        text.push('\n');
    }
    text
}

/// A lent row before anything is written.
pub fn lent_row(room: usize) -> Vec<u64> {
    vec![u64::from(ROW_FILL); room]
}

fn check_answer(case: &Case) -> String {
    let rows = case.rows();
    verdict("check", check(&rows.lend(), case.terms()).map(|_| ()))
}

fn table_answer(case: &Case) -> String {
    let rows = case.rows();
    let mut row = lent_row(case.room);
    let answer = table(&rows.lend(), case.terms(), &mut row);
    let count = answer.map_or(0, |()| rows.parents.len());
    verdict("table", answer) + &entry_lines(&row, count) + REST
}

fn map_answer(case: &Case) -> String {
    let rows = case.rows();
    let mut row = lent_row(case.room);
    let line = match map(&rows.lend(), case.terms(), &mut row) {
        Ok(map) => {
            let words = spaced(&row[..MAP_WORDS]);
            format!("map ok {} {}{words}\n", map.count, map.lowest)
        }
        Err(refusal) => refused("map", &refusal),
    };
    line + REST
}

fn change_answer(case: &Case) -> String {
    let mut row = lent_row(case.room);
    match table(&case.rows().lend(), case.terms(), &mut row) {
        Ok(()) => changed(case, &mut row, case.parents.len()),
        Err(refusal) => refused("table", &refusal),
    }
}

fn unfilled_answer(case: &Case) -> String {
    let mut row = lent_row(case.room);
    let count = case.parents.len().min(case.room / ENTRY_WIDTH);
    changed(case, &mut row, count)
}

/// The answer of the change, then link, entries, links, rest.
fn changed(case: &Case, row: &mut [u64], count: usize) -> String {
    let [link, mark, length] = case.abc;
    let wanted = Change { link, mark, length };
    let mut rows = case.rows();
    let answer = change(&mut rows, case.terms(), row, &wanted);
    let mut text = verdict("change", answer);
    if (link as usize) < rows.lend().m() {
        text += &link_lines(&rows.links[LINK_WIDTH * link as usize..], 1);
    }
    text + &entry_lines(row, count) + LINKS + REST
}

fn write_answer(case: &Case) -> String {
    let rows = case.rows();
    let mut room = vec![BYTE_FILL; case.room];
    let text = match write(&rows.lend(), case.depth, &mut room) {
        Ok(length) => format!("write ok {length}\n{}", byte_lines(&room[..length])),
        Err(refusal) => refused("write", &refusal),
    };
    text + REST
}

fn read_answer(case: &Case) -> String {
    let [a, b, c] = case.abc.map(usize::from);
    let mut links = vec![ROW_FILL; a];
    let mut parents = vec![ROW_FILL; b];
    let mut row = lent_row(c);
    let text = match read(&case.bytes, &mut links, &mut parents, &mut row) {
        Ok(said) => read_lines(&said, &links, &parents, &row),
        Err(refusal) => refused("read", &refusal),
    };
    text + REST
}

fn read_lines(said: &Said, links: &[u16], parents: &[u16], row: &[u64]) -> String {
    let Said { n, m, root, depth } = *said;
    format!("read ok {n} {m} {root} {depth}\n")
        + &link_lines(links, m)
        + &format!("parents{}\n", spaced(&parents[..n]))
        + &entry_lines(row, n)
}

fn block_answer(case: &Case) -> String {
    let [kind, number, used] = case.abc;
    match payload(&case.bytes, kind, number, used) {
        Ok(part) => "block ok\n".to_string() + &byte_lines(part),
        Err(refusal) => refused("block", &refusal),
    }
}

fn forward_answer(case: &Case) -> String {
    let rows = case.rows();
    let [start, failed, c] = case.abc;
    let asked = Asked {
        start,
        failed,
        measure: NAMED_MEASURES[usize::from(c) % MEASURES].1,
    };
    let [mut ordinary, mut detour] = rooms_of(case.room).map(|room| vec![ROW_FILL; room]);
    let lent = [&mut ordinary[..], &mut detour[..]];
    let text = match forward(&rows.lend(), case.terms(), &asked, lent) {
        Ok(Told { kind, count, .. }) => {
            let row = match kind {
                Kind::Ordinary => ordinary,
                Kind::Detour => detour,
            };
            let nodes = spaced(&row[..count]);
            format!("forward ok {}\nroute{nodes}\n", kind.word())
        }
        Err(refusal) => refused("forward", &refusal),
    };
    text + BOTH_ROWS
}

fn route_answer(case: &Case) -> String {
    let rows = case.rows();
    let mut row = vec![ROW_FILL; case.room];
    let text = match route(&rows.lend(), case.abc[0], &mut row) {
        Ok(Route { length, count }) => {
            let nodes = spaced(&row[..count]);
            format!("route ok {length}\nnodes{nodes}\n")
        }
        Err(refusal) => refused("route", &refusal),
    };
    text + REST
}

fn distance_answer(case: &Case) -> String {
    let [a, b, _] = case.abc;
    number("distance", tree_distance(&case.rows().lend(), a, b))
}

fn meet_answer(case: &Case) -> String {
    let [a, b, _] = case.abc;
    number("meet", meet_of(&case.rows().lend(), a, b))
}

fn entry_answer(case: &Case) -> String {
    let a = case.abc[0];
    match entry_of(&case.rows().lend(), case.terms(), a) {
        Ok(entry) => "entry ok\n".to_string() + &entry_line(usize::from(a), &entry.numbers()),
        Err(refusal) => refused("entry", &refusal),
    }
}

fn node_answer(case: &Case) -> String {
    let answer = check_entry(&case.rows().lend(), case.terms(), case.abc[0]);
    verdict("node", answer.map(|_| ()))
}
