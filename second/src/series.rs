//! Series of changes: their form, and what must be printed after each change.
//! The table is worked out afresh each time; nothing is mended.

use crate::answers::lent_row;
use crate::change::{set, verdict, Change};
use crate::check::check;
use crate::limits::*;
use crate::network::Rows;
use crate::probe::take_words;
use crate::refusal::Refusal;
use crate::table::table;
use crate::terms::Terms;

/// A network, the terms of its table, and changes in their order.
#[derive(Clone, PartialEq, Eq, Debug)]
pub struct Series {
    pub rows: Rows,
    pub terms: Terms,
    pub changes: Vec<Change>,
}

impl Series {
    /// The series as an input.
    pub fn encode(&self) -> Vec<u8> {
        let Series {
            rows,
            terms,
            changes,
        } = self;
        let (n, m) = (rows.parents.len(), rows.lend().m());
        let [n, m, count] = [n, m, changes.len()].map(|count| count as u16);
        let mut words = vec![n, m, rows.root, terms.depth, count, terms.rule];
        words.extend(rows.parents.iter().chain(&rows.links));
        words.extend(changes.iter().flat_map(|c| [c.link, c.mark, c.length]));
        words.iter().flat_map(|w| w.to_be_bytes()).collect()
    }

    /// The series that an input is; none where a limit is passed or the input
    /// is shorter or longer.
    pub fn decode(mut input: &[u8]) -> Option<Series> {
        let head = take_words(&mut input, SERIES_HEAD)?;
        let [n, m, count] = [head[0], head[1], head[4]].map(usize::from);
        if n > MOST_NODES || m > MOST_LINKS || count > MOST_CHANGES {
            return None;
        }
        let parents = take_words(&mut input, n)?;
        let links = take_words(&mut input, m * LINK_WIDTH)?;
        let changes = take_words(&mut input, count * CHANGE_WORDS)?;
        let change = |words: &[u16]| Change {
            link: words[0],
            mark: words[1],
            length: words[2],
        };
        input.is_empty().then(|| Series {
            rows: Rows {
                parents,
                links,
                root: head[2],
            },
            terms: Terms {
                depth: head[3],
                rule: head[5],
            },
            changes: changes.chunks(CHANGE_WORDS).map(change).collect(),
        })
    }
}

/// All that must be printed for an input.
pub fn lines(input: &[u8]) -> String {
    match Series::decode(input) {
        Some(series) => answers(&series),
        None => "refused\n".to_string(),
    }
}

fn answers(series: &Series) -> String {
    let mut rows = series.rows.clone();
    let mut row = match fresh(&rows, series.terms) {
        Ok(row) => row,
        Err(refusal) => return refusal.words() + "\n",
    };
    let mut text = String::new();
    for change in &series.changes {
        let answer = change_record(&mut rows, series.terms, change);
        if answer.is_ok() {
            row = fresh(&rows, series.terms).expect("the changed network is sound");
        }
        text += &line(answer, &rows.links, &row);
    }
    text
}

/// A lent row with room to spare, and the table worked out into it.
pub fn fresh(rows: &Rows, terms: Terms) -> Result<Vec<u64>, Refusal> {
    let mut row = lent_row(ENTRY_WIDTH * (rows.parents.len() + SPARE_ENTRIES));
    table(&rows.lend(), terms, &mut row)?;
    Ok(row)
}

/// The change in the network alone. A refusal changes nothing.
fn change_record(rows: &mut Rows, terms: Terms, change: &Change) -> Result<(), Refusal> {
    let tree = check(&rows.lend(), terms)?;
    verdict(rows, &tree, change)?;
    set(rows, change);
    Ok(())
}

/// The line of a change: its answer, and the mix of both rows.
pub fn line(answer: Result<(), Refusal>, links: &[u16], row: &[u64]) -> String {
    let said = answer.map_or_else(|refusal| refusal.words(), |()| "ok".to_string());
    let numbers = links
        .iter()
        .map(|&w| u64::from(w))
        .chain(row.iter().copied());
    format!("{said} {}\n", mix(numbers))
}

/// One number that all of them go into, in their order.
fn mix(numbers: impl Iterator<Item = u64>) -> u64 {
    numbers.fold(0, |sum, x| (sum * MIX_FACTOR + x % MIX_PRIME) % MIX_PRIME)
}
