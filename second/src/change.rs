//! Changing one link, with the entries on its tree path worked out afresh.

use crate::check::{check, check_rows, is_mark, is_short};
use crate::limits::*;
use crate::network::{Link, Rows};
use crate::refusal::{refuse, Refusal, Why};
use crate::table::{check_room, store, Search};
use crate::terms::Terms;
use crate::tree::Tree;

/// A change: the link, its new service mark and its new length.
#[derive(Clone, Copy, PartialEq, Eq, Debug)]
pub struct Change {
    pub link: u16,
    pub mark: u16,
    pub length: u16,
}

/// Refusals 11, 6, 12, 13, in this order, on a checked network.
pub fn verdict(rows: &Rows, tree: &Tree, change: &Change) -> Result<(), Refusal> {
    let net = rows.lend();
    let e = change.link as usize;
    if e >= net.m() {
        return refuse(Why::NoSuchLink, 0);
    }
    if !is_mark(change.mark) {
        return refuse(Why::Mark, e);
    }
    if rows.parents.contains(&change.link) {
        return refuse(Why::TreeLink, e);
    }
    let short = is_short(tree, net.link(e).ends, change.length);
    if change.mark == IN_SERVICE && !short {
        return refuse(Why::ChangeShortness, e);
    }
    Ok(())
}

/// Stores the record that the change gives its link.
pub fn set(rows: &mut Rows, change: &Change) {
    let e = change.link as usize;
    let new = Link {
        ends: rows.lend().link(e).ends,
        length: change.length,
        mark: change.mark,
    };
    rows.set_link(e, new);
}

/// The nodes whose tree link lies on the tree path between the two ends:
/// those x that have exactly one of them in T(x).
pub fn path(tree: &Tree, ends: [u16; 2]) -> Vec<usize> {
    let [a, b] = ends.map(usize::from);
    (0..tree.parent.len())
        .filter(|&x| tree.is_below(a, x) != tree.is_below(b, x))
        .collect()
}

/// Changes one link's record and the entries on its path; nothing else lent
/// is written. A refusal changes nothing.
pub fn change(
    rows: &mut Rows,
    terms: Terms,
    row: &mut [u64],
    change: &Change,
) -> Result<(), Refusal> {
    let tree = check(&rows.lend(), terms)?;
    check_room(rows.parents.len(), row)?;
    verdict(rows, &tree, change)?;
    set(rows, change);
    let net = rows.lend();
    let ends = net.link(change.link as usize).ends;
    let tree = check_rows(&net).expect("the changed network is sound");
    let search = Search::new(&net, &tree, terms);
    for x in path(&tree, ends) {
        store(row, x, &search.entry(x));
    }
    Ok(())
}
