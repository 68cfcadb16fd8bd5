//! Cases of the tie rule: networks on which the two rules choose apart, changes
//! that make and end a tie, rules that are none, alone and with every other
//! fault, and ops that do not look at the rule.

use super::networks::need;
use super::{changes, entries, files, forwards};
use crate::check::check;
use crate::faults::{Faulty, NETWORK_FAULTS};
use crate::file::stored;
use crate::file_faults::{sound_file, Lent};
use crate::harbour::harbour;
use crate::limits::*;
use crate::named::small;
use crate::network::Rows;
use crate::probe::*;
use crate::quay::quay;
use crate::refusal::Why;
use crate::rng::Rng;
use crate::table;
use crate::terms::Terms;
use crate::ties::{doubled_quay, ladder, parting, tied, untied_quay};

/// The two rules.
const BOTH: [u16; 2] = [LOWEST_NUMBER, NEARER_FIRST];
/// Rules that are none: next to the two, the two in a low byte, the largest.
const NO_RULES: [u16; 4] = [2, 256, 257, 65_535];

/// The chosen cases of an op, which are kept with the probe.
pub fn chosen(op: u16) -> Vec<Case> {
    match op {
        CHECK | MAP => [searches(op), refused(op), together(op)].concat(),
        TABLE => [searches(op), near(), refused(op), together(op)].concat(),
        CHANGE | CHANGE_UNFILLED => [changed(op), changed_together(op), together(op)].concat(),
        WRITE => [searches(op), refused(op)].concat(),
        READ => read(),
        PAYLOAD_OF => payloads(),
        FORWARD => [ways(), ways_together(), together(op)].concat(),
        ENTRY | NODE => [nodes(op), refused(op), together(op)].concat(),
        _ => [searches(op), refused(op)].concat(),
    }
}

/// All fixed cases of an op: the chosen ones, and rule 1 on every small network.
pub fn fixed(op: u16) -> Vec<Case> {
    let mut cases = chosen(op);
    for named in small() {
        for depth in [WHOLE, 1] {
            cases.extend(asked(op, &named.rows, depth, NEARER_FIRST));
        }
    }
    cases
}

/// A case of an op over a network by a rule, none of an op over bytes. A change
/// sets the last link as it stands; what is asked is node 1.
fn asked(op: u16, rows: &Rows, depth: u16, rule: u16) -> Option<Case> {
    let case = match op {
        READ | PAYLOAD_OF => return None,
        CHANGE | CHANGE_UNFILLED => changes::case(op, rows, depth, as_it_stands(rows)),
        FORWARD => forwards::case(rows, depth, [1, 1, 2]),
        ROUTE | DISTANCE | MEET | ENTRY | NODE => {
            let mut case = entries::case(op, rows, depth, 1);
            case.room = rows.parents.len();
            case
        }
        _ => Case::over(op, rows, depth, need(op, rows)),
    };
    Some(case.by(rule))
}

/// The last link with its mark and its length; link 0 where there is none.
fn as_it_stands(rows: &Rows) -> changes::Words {
    match rows.lend().m().checked_sub(1) {
        Some(last) => {
            let link = rows.lend().link(last);
            [last as u16, link.mark, link.length]
        }
        None => [0, IN_SERVICE, 0],
    }
}

/// Every network with ties by both rules.
fn searches(op: u16) -> Vec<Case> {
    let by_both = |rows: Rows| BOTH.map(|rule| asked(op, &rows, WHOLE, rule));
    let cases = tied().into_iter().flat_map(|named| by_both(named.rows));
    cases.flatten().collect()
}

/// Depths at which there is a tie, and at which there is none.
fn near() -> Vec<Case> {
    let mut cases = Vec::new();
    for rows in [quay(), parting(), ladder()] {
        for depth in [0, 1, 2, 3] {
            cases.extend(
                BOTH.iter()
                    .filter_map(|&rule| asked(TABLE, &rows, depth, rule)),
            );
        }
    }
    cases
}

/// Rules that are none, on a sound network; with room and without.
fn refused(op: u16) -> Vec<Case> {
    let wrong = NO_RULES.iter();
    let quays = wrong.filter_map(|&rule| asked(op, &quay(), WHOLE, rule));
    let mut cases: Vec<Case> = quays.collect();
    for room in [need(op, &harbour()), 0] {
        let mut case = asked(op, &harbour(), 0, 2).expect("an op over a network");
        case.room = room;
        cases.push(case);
    }
    cases
}

/// Each other fault of a network with a rule that is none, the room one number
/// short and what is asked no node; and those that come behind it also by rule 1.
fn together(op: u16) -> Vec<Case> {
    let mut rng = Rng::new(14);
    let sound = harbour();
    let mut cases = Vec::new();
    let others = NETWORK_FAULTS.iter().filter(|&&why| why != Why::Rule);
    for (i, &why) in others.enumerate() {
        let Faulty { rows, depth, .. } = Faulty::new(&sound, WHOLE).with(&mut rng, &[why]);
        let wrong = NO_RULES[i % NO_RULES.len()];
        let mut case = asked(op, &rows, depth, wrong).expect("an op over a network");
        if why as u16 > Why::Depth as u16 {
            cases.push(case.clone().by(NEARER_FIRST));
        }
        case.abc[0] = NO_NODE;
        if op != FORWARD {
            case.room = need(op, &sound).saturating_sub(1);
        }
        cases.push(case);
    }
    cases
}

/// Changes that make a tie, end one, turn it, or leave it as it is; and such that
/// are refused.
fn changed(op: u16) -> Vec<Case> {
    let list: [(Rows, &[changes::Words]); 5] = [
        (
            quay(),
            &[
                [5, 1, 2],
                [3, 1, 2],
                [5, 0, 1],
                [3, 0, 1],
                [5, 1, 1],
                [5, 1, 3],
                [5, 1, 0],
                [3, 1, 0],
            ],
        ),
        (untied_quay(), &[[5, 1, 1], [3, 1, 2], [5, 0, 2]]),
        (
            doubled_quay(),
            &[[5, 0, 1], [7, 0, 1], [7, 1, 2], [3, 0, 1]],
        ),
        (
            parting(),
            &[[5, 0, 9], [6, 0, 10], [7, 1, 10], [6, 1, 9], [4, 1, 8]],
        ),
        (ladder(), &[[11, 0, 0], [10, 1, 1], [11, 1, 1], [8, 0, 0]]),
    ];
    let mut cases = Vec::new();
    for (rows, changes) in list {
        for &words in changes {
            cases.extend(BOTH.map(|rule| changes::case(op, &rows, WHOLE, words).by(rule)));
        }
    }
    let near = [0, 2].map(|depth| changes::case(op, &quay(), depth, [5, 1, 2]));
    cases.extend(near.map(|case| case.by(NEARER_FIRST)));
    cases
}

/// Rules that are none where the change is taken, and with every fault of a
/// change: no link, a bad mark, a tree link, too short, no room.
fn changed_together(op: u16) -> Vec<Case> {
    let words = [[5, 1, 2], [7, 1, 2], [5, 2, 2], [0, 1, 1], [5, 1, 0]];
    let mut cases = Vec::new();
    for (i, words) in words.into_iter().enumerate() {
        let wrong = NO_RULES[i % NO_RULES.len()];
        let case = changes::case(op, &quay(), WHOLE, words).by(wrong);
        let mut short = case.clone();
        short.room -= 1;
        cases.extend([case, short]);
    }
    cases
}

/// The file of a network at the whole search with the table of rule 1.
fn file_by_rule_1(rows: &Rows) -> Lent {
    let (net, terms) = (rows.lend(), Terms::nearer_first(WHOLE));
    let tree = check(&net, terms).expect("the network is sound");
    let mut lent = sound_file(rows, WHOLE);
    lent.bytes = stored(&net, WHOLE, &table::entries(&net, &tree, terms));
    lent
}

/// Files of networks with ties, with the table of rule 0 and with that of rule 1,
/// whatever the rule of the case.
fn read() -> Vec<Case> {
    let mut cases = Vec::new();
    for named in tied() {
        let lents = [sound_file(&named.rows, WHOLE), file_by_rule_1(&named.rows)];
        cases.extend(
            lents
                .iter()
                .flat_map(|lent| BOTH.map(|rule| files::case(lent).by(rule))),
        );
    }
    let lent = sound_file(&quay(), WHOLE);
    cases.extend(NO_RULES.map(|rule| files::case(&lent).by(rule)));
    cases
}

/// The header's block of Harbour, whatever the rule of the case.
fn payloads() -> Vec<Case> {
    let block = sound_file(&harbour(), WHOLE).bytes[..BLOCK].to_vec();
    let asked = [u16::from(KIND_HEADER), 0, 1];
    let case = |rule: u16| Case::over_bytes(PAYLOAD_OF, &block, asked).by(rule);
    BOTH.into_iter().chain(NO_RULES).map(case).collect()
}

/// Every way past node 1 of Quay and of the path whose sum and max part, and some
/// on the ladder; by both rules, and at a depth that leaves one candidate.
fn ways() -> Vec<Case> {
    let mut list: Vec<(Rows, [u16; 3])> = Vec::new();
    for (rows, n) in [(quay(), 6), (parting(), 5)] {
        for start in 0..n {
            list.extend([0, 1, 2].map(|measure| (rows.clone(), [start, 1, measure])));
        }
    }
    for failed in [1, 2, 5, 6] {
        list.extend([0, 2].map(|measure| (ladder(), [failed, failed, measure])));
    }
    list.push((doubled_quay(), [2, 1, 0]));
    let mut cases = Vec::new();
    for (rows, words) in list {
        cases.extend(BOTH.map(|rule| forwards::case(&rows, WHOLE, words).by(rule)));
    }
    cases.extend(BOTH.map(|rule| forwards::case(&quay(), 0, [5, 1, 0]).by(rule)));
    cases
}

/// Rules that are none on a detour, on an ordinary way, and with every fault of
/// what is asked: a short row, no start, no failed node, the root, no swap link.
fn ways_together() -> Vec<Case> {
    let words = [
        [5, 1, 0],
        [4, 1, 2],
        [6, 1, 0],
        [1, 6, 0],
        [1, 0, 0],
        [2, 2, 0],
    ];
    let short = [ROUTE_ROW, ROUTE_ROW - 1];
    let mut cases = Vec::new();
    for (i, words) in words.into_iter().enumerate() {
        let wrong = NO_RULES[i % NO_RULES.len()];
        cases.push(forwards::case(&quay(), 0, words).by(wrong));
        cases.push(forwards::in_rooms(&quay(), 0, words, short).by(wrong));
    }
    cases
}

/// Every node of the networks with ties, by both rules.
fn nodes(op: u16) -> Vec<Case> {
    let mut cases = Vec::new();
    for rows in [quay(), doubled_quay(), parting(), ladder()] {
        for x in 1..rows.parents.len() as u16 {
            cases.extend(BOTH.map(|rule| entries::case(op, &rows, WHOLE, x).by(rule)));
        }
    }
    cases
}
