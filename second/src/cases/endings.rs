//! How an input ends. The probe stops at `unknown`, at `too long` and inside
//! a case, so an input has one of these at most, and at its end.

use crate::harbour::harbour;
use crate::limits::*;
use crate::probe::*;

/// The number of endings. The seed modulo this number chooses one.
pub const ENDINGS: u64 = 25;

/// The ending of a seed.
pub fn ending(seed: u64) -> Vec<u8> {
    let whole = Case::over(CHECK, &harbour(), WHOLE, 0).encode();
    let file = Case::over_bytes(READ, &[BYTE_FILL; 9], [0; 3]).encode();
    match seed % ENDINGS {
        0 => Vec::new(),
        1 => whole[..1].to_vec(),
        2 => whole[..2 * HEAD_WORDS - 1].to_vec(),
        3 => whole[..2 * HEAD_WORDS].to_vec(),
        4 => whole[..whole.len() - 1].to_vec(),
        5 => file[..file.len() - 1].to_vec(),
        6 => stops(&whole, |head| head.op = 0),
        7 => stops(&whole, |head| head.op = FORWARD + 1),
        8 => stops(&whole, |head| {
            head.op = 65_535;
            head.parents = PROBE_PARENTS + 1;
        }),
        9 => stops(&whole, |head| head.parents = PROBE_PARENTS + 1),
        10 => stops(&whole, |head| head.rest = PROBE_LINKS + 1),
        11 => stops(&whole, |head| head.room = PROBE_ROOM + 1),
        12 => stops(&whole, |head| read_rooms(head, [PROBE_LINKS + 1, 0, 0])),
        13 => stops(&whole, |head| read_rooms(head, [0, PROBE_PARENTS + 1, 0])),
        14 => stops(&whole, |head| read_rooms(head, [0, 0, PROBE_ROOM + 1])),
        15 => stops(&whole, |head| {
            head.op = PAYLOAD_OF;
            head.rest = PROBE_BYTES + 1;
        }),
        16 => stops(&whole, |head| head.op = ROUTE - 1),
        17 => stops(&whole, |head| head.op = NODE + 1),
        18 => stops(&whole, |head| {
            head.op = ROUTE;
            head.room = PROBE_ROOM + 1;
        }),
        19 => stops(&whole, |head| {
            head.op = MEET;
            head.rest = PROBE_LINKS + 1;
        }),
        20 => stops(&whole, |head| {
            head.op = NODE;
            head.parents = PROBE_PARENTS + 1;
        }),
        21 => stops(&whole, |head| {
            forward_rooms(head, [PROBE_ROUTE + 1, ROUTE_ROW])
        }),
        22 => stops(&whole, |head| {
            forward_rooms(head, [ROUTE_ROW, PROBE_ROUTE + 1])
        }),
        23 => stops(&whole, |head| {
            forward_rooms(head, [PROBE_ROUTE; 2]);
            head.parents = PROBE_PARENTS + 1;
        }),
        _ => {
            let room = two_rooms([ROUTE_ROW; 2]);
            let way = Case::over(FORWARD, &harbour(), WHOLE, room).encode();
            way[..way.len() - 1].to_vec()
        }
    }
}

fn read_rooms(head: &mut Head, rooms: [usize; 3]) {
    head.op = READ;
    head.abc = rooms.map(|room| room as u16);
}

fn forward_rooms(head: &mut Head, rooms: [usize; 2]) {
    head.op = FORWARD;
    head.room = two_rooms(rooms);
}

/// A head that stops the probe, with a sound case behind it that is not read.
fn stops(whole: &[u8], change: impl Fn(&mut Head)) -> Vec<u8> {
    let mut head = Case::over(CHECK, &harbour(), WHOLE, 0).head();
    change(&mut head);
    let mut out = head.encode();
    out.extend(whole);
    out
}
