//! What the probe must print, typed out for Harbour and for inputs that stop
//! it.

mod common;

use common::*;
use second::answers::answers;
use second::probe::{Case, Head};

/// A case over Harbour at the whole search.
fn case(op: u16, room: usize, abc: [u16; 3]) -> Vec<u8> {
    let mut case = Case::over(op, &harbour(), 65_535, room);
    case.abc = abc;
    case.encode()
}

/// A case over bytes.
fn bytes(op: u16, bytes: &[u8], abc: [u16; 3]) -> Vec<u8> {
    Case::over_bytes(op, bytes, abc).encode()
}

const TABLE: &str = "0 0 65535 65535 65535 0 0 0 0 0 0
1 1 3 4 3 25 6 10 1 1 1
2 1 3 3 3 6 1 6 1 1 1
3 1 4 4 4 7 4 7 1 1 1
4 3 65535 65535 65535 0 0 0 0 0 0
";

#[test]
fn a_case_is_twelve_words_and_its_rows() {
    let right = hex("0001 0005 0000001c 00000000 0000 ffff 0000 0000 0000 0000
        ffff 0000 0001 0002 0006
        0000 0001 0002 0001  0001 0002 0003 0001  0001 0003 0001 0001
        0000 0002 0006 0001  0000 0003 0007 0001  0002 0003 0004 0001
        0000 0004 0009 0001");
    assert_eq!(case(1, 0, [0; 3]), right);
    let right = hex("0008 0000 00000003 00000000 0000 0000 0048 0001 0002 0000 a1b2c3");
    assert_eq!(bytes(8, &[0xA1, 0xB2, 0xC3], [0x48, 1, 2]), right);
}

#[test]
fn check_table_and_map() {
    assert_eq!(answers(&case(1, 0, [0; 3])), "check ok\n");
    let right = format!("table ok\n{TABLE}rest kept\n");
    for room in [50, 59, 60, 40_000] {
        assert_eq!(answers(&case(2, room, [0; 3])), right);
    }
    let short = "table refused 10 0\nrest kept\n";
    for room in [0, 35, 49] {
        assert_eq!(answers(&case(2, room, [0; 3])), short);
    }
    let right = "map ok 1 4 16 0 0 0 0 0 0 0\nrest kept\n";
    assert_eq!(answers(&case(3, 8, [0; 3])), right);
    let short = "map refused 10 0\nrest kept\n";
    assert_eq!(answers(&case(3, 7, [0; 3])), short);
}

#[test]
fn a_change_after_the_table() {
    let right = "change ok
link 2 3 2 1
0 0 65535 65535 65535 0 0 0 0 0 0
1 1 3 4 3 25 6 10 1 1 1
2 1 5 5 5 5 0 5 0 0 0
3 1 4 4 4 7 4 7 1 1 1
4 3 65535 65535 65535 0 0 0 0 0 0
links kept
rest kept
";
    assert_eq!(answers(&case(4, 51, [5, 1, 2])), right);
    let right = format!("change refused 13 5\nlink 2 3 4 1\n{TABLE}links kept\nrest kept\n");
    assert_eq!(answers(&case(4, 51, [5, 1, 1])), right);
    let right = format!("change refused 11 0\n{TABLE}links kept\nrest kept\n");
    assert_eq!(answers(&case(4, 51, [7, 1, 1])), right);
    for room in [35, 49] {
        assert_eq!(answers(&case(4, room, [5, 1, 2])), "table refused 10 0\n");
    }
}

#[test]
fn a_change_on_a_row_of_sevens() {
    let right = "change ok
link 0 2 6 0
0 7 7 7 7 7 7 7 7 7 7
1 1 4 4 4 26 6 11 1 1 1
2 1 5 5 5 7 2 7 0 0 0
3 7 7 7 7 7 7 7 7 7 7
4 7 7 7 7 7 7 7 7 7 7
links kept
rest kept
";
    for room in [50, 59, 60, 40_000] {
        assert_eq!(answers(&case(5, room, [3, 0, 6])), right);
    }
    for (room, count) in [(0, 0), (9, 0), (10, 1), (19, 1), (35, 3), (49, 4)] {
        let sevens: String = (0..count)
            .map(|x| format!("{x}{}\n", " 7".repeat(10)))
            .collect();
        let right = format!("change refused 10 0\nlink 0 2 6 1\n{sevens}links kept\nrest kept\n");
        assert_eq!(answers(&case(5, room, [3, 0, 6])), right);
    }
}

#[test]
fn write_and_read() {
    let text = answers(&case(6, 1_536, [0; 3]));
    let lines: Vec<&str> = text.lines().collect();
    assert_eq!(lines.len(), 1 + 48 + 1);
    assert_eq!(lines[0], "write ok 1536");
    assert_eq!(
        lines[1],
        "480100000001b7f1000500070000ffff00000000000000000000000000000000"
    );
    assert_eq!(lines[49], "rest kept");
    let right = "write refused 10 0\nrest kept\n";
    assert_eq!(answers(&case(6, 1_535, [0; 3])), right);
    let right = format!(
        "read ok 5 7 0 65535
link 0 1 2 1
link 1 2 3 1
link 1 3 1 1
link 0 2 6 1
link 0 3 7 1
link 2 3 4 1
link 0 4 9 1
parents 65535 0 1 2 6
{TABLE}rest kept
"
    );
    for rooms in [[28, 5, 50], [31, 6, 56], [28, 5, 59]] {
        assert_eq!(answers(&bytes(7, &harbour_file(), rooms)), right);
    }
    let right = "read refused 10 0\nrest kept\n";
    for rooms in [[27, 5, 50], [28, 5, 49], [28, 5, 35]] {
        assert_eq!(answers(&bytes(7, &harbour_file(), rooms)), right);
    }
}

#[test]
fn the_block_reader() {
    let file = harbour_file();
    let text = answers(&bytes(8, &file[..512], [0x48, 0, 1]));
    let lines: Vec<&str> = text.lines().collect();
    assert_eq!(lines.len(), 1 + 16);
    assert_eq!(lines[0], "block ok");
    assert_eq!(lines[1], format!("000500070000ffff{}", "0".repeat(48)));
    assert_eq!(lines[16], "0".repeat(48));
    let text = answers(&bytes(8, &file[..512], [0x48, 9, 1]));
    assert_eq!(text, "block refused 22 9\n");
}

/// Word 4 is the length of the ordinary row, word 5 that of the detour row.
#[test]
fn a_way_past_a_failed_link() {
    let both = 1_022 << 16 | 1_022;
    let kept = "ordinary kept\ndetour kept\n";
    let right = format!("forward ok detour\nroute 3 1 2 0\n{kept}");
    for (room, c) in [
        (both, 0),
        (both, 2),
        (both, 3),
        (5_000 << 16 | 1_022, 65_535),
    ] {
        assert_eq!(answers(&case(9, room, [3, 1, c])), right);
    }
    let right = format!("forward ok detour\nroute 3 1 3 0\n{kept}");
    for c in [1, 4, 65_533] {
        assert_eq!(answers(&case(9, both, [3, 1, c])), right);
    }
    let right = format!("forward ok ordinary\nroute 4 0\n{kept}");
    assert_eq!(answers(&case(9, both, [4, 1, 0])), right);
    let right = format!("forward ok ordinary\nroute 0\n{kept}");
    assert_eq!(answers(&case(9, both, [0, 4, 0])), right);
    for room in [both - 1, both - (1 << 16), 1_022, 1_022 << 16] {
        let right = format!("forward refused 10 0\n{kept}");
        assert_eq!(answers(&case(9, room, [4, 1, 0])), right);
    }
    for (abc, refused) in [
        ([5, 5, 0], "15 0"),
        ([4, 5, 0], "16 0"),
        ([4, 0, 0], "16 0"),
        ([4, 4, 0], "17 4"),
    ] {
        let right = format!("forward refused {refused}\n{kept}");
        assert_eq!(answers(&case(9, both, abc)), right);
    }
    let right = hex("0009 0005 0000001c 03fe 0001 0000 ffff 0003 0001 0002 0000");
    assert_eq!(case(9, 1_022 << 16 | 1, [3, 1, 2])[..24], right);
    let long = case(9, 5_001 << 16 | 1_022, [4, 1, 0]);
    assert_eq!(answers(&long), "too long\n");
}

#[test]
fn the_route_of_a_node() {
    let right = "route ok 3\nnodes 3 1 0\nrest kept\n";
    assert_eq!(answers(&case(101, 3, [3, 0, 0])), right);
    assert_eq!(answers(&case(101, 40_000, [3, 9, 9])), right);
    let right = "route ok 0\nnodes 0\nrest kept\n";
    assert_eq!(answers(&case(101, 1, [0; 3])), right);
    let short = "route refused 10 0\nrest kept\n";
    assert_eq!(answers(&case(101, 2, [3, 0, 0])), short);
    let none = "route refused 8 5\nrest kept\n";
    assert_eq!(answers(&case(101, 0, [5, 0, 0])), none);
}

#[test]
fn distance_and_meet() {
    assert_eq!(answers(&case(102, 0, [2, 3, 9])), "distance ok 4\n");
    assert_eq!(answers(&case(102, 0, [4, 3, 9])), "distance ok 12\n");
    let none = "distance refused 8 65535\n";
    assert_eq!(answers(&case(102, 0, [65_535, 5, 0])), none);
    assert_eq!(answers(&case(103, 0, [2, 3, 9])), "meet ok 1\n");
    assert_eq!(answers(&case(103, 0, [4, 3, 9])), "meet ok 0\n");
    assert_eq!(answers(&case(103, 0, [3, 1, 9])), "meet ok 1\n");
    assert_eq!(answers(&case(103, 0, [4, 5, 0])), "meet refused 8 5\n");
}

#[test]
fn the_entry_of_a_node() {
    let lines: Vec<&str> = TABLE.lines().collect();
    for x in 0..5 {
        let right = format!("entry ok\n{}\n", lines[x as usize]);
        assert_eq!(answers(&case(104, 0, [x, 9, 9])), right);
        assert_eq!(answers(&case(105, 0, [x, 9, 9])), "node ok\n");
    }
    assert_eq!(answers(&case(104, 0, [5, 0, 0])), "entry refused 8 5\n");
    assert_eq!(answers(&case(105, 0, [6, 0, 0])), "node refused 8 6\n");
}

/// A head over a limit, an unknown op, an input that ends inside a case.
#[test]
fn inputs_that_stop_the_probe() {
    let sound = case(1, 0, [0; 3]);
    let after_one = |end: &[u8]| answers(&[sound.clone(), end.to_vec()].concat());
    for length in 1..sound.len() {
        assert_eq!(after_one(&sound[..length]), "check ok\n");
    }
    for op in ["0000", "000a", "0064", "006a", "ffff"] {
        let unknown = [hex(op), hex("ffff"), vec![0; 20], sound.clone()].concat();
        assert_eq!(after_one(&unknown), "check ok\nunknown\n");
    }
    let long = [hex("0001 0259"), vec![0; 20], sound.clone()].concat();
    assert_eq!(after_one(&long), "check ok\ntoo long\n");
    assert_eq!(after_one(&sound), "check ok\ncheck ok\n");
}

#[test]
fn the_limits_of_a_case() {
    let head = |op, parents, rest, room, abc| Head {
        op,
        parents,
        rest,
        room,
        root: 0,
        depth: 0,
        abc,
        rule: 65_535,
    };
    let most = [65_535; 3];
    assert!(!head(1, 600, 8_400, 40_000, most).too_long());
    assert!(!head(8, 600, 33_000, 40_000, most).too_long());
    assert!(!head(101, 600, 8_400, 40_000, most).too_long());
    assert!(!head(105, 600, 8_400, 40_000, most).too_long());
    assert!(!head(7, 600, 33_000, 40_000, [8_400, 600, 40_000]).too_long());
    for rooms in [0, 5_000, 5_000 << 16, 5_000 << 16 | 5_000] {
        assert!(!head(9, 600, 8_400, rooms, most).too_long());
    }
    for rooms in [
        5_001,
        40_000,
        5_001 << 16,
        1_022 << 16 | 5_001,
        65_535 << 16,
    ] {
        assert!(head(9, 0, 0, rooms, [0; 3]).too_long());
    }
    assert!(head(9, 601, 0, 0, [0; 3]).too_long());
    assert!(head(9, 0, 8_401, 0, [0; 3]).too_long());
    assert!(head(1, 601, 0, 0, [0; 3]).too_long());
    assert!(head(6, 0, 8_401, 0, [0; 3]).too_long());
    assert!(head(7, 0, 33_001, 0, [0; 3]).too_long());
    assert!(head(8, 0, 0, 40_001, [0; 3]).too_long());
    assert!(head(102, 601, 0, 0, [0; 3]).too_long());
    assert!(head(103, 0, 8_401, 0, [0; 3]).too_long());
    assert!(head(104, 0, 0, 40_001, [0; 3]).too_long());
    assert!(head(7, 0, 0, 0, [8_401, 0, 0]).too_long());
    assert!(head(7, 0, 0, 0, [0, 601, 0]).too_long());
    assert!(head(7, 0, 0, 0, [0, 0, 40_001]).too_long());
}
