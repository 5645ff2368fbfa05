// Knows request lines that try the console itself: words, numbers, octets, and lines that are none.

use crate::examples::CARD_M;
use crate::hex::word_of;

/// Lines for a console at its start, and after that in this order; several are no requests.
const LINES: &[&str] = &[
    "open 0 0", "add 1 0 -", "open 0", "add 1 -", "check 1", "show 1", "held 1", "release 1", "pool 0 0", "pool 0 1", "pool 1 0", "",
    " ", "-", "judge", "judge ", " judge -", "judge  -", "judge - ", "judge - -", "judge -", "JUDGE -",
    "Judge -", "judges -", "judge --", "judge 0", "judge 000", "judge 0g", "judge g0", "judge 0x41",
    "judge 4 1", "judge\t-", "judge -\r", "judge -\r\r", "judge \r", "\r", "judge 4A4b", "judge 4a4B",
    "judge é", "read", "read 1", "read 1 1", "read 1 1 -", "read 1 1 - -", "read -1 1 -", "read +1 1 -",
    "read 1 -1 -", "read 1.0 1 -", "read 0x1 1 -", "read - 1 -", "read  1 -",
    "read 0001 000000000000000000000001 -", "read 1 1 0", "read 99999999999 0 -", "read 0 99999999999 -",
    "read 99999999999999999999999999 0 -", "fold", "fold 1", "fold 1 -", "fold - 1", "fold 1 - -",
    "fold x -", "fold 99999999999 -", "escape -", "escape 0 -", "escape 0 - -", "unescape -", "unescape 0 -",
    "unescape 1 6", "folds 1 -", "desk", "desk 1", "desk 1 16384", "desk 1 655361",
    "desk 18446744073709551616 16384", "desk x 16384", "desk 1 -1", "desk  16384", "open", "open 0",
    "open 0 0", "open 1 1 1", "open 4294967296 0", "open 0 4294967296", "open 0 4294967295", "open -1 0", "open 0 -1", "open 0 x", "held 1", "held 01", "held 4294967296", "held", "held 1 1",
    "add 1", "add 1 6", "add 1 0 6", "add 4294967296 0 61", "add 1 4294967296 61", "add 1 61", "add 1 4294967295 61", "add 1 0 61 0", "show 4294967296", "check x", "release 4294967296",
    "pool 0 1", "pool 16383 1", "pool 16384 1", "pool 16384 0", "pool 16385 0", "pool 655360 655360",
    "held 18446744073709551617", "desk 18446744073709551617 16384", "read 18446744073709551616 0 -",
    "held 1", "desk 18446744073709551615 16384", "held 1", "next", "next 1 1", "next -", "next 4294967296",
    "next 0001", "next 0", "encode", "encode 1 1", "encode 1 1 -", "encode 0 1 -", "encode 2 1 -",
    "encode 00 2 22", "encode 1 2 22", "encode 01 1 22", "encode -1 1 -", "encode 1 70001 -", "encode 1 1 6",
    "encode 1 1 - -", "decode", "decode 0 -", "decode 0 1 -", "decode 1 1 5e6e", "decode 0 1 5e6e",
    "decode 2 1 5e6e", "decode 1 70001 -", "decode 18446744073709551617 1 5e6e", "decode 1 1 22",
    "fold-in", "fold-in 1 0 1", "fold-in 1 0 1 -", "fold-in 01 1 1 -", "fold-in 2 0 1 -", "fold-in 0 0 1 -",
    "fold-in 1 2 1 -", "fold-in 1 0 70001 -", "fold-in 1 0 70000 -", "fold-in -1 0 1 -", "fold-in 1 0 1 - -",
    "fold-in 1 00 1 6",
    "report 1", "take", "take 0", "take -", "print", "print 70001", "print 46", "print 53", "count 0",
    "count 5 1", "count 106 1", "count 239 1", "count 0 4294967296", "count 0 7", "count 00 007", "report", "print 46",
    "offset", "offset -", "offset 2d30353030", "offset 2D30353030", "offset 2d3035303",
    "offset - -", "offset 1 2d3035", "offsets 2d3035", "OFFSET 2d3035", "offset -0500",
];

/// All protocol lines.
pub fn protocol() -> Vec<String> {
    let mut lines: Vec<String> = LINES.iter().map(|line| line.to_string()).collect();
    lines.push(format!("judge {}", word_of(CARD_M).to_uppercase()));
    for octets in [69_000, 69_997, 69_998, 70_500] {
        lines.push(format!("judge {}", "61".repeat(octets)));
    }
    lines.push(format!("judge {}", word_of(CARD_M)));
    lines
}
