// Knows where 5 and 7 point: READINGS-02, R5, by its own examples and a table of every kind, folded too.

mod common;

use common::*;
use independent::examples::{m_with, CARD_M};

/// Lines in card M, and the octet of the line at which 7 points; the line's length is its CR.
const DEAD: &[(&str, usize)] = &[
    ("NOTE:\\x", 6),
    ("NOTE:a\\", 7),
    ("N:;;;;;", 6),
    ("UID:1", 4),
    ("UID:ab", 6),
    ("GENDER:MX", 8),
    ("CLIENTPIDMAP:1;", 15),
    ("BDAY:20230229", 12),
    ("BDAY:20230230", 11),
    ("BDAY:20230431", 12),
    ("BDAY:198513", 10),
    ("BDAY:19852", 9),
    ("BDAY:T102261", 11),
    ("REV:19961022T1400", 17),
    ("N:Doe;J", 7),
    ("NOTE:a,b", 6),
    ("NOTE:\\,,", 7),
    ("NICKNAME:a,\\x", 12),
    ("NICKNAME:\\", 10),
    ("UID:", 4),
    ("UID::", 4),
    ("UID:a_b:", 5),
    ("UID:ab: ", 7),
    ("UID:ab:cé", 8),
    ("N:", 2),
    ("N:;\\x;;;;;", 4),
    ("N:;;;;\\", 7),
    ("ADR:;;;;;;;", 10),
    ("ADR:;;;;;", 9),
    ("ORG:a;b,c", 7),
    ("ORG:\\", 5),
    ("GENDER:x", 7),
    ("GENDER:M;a,b", 10),
    ("GENDER:;\\", 9),
    ("CLIENTPIDMAP:;", 13),
    ("CLIENTPIDMAP:12a", 15),
    ("CLIENTPIDMAP:1;1", 15),
    ("CLIENTPIDMAP:1", 14),
    ("CLIENTPIDMAP:", 13),
    ("BDAY:", 5),
    ("BDAY:1985-13", 11),
    ("BDAY:---3", 9),
    ("BDAY:---32", 9),
    ("REV:19961022T24", 14),
    ("REV:1996-", 8),
    ("TZ;VALUE=utc-offset:-2400", 22),
    ("TZ;VALUE=utc-offset:-050", 24),
    ("END:VCARDS", 9),
    ("END:VCAR", 8),
    ("END:vcaré", 8),
];

#[test]
fn r5_2_the_dead_octet_of_every_kind() {
    for (line, octet) in DEAD {
        assert_eq!(line_verdict(line), Err((7, 32 + octet)), "{line}");
    }
}

#[test]
fn r5_2_the_frame_lines() {
    assert_eq!(verdict(b"BEGIN:VCARDS\r\n"), Err((7, 11)));
    assert_eq!(verdict(b"BEGIN:\r\n"), Err((7, 6)));
    assert_eq!(verdict(b"begin:vcxrd\r\n"), Err((7, 8)));
    for (version, octet) in [("3.0", 21), ("4,0", 22), ("4.1", 23), ("4.0 ", 24), ("4.", 23), ("", 21)] {
        let card = format!("BEGIN:VCARD\r\nVERSION:{version}\r\nFN:A\r\nEND:VCARD\r\n");
        assert_eq!(verdict(card.as_bytes()), Err((7, octet)), "{version}");
    }
}

#[test]
fn r5_3_folds_before_the_octet_count_and_folds_after_it_do_not() {
    assert_eq!(verdict(&m_with(b"N:Doe;J\r\n ")), Err((7, 42)));
    assert_eq!(verdict(&m_with(b"N:Do\r\n e;J")), Err((7, 42)));
    for (line, octet) in DEAD {
        for place in 0..=line.len() {
            let with_fold = [&line.as_bytes()[..place], b"\r\n\t", &line.as_bytes()[place..]].concat();
            let moved = if place <= *octet { 3 } else { 0 };
            assert_eq!(verdict(&m_with(&with_fold)), Err((7, 32 + octet + moved)), "{line} at {place}");
        }
    }
}

/// Lines with a bad octet, and where it stands.
const BAD: &[(&[u8], usize)] = &[
    (b"NOTE:\xE2\x82\x00", 5),
    (b"NOTE:\x80", 5),
    (b"NOTE:a\xE2\x82", 6),
    (b"NOTE:a\x7F\xFF", 6),
    (b"NOTE:\xC3\xA9\xFF\x00", 7),
    (b"\x01", 0),
    (b"N:x\x02", 3),
    (b"NOTE;x=\xF4\x90\x80\x80:a", 7),
];

#[test]
fn r5_4_the_bad_octet_folded_too() {
    for (line, octet) in BAD {
        assert_eq!(verdict(&m_with(line)), Err((5, 32 + octet)), "{line:?}");
        for place in 0..=line.len() {
            let with_fold = [&line[..place], b"\r\n ", &line[place..]].concat();
            let moved = if place <= *octet { 3 } else { 0 };
            assert_eq!(verdict(&m_with(&with_fold)), Err((5, 32 + octet + moved)), "{line:?} at {place}");
        }
    }
    assert_eq!(verdict(&m_with(b"NOTE:\xE2\x82\r\n \x41")), Err((5, 37)));
}

#[test]
fn r5_5_a_character_that_a_fold_splits_dies_at_its_first_octet() {
    assert_eq!(verdict(&m_with(b"UID:a:\xC3\r\n \xA9")), Err((7, 38)));
    assert_eq!(verdict(&m_with(b"UID:a:\r\n \xC3\r\n \xA9")), Err((7, 41)));
    assert_eq!(verdict(&m_with(b"NOTE:\\\r\n \xE2\r\n\t\x82\r\n \xAC")), Err((7, 41)));
}

#[test]
fn r5_6_no_other_place_moves() {
    assert_eq!(verdict(&m_with(b"N:;;;;\r\nN:;\r\n ;;;")), Err((10, 40)));
    assert_eq!(verdict(&m_with(b"g.E\r\n ND:x")), Err((8, 32)));
    assert_eq!(verdict(&m_with(b"NO\r\n TE")), Err((43, 32)));
    assert_eq!(verdict(&[CARD_M, b"NO\r\n TE:\\x\r\n"].concat()), Err((9, 43)));
    assert_eq!(folded(&m_with(b"N:Doe;J"), 9), Err((7, 39)));
}
