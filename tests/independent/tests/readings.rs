// Knows the settled open points of document 01, READINGS.md part A, each by its own examples.

mod common;

use common::*;
use independent::examples::{m_with, CARD_M};

/// Card M up to and with FN, then these octets, then END.
fn after_fn(octets: &[u8]) -> Vec<u8> {
    [b"BEGIN:VCARD\r\nVERSION:4.0\r\nFN:A\r\n", octets, b"END:VCARD\r\n"].concat()
}

#[test]
fn a1_a_line_that_begins_with_a_fold_starts_at_its_first_physical_line() {
    assert_eq!(verdict(&after_fn(b"\r\n N:Doe;J\r\n")), Err((7, 42)));
    assert_eq!(verdict(&after_fn(b"\r\n \x01\r\n")), Err((5, 35)));
    assert_eq!(verdict(&after_fn(b"\r\n\t\r\n NOTE\r\n")), Err((43, 32)));
    assert_eq!(verdict(b"BEGIN:VCARD\r\nVERSION:4.0\r\n\r\n END:VCARD\r\n"), Err((11, 26)));
}

#[test]
fn a2_each_cr_lf_is_looked_at_once() {
    assert_eq!(verdict(b"BEGIN:VCARD\r\nVERSION:4.0\r\nFN:A\r\n\r\n  X:1\r\nEND:VCARD\r\n"), Err((40, 32)));
}

#[test]
fn a3_a_fold_as_first_octets_is_removed() {
    let led = [b"\r\n ", CARD_M].concat();
    assert_eq!(verdict(&led), Ok((1, 4)));
    assert_eq!(copy_and_records(&led), copy_and_records(CARD_M));
}

#[test]
fn a4_a_space_or_tab_as_first_octet_breaks_the_line_rule() {
    assert_eq!(verdict(&[b" ", CARD_M].concat()), Err((40, 0)));
    assert_eq!(verdict(&[b"\t", CARD_M].concat()), Err((40, 0)));
    assert_eq!(verdict(b" \x01\r\n"), Err((5, 1)));
}

#[test]
fn a5_check_3_is_on_the_input_as_given() {
    assert_eq!(verdict(b"BEGIN:VCARD\r\nVERSION:4.0\r\nFN:A\r\r\n \nEND:VCARD\r\n"), Err((3, 30)));
}

#[test]
fn a6_first_such_octet_and_the_order_of_3_and_4() {
    assert_eq!(verdict(b"\r\r\n"), Err((3, 0)));
    assert_eq!(verdict(b"\r\n\n"), Err((3, 2)));
    assert_eq!(verdict(b"\n\r"), Err((3, 0)));
    assert_eq!(verdict(b"A\r"), Err((3, 1)));
    assert_eq!(verdict(b"A"), Err((4, 1)));
    assert_eq!(verdict(&[CARD_M, b" "].concat()), Err((4, 44)));
}

#[test]
fn a7_blank_lines_and_lines_after_end() {
    assert_eq!(verdict(&[CARD_M, b"\r\n"].concat()), Err((40, 43)));
    assert_eq!(verdict(&[CARD_M, b"\r\n", CARD_M].concat()), Err((40, 43)));
    assert_eq!(verdict(&[CARD_M, b"NOTE:a\r\n"].concat()), Err((9, 43)));
    assert_eq!(verdict(b"END:VCARD\r\n"), Err((9, 0)));
    assert_eq!(verdict(b"BEGIN:VCARD\r\nEND:VCARD\r\n"), Err((9, 13)));
}

#[test]
fn a8_all_checks_of_one_line_come_before_the_next_line() {
    assert_eq!(verdict(&m_with(b"N:x\r\nNOTE:\x01")), Err((7, 35)));
    assert_eq!(line_verdict("g.BEGIN:VCARD"), Err((9, 32)));
    assert_eq!(line_verdict("g.END:X"), Err((8, 32)));
    assert_eq!(line_verdict("N:;;;;\r\nN:x"), Err((7, 43)));
    assert_eq!(verdict(b"BEGIN:VCARD\r\nVERSION:4.0\r\nEND:X\r\n"), Err((7, 30)));
    assert_eq!(verdict(b"BEGIN:VCARD\r\nVERSION:4.0\r\ng.END:VCARD\r\n"), Err((8, 26)));
    assert_eq!(verdict(b"BEGIN:VCARD\r\nVERSION:4.0\r\nMEMBER:a:\r\nEND:VCARD\r\n"), Err((11, 37)));
}

#[test]
fn a9_lengths_and_counts_in_the_record() {
    assert_eq!(line_record("ab.NOTE;x=1,2;y=\"3\":v"), [27, 32, 21, 2, 4, 2, 52, 1]);
    assert_eq!(line_record("NOTE:v"), [27, 32, 6, 0, 4, 0, 37, 1]);
}

#[test]
fn a10_a11_a12_value_sets_the_kind_in_the_record() {
    let kinds = [
        ("FN;VALUE=:a", 0),
        ("FN;VALUE=\"\":a", 0),
        ("FN;VALUE=text,uri:a", 1),
        ("FN;VALUE=\"text,uri\":a", 0),
        ("FN;VALUE=x;VALUE=text:a", 0),
        ("FN;VALUE= text:a", 0),
        ("FN;VALUE=\"URI\":a:", 3),
        ("FN;VALUE=x:a,b\\", 0),
        ("UID;VALUE=date:...", 0),
        ("BDAY;VALUE=text:a", 1),
        ("NICKNAME;VALUE=uri:a,b", 2),
        ("N;VALUE=text:;;;;", 4),
        ("XML;VALUE=uri:a", 0),
        ("X-A;VALUE=uri:a", 0),
    ];
    for (line, kind) in kinds {
        assert_eq!(line_kind(line), kind, "{line}");
    }
}

#[test]
fn a13_refusal_12_asks_for_the_octets_of_the_kind_value() {
    assert_eq!(line_verdict("MEMBER:a:\r\nKIND:gRoUp"), Ok((1, 6)));
    assert_eq!(line_verdict("KIND;VALUE=x:group\r\nMEMBER:a:"), Ok((1, 6)));
    assert_eq!(line_verdict("g.KIND:group\r\nMEMBER;VALUE=text:x"), Ok((1, 6)));
    assert_eq!(line_verdict("KIND;VALUE=uri:group\r\nMEMBER:a:"), Err((7, 52)));
    assert_eq!(line_verdict("KIND:group \r\nMEMBER:a:"), Err((12, 56)));
    assert_eq!(line_verdict("MEMBER;VALUE=text:x"), Err((12, 53)));
    let other_card = [m_with(b"KIND:group"), m_with(b"MEMBER:a:")].concat();
    assert_eq!(verdict(&other_card), Err((12, 98)));
}

#[test]
fn a14_to_a18_kinds() {
    for line in [
        "GENDER:", "GENDER:;", "GENDER:;it's complicated", "ORG:", "ORG:;", "NICKNAME:", "NICKNAME:,",
        "N:,;,;;;", "URL:a:", "GEO:geo:1,2", "GEO:geo:1\\,2", "URL:a:\"", "CLIENTPIDMAP:0;a:",
        "CLIENTPIDMAP:0000000000000000000000007;a:",
    ] {
        assert_eq!(line_verdict(line), Ok((1, 5)), "{line}");
    }
    for (line, octet) in [
        ("URL::a", 4),
        ("URL:", 4),
        ("ORG:a,b", 5),
        ("ORG:\\x", 5),
        ("NICKNAME:\\x", 10),
        ("CLIENTPIDMAP:;a:", 13),
    ] {
        assert_eq!(line_verdict(line), Err((7, 32 + octet)), "{line}");
    }
}

#[test]
fn a19_the_place_of_bad_utf_8_is_the_characters_first_octet() {
    assert_eq!(unescaped(b"\x61\x62\xE2\x82\x63", 9), Err((31, 2)));
    assert_eq!(escaped(b"\x61\x62\xE2\x82\x63", 9), Err((31, 2)));
    assert_eq!(escaped(b"\x00\xFF", 9), Err((31, 0)));
    assert_eq!(escaped(b"\xFF\x00", 9), Err((31, 0)));
    assert_eq!(escaped(b"a\x00\xE2\x82", 9), Err((31, 1)));
}

#[test]
fn a20_each_number_over_the_whole_text() {
    assert_eq!(unescaped(b"a,b\x00", 9), Err((31, 3)));
    assert_eq!(unescaped(b"\\\\,", 9), Err((30, 2)));
    assert_eq!(unescaped(b"a;b", 9), Ok(b"a;b".to_vec()));
}

#[test]
fn a21_cr_and_c1_controls() {
    assert_eq!(escaped(b"a\r\nb", 9), Err((31, 1)));
    assert_eq!(escaped("\u{80}\u{9F}".as_bytes(), 9), Ok("\u{80}\u{9F}".as_bytes().to_vec()));
    assert_eq!(line_verdict("NOTE:\u{85}"), Ok((1, 5)));
}

#[test]
fn a22_a_cut_may_fall_before_a_combining_mark() {
    let line = format!("NOTE:{}e\u{301}", "a".repeat(69));
    let form = format!("NOTE:{}e\r\n \u{301}", "a".repeat(69));
    assert_eq!(folded(&m_with(line.as_bytes()), 400), Ok(m_with(form.as_bytes())));
}

#[test]
fn a23_letters_are_ascii() {
    assert_eq!(line_kind("FN;VALUE=ur\u{131}:a"), 0);
    assert_eq!(line_verdict("Ä:a"), Err((40, 32)));
    assert_eq!(verdict(&["\u{FEFF}".as_bytes(), CARD_M].concat()), Err((40, 0)));
}

#[test]
fn a30_rooms_of_the_reader() {
    let read = |copy: usize, records: usize| {
        let (mut copy, mut records) = (vec![165; copy], vec![7; records]);
        let answer = independent::reader::read(CARD_M, &mut copy, &mut records);
        (answer.map_err(|refusal| (refusal.number, refusal.place)).map(|counts| counts.lines), copy, records)
    };
    assert_eq!(read(42, 31), (Err((13, 43)), vec![165; 42], vec![7; 31]));
    assert_eq!(read(43, 31), (Err((14, 32)), vec![165; 43], vec![7; 31]));
    assert_eq!(read(42, 32).0, Err((13, 43)));
    let (answer, copy, records) = read(44, 35);
    assert_eq!(answer, Ok(4));
    assert_eq!((&copy[..43], &copy[43..]), (CARD_M, &[165][..]));
    assert_eq!(&records[32..], [7, 7, 7]);
}

#[test]
fn a31_the_folder_decides_on_the_whole_form() {
    let large = m_with(format!("NOTE:{}", "a".repeat(16_000)).as_bytes());
    assert_eq!(folded(&large, 0), Err((16, 16_384)));
    assert_eq!(folded(&large, 20_000), Err((16, 16_384)));
    assert_eq!(folded(CARD_M, 42), Err((15, 43)));
    assert_eq!(folded(CARD_M, 43), Ok(CARD_M.to_vec()));
    let with_folds = b"BEGIN:VCARD\r\nVERSION:4.0\r\nFN\r\n\t:\r\n A\r\nEND:VC\r\n ARD\r\n";
    assert_eq!(folded(with_folds, 60), Ok(CARD_M.to_vec()));
}
