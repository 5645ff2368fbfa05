// Knows both sides of every border of the reader's rules.

mod common;

use common::*;
use independent::content::parse;
use independent::examples::{m_with, CARD_M};
use independent::generator::line_faults::TABLE;
use independent::line_faults::fault_of;
use independent::properties::ROWS;

#[test]
fn size_of_the_input() {
    let note_of = |size: usize| m_with(format!("NOTE:{}", "a".repeat(size - 50)).as_bytes());
    assert_eq!(note_of(16_384).len(), 16_384);
    assert_eq!(verdict(&note_of(16_384)), Ok((1, 5)));
    assert_eq!(verdict(&note_of(16_385)), Err((1, 16_384)));
    assert_eq!(verdict(&[b'\n'; 16_385]), Err((1, 16_384)));
    assert_eq!(verdict(b""), Err((2, 0)));
}

#[test]
fn octets_of_a_line() {
    for octet in 0..=255u8 {
        let expected = match octet {
            b'\t' | 0x20..=0x7E if octet != b',' && octet != b'\\' => Ok((1, 5)),
            b',' => Err((7, 38)),
            b'\\' => Err((7, 39)),
            b'\r' | b'\n' => Err((3, 38)),
            _ => Err((5, 38)),
        };
        assert_eq!(verdict(&m_with(&[b'N', b'O', b'T', b'E', b':', b'a', octet])), expected, "{octet}");
    }
}

#[test]
fn names_are_letters_digits_and_hyphens() {
    for octet in (0x20..=0x7E).filter(|octet| !b".:;".contains(octet)) {
        let good = octet.is_ascii_alphanumeric() || octet == b'-';
        let expected = |number| if good { Ok((1, 5)) } else { Err((number, 32)) };
        for line in [[b"X", &[octet][..], b":"].concat(), [b"g", &[octet][..], b".X:"].concat()] {
            assert_eq!(verdict(&m_with(&line)), expected(40), "{octet}");
        }
        if octet != b'=' {
            assert_eq!(verdict(&m_with(&[b"X;a", &[octet][..], b"=:"].concat())), expected(41), "{octet}");
        }
    }
}

#[test]
fn the_line_rule() {
    let good = [
        "A:", "A.B:", "-:", "0.0:", "A:B:C", "A:\"", "A;B=:", "A;B==:", "A;B=,:", "A;B=C,D:", "A;B=\"\":",
        "A;B=\"\",\"\":", "A;B=\"C\",D:", "A;B=\"C;D:E,F\":", "A;B=C;D=E:", "A;B=\tC:", "A;B=é:", "A:;B",
        "A.B:C.D",
    ];
    let bad: [(u32, &[&str]); 4] = [
        (40, &["", ":", ":A", ".A:", "A.:", "A..B:", "A.B.C:", "A :", "A_:", "é:"]),
        (41, &["A;:", "A;B:", "A;=:", "A;B=C;:", "A;é=B:", "A; B=C:", "A;B =C:", "BDAY;19531015T231000Z"]),
        (42, &["A;B=\":", "A;B=\"C", "A;B=\"C\"D:", "A;B=\"C\"\"D\":", "A;B=C\":", "A;B=C\"D\":"]),
        (43, &["A", "A;B=C"]),
    ];
    for line in good {
        assert_eq!(line_verdict(line), Ok((1, 5)), "{line}");
    }
    for (number, lines) in bad {
        for line in lines {
            assert_eq!(line_verdict(line), Err((number, 32)), "{line}");
        }
    }
    for (number, line) in TABLE {
        assert_eq!(fault_of(line.as_bytes()), Some(number), "{line}");
    }
}

#[test]
fn a_line_has_a_fault_exactly_if_it_has_no_parts() {
    for line in lines_up_to(5, b"a.;=\",:") {
        assert_eq!(fault_of(&line).is_none(), parse(&line).is_some(), "{line:?}");
    }
}

/// All lines of at most so many of these octets.
fn lines_up_to(most: usize, octets: &[u8]) -> Vec<Vec<u8>> {
    let mut lines = vec![Vec::new()];
    let mut last = lines.clone();
    for _ in 0..most {
        last = last
            .iter()
            .flat_map(|line| octets.iter().map(|&octet| [line.as_slice(), &[octet]].concat()))
            .collect();
        lines.extend(last.clone());
    }
    lines
}

#[test]
fn the_first_colon_outside_quotes_ends_the_parameters() {
    assert_eq!(line_record("TEL;X=\"a:b\";VALUE=uri:tel:1"), [14, 32, 27, 0, 3, 2, 54, 3]);
    assert_eq!(line_record("NOTE;X=\":\":a:b"), [27, 32, 14, 0, 4, 1, 43, 1]);
}

#[test]
fn a_quoted_list_is_one_value() {
    assert_eq!(line_kind("TEL;VALUE=\"uri,text\":a,"), 0);
    assert_eq!(line_kind("TEL;VALUE=uri,text:a:,"), 3);
    assert_eq!(line_kind("TEL;TYPE=\"voice,home\";VALUE=uri:a:"), 3);
}

#[test]
fn every_row_has_its_number_and_kind_in_any_case() {
    let values = ["a", "a", "a,b", "a:b", ";;;;", ";;;;;;", "a;b", "M;a", "1;a:", "1985", "19850412T102200"];
    for row in ROWS.iter().filter(|row| !["BEGIN", "END", "VERSION", "KIND"].contains(&row.name)) {
        for name in [row.name.to_string(), row.name.to_lowercase()] {
            let line = format!("{name}:{}\r\nKIND:group", values[row.kind as usize]);
            let record = line_record(&line);
            assert_eq!((record[0], record[7]), (row.number, row.kind), "{line}");
        }
    }
    assert_eq!((line_record("KIND:a")[0], line_kind("KIND:a")), (4, 1));
    assert_eq!((line_record("X-A:\\")[0], line_kind("X-A:\\")), (0, 0));
}

#[test]
fn the_table_has_the_papers_numbers_and_marks() {
    for (index, row) in ROWS.iter().enumerate() {
        assert_eq!(row.number as usize, index + 1);
    }
    let single: Vec<&str> = ROWS.iter().filter(|row| row.single).map(|row| row.name).collect();
    assert_eq!(single, ["KIND", "N", "BDAY", "ANNIVERSARY", "GENDER", "PRODID", "REV", "UID"]);
    let of_kind = |kind| ROWS.iter().filter(|row| row.kind == kind).count();
    assert_eq!([0, 1, 2, 3, 4, 5, 6, 7, 8, 9, 10, 11].map(of_kind), [5, 9, 2, 14, 1, 1, 1, 1, 1, 2, 1, 0]);
}

#[test]
fn card_order() {
    let lines = |lines: &[&str]| {
        lines.iter().flat_map(|line| format!("{line}\r\n").into_bytes()).collect::<Vec<u8>>()
    };
    let (begin, version, name, end) = ("BEGIN:VCARD", "VERSION:4.0", "FN:A", "END:VCARD");
    assert_eq!(verdict(&lines(&[version])), Err((9, 0)));
    assert_eq!(verdict(&lines(&[begin])), Err((9, 13)));
    assert_eq!(verdict(&lines(&[begin, begin])), Err((9, 13)));
    assert_eq!(verdict(&lines(&[begin, name])), Err((9, 13)));
    assert_eq!(verdict(&lines(&[begin, end])), Err((9, 13)));
    assert_eq!(verdict(&lines(&[begin, version])), Err((9, 26)));
    assert_eq!(verdict(&lines(&[begin, version, version])), Err((9, 26)));
    assert_eq!(verdict(&lines(&[begin, version, name, begin])), Err((9, 32)));
    assert_eq!(verdict(&lines(&[begin, version, end])), Err((11, 26)));
    assert_eq!(verdict(&lines(&[begin, version, name, end])), Ok((1, 4)));
    assert_eq!(verdict(&lines(&[begin, version, name, end, end])), Err((9, 43)));
    assert_eq!(verdict(&lines(&[begin, version, name, end, begin])), Err((9, 56)));
    assert_eq!(verdict(&[CARD_M, CARD_M].concat()), Ok((2, 8)));
}

#[test]
fn frame_lines() {
    let framed = |begin: &str, version: &str, end: &str| {
        verdict(format!("{begin}\r\n{version}\r\nFN:A\r\n{end}\r\n").as_bytes())
    };
    assert_eq!(framed("begin:vcard", "version:4.0", "End:VCard"), Ok((1, 4)));
    assert_eq!(framed("BEGIN:VCARD ", "VERSION:4.0", "END:VCARD"), Err((7, 11)));
    assert_eq!(framed("BEGIN:VCARD", "VERSION:4.00", "END:VCARD"), Err((7, 24)));
    assert_eq!(framed("BEGIN:VCARD", "VERSION:4.0", "END:VCAR"), Err((7, 40)));
    assert_eq!(framed("g.BEGIN:VCARD", "VERSION:4.0", "END:VCARD"), Err((8, 0)));
    assert_eq!(framed("BEGIN:VCARD", "VERSION;VALUE=text:4.0", "END:VCARD"), Err((8, 13)));
    assert_eq!(framed("BEGIN:VCARD", "VERSION:4.0", "END;x=:VCARD"), Err((8, 32)));
}

#[test]
fn single_properties() {
    let values = ["a", "a", "a,b", "a:b", ";;;;", ";;;;;;", "a;b", "M;a", "1;a:", "1985", "19850412T102200"];
    let value = |kind: u32| values[kind as usize];
    for row in ROWS.iter().filter(|row| !["BEGIN", "END", "VERSION", "MEMBER"].contains(&row.name)) {
        let line = format!("{}:{}", row.name, value(row.kind));
        let second = format!("g.{};ALTID=1:{}", row.name.to_lowercase(), value(row.kind));
        let expected = if row.single { Err((10, 34 + line.len())) } else { Ok((1, 6)) };
        assert_eq!(line_verdict(&format!("{line}\r\n{second}")), expected, "{line}");
        let two_cards = [m_with(line.as_bytes()), m_with(line.as_bytes())].concat();
        assert_eq!(verdict(&two_cards), Ok((2, 10)), "{line}");
    }
}

/// Values on each side of a kind: a property of that kind, what fits, what doesn't.
const KINDS: [(&str, &[&str], &[&str]); 8] = [
    (
        "NOTE",
        &["", "a", ";", "a;b", "\\\\", "\\,", "\\;", "\\n", "\\N", "\\\\\\,", "é", "\t", "\"", ":"],
        &[",", "a,b", "\\", "a\\", "\\x", "\\ ", "\\é", "\\\\,", "\\\\\\", "\\,,"],
    ),
    ("NICKNAME", &["", ",", "a,b", "a;b,c", "\\,,", "\\\\,"], &["\\", "a,\\", "\\x,a", ",\\:"]),
    (
        "URL",
        &["a:", "Z:", "a1+-.:", "a:!~", "a::", "a:\\", "a:,", "a:\"", "a:b:c"],
        &[
            "", "a", ":", ":a", "1:", "+:", "-a:", ".:", "a_:", "a b:", " a:", "a: ", "a:\t", "a:é", "é:",
            "a/b:",
        ],
    ),
    (
        "N",
        &[";;;;", "a;b;c;d;e", "a,b;,;;;", "\\;;;;;", "\\\\;;;;", ";;;;\\n"],
        &["", "a", ";;;", ";;;;;", "\\;;;;", "\\\\;;;", ";;;;\\", ";;\\x;;"],
    ),
    (
        "ADR",
        &[";;;;;;", "a;b;c;d;e;f;g", ",;,;,;,;,;,;,", "\\;;;;;;;"],
        &["", ";;;;", ";;;;;", ";;;;;;;", "\\;;;;;;", ";;;;;;\\"],
    ),
    ("ORG", &["", "a", ";", "a;b;c;d;e;f;g;h", "\\,", "a\\;b"], &[",", "a,b", "a;b,c", "\\", "a;\\x"]),
    (
        "GENDER",
        &["", "M", "F", "O", "N", "U", "m", "f", "o", "n", "u", ";", "M;", "M;a", ";a", "u;a;b", "M;\\,"],
        &["X", "MM", "M ", " M", "Ma", "M,", "M;,", ";,", "M;\\", ";\\x", "é", "M:"],
    ),
    (
        "CLIENTPIDMAP",
        &["1;a:", "0;a:", "99999999999999999999999;a:b", "01;Z:"],
        &[
            "", ";", ";a:", "1", "1;", "1;a", "a;a:", "1a;a:", "-1;a:", "1;:", "1;1:", "1;;a:", "1,a:",
            "1; a:", " 1;a:",
        ],
    ),
];

#[test]
fn every_kind() {
    for (index, (name, fitting, unfit)) in KINDS.iter().enumerate() {
        for value in *fitting {
            assert_eq!(line_kind(&format!("{name}:{value}")), index as u32 + 1, "{name}:{value}");
        }
        for value in *unfit {
            let number = line_verdict(&format!("{name}:{value}")).map_err(|(number, _)| number);
            assert_eq!(number, Err(7), "{name}:{value}");
        }
    }
}

#[test]
fn folds_go_before_check_5() {
    for fold in ["\r\n ", "\r\n\t", "\r\n \r\n\t"] {
        let cut = [b"NOTE:\xE2", fold.as_bytes(), b"\x82\xAC"].concat();
        assert_eq!(verdict(&m_with(&cut)), Ok((1, 5)));
        assert_eq!(copy_and_records(&m_with(&cut)), copy_and_records(&m_with("NOTE:€".as_bytes())));
    }
    assert_eq!(verdict(&m_with(b"NOTE:\xE2\r\n  \x82\xAC")), Err((5, 37)));
}

#[test]
fn card_m_may_be_folded_anywhere() {
    for at in 0..=41 {
        for fold in [b"\r\n ", b"\r\n\t"] {
            let input = [&CARD_M[..at], fold, &CARD_M[at..]].concat();
            let between_cr_and_lf = at > 0 && CARD_M[at - 1] == b'\r';
            if between_cr_and_lf {
                assert_eq!(verdict(&input), Err((3, at - 1)), "{at}");
            } else {
                assert_eq!(copy_and_records(&input), copy_and_records(CARD_M), "{at}");
            }
        }
    }
}

#[test]
fn the_most_lines_fit_their_records() {
    let lines = "A:\r\n".repeat(4_084) + "A:";
    let input = m_with(lines.as_bytes());
    assert_eq!((input.len(), verdict(&input)), (16_383, Ok((1, 4_089))));
    assert_eq!(copy_and_records(&input).1.len(), 32_712);
}
