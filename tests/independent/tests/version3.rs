// Knows version 3 cards (document 02, No. 10): RFC 2426's examples, the settled readings, the order of refusals, and the way there and back.

mod common;

use common::{given, taken, verdict, Answer};
use independent::content::parse;
use independent::dice::Dice;
use independent::examples::version3_examples;
use independent::folder::folded_line;
use independent::generator::version3::{card_of_version_3, lines_of};
use independent::properties::{kind_of, row_of};
use independent::version3::{given_out, taken_in, texts_of};

/// These lines, each ended.
fn ended(lines: &[&str]) -> Vec<u8> {
    lines.iter().flat_map(|line| format!("{line}\r\n").into_bytes()).collect()
}

/// The version 3 card with these lines after FN:A and N:A; the first of them starts at 37.
fn set_with(lines: &[&str]) -> Vec<u8> {
    ended(&[&["BEGIN:VCARD", "VERSION:3.0", "FN:A", "N:A"], lines, &["END:VCARD"]].concat())
}

/// What this line is taken in as, or the refusal.
fn line_in(line: &str) -> Answer<String> {
    match taken_in(&set_with(&[line])) {
        Ok(lines) => Ok(String::from_utf8(lines[4].clone()).expect("UTF-8")),
        Err(refusal) => Err((refusal.number, refusal.place)),
    }
}

/// The version 4 card with these lines after FN:A and N:;;;;; the first of them starts at 40.
fn card_with(lines: &[&str]) -> Vec<u8> {
    ended(&[&["BEGIN:VCARD", "VERSION:4.0", "FN:A", "N:;;;;"], lines, &["END:VCARD"]].concat())
}

/// What this line is given out as, or the refusal.
fn line_out(line: &str) -> Answer<String> {
    match given_out(&card_with(&[line])) {
        Ok(lines) => Ok(String::from_utf8(lines[4].clone()).expect("UTF-8")),
        Err(refusal) => Err((refusal.number, refusal.place)),
    }
}

/// The line is taken in as that one.
fn goes_in(line: &str, as_line: &str) {
    assert_eq!(line_in(line), Ok(as_line.to_string()), "{line}");
}

/// The line is given out as that one.
fn goes_out(line: &str, as_line: &str) {
    assert_eq!(line_out(line), Ok(as_line.to_string()), "{line}");
}

#[test]
fn every_example_of_the_source_gets_its_answer() {
    let mut counts = [0, 0];
    for example in version3_examples() {
        let answer = taken(&example.input, 16_384).map_err(|(number, place)| format!("no {number} {place}"));
        let wanted = example.answer.map(|lines| {
            let folded = lines.iter().map(|line| folded_line(line.as_bytes(), 75));
            folded.collect::<Vec<Vec<u8>>>().concat()
        });
        counts[usize::from(wanted.is_ok())] += 1;
        assert_eq!(answer, wanted, "{}\n{}", example.section, String::from_utf8_lossy(&example.input));
    }
    assert_eq!(counts, [32, 20]);
}

#[test]
fn the_example_of_the_readings() {
    let lines = [
        "BEGIN:VCARD", "FN:A", "N:Doe;J", "version:3.0", "TEL;type=HOME,pref:1;2",
        "EMAIL;TYPE=\"Pref\";TYPE=pref,work:a", "GEO:+1.5;-2", "END:VCARD",
    ];
    let wanted = [
        "BEGIN:VCARD", "version:4.0", "FN:A", "N:Doe;J;;;", "TEL;type=HOME;PREF=1:1\\;2",
        "EMAIL;TYPE=work;PREF=1:a", "GEO:geo:+1.5,-2", "END:VCARD",
    ];
    let form = ended(&wanted);
    assert_eq!(taken(&ended(&lines), form.len()), Ok(form.clone()));
    assert_eq!(taken(&ended(&lines), form.len() - 1), Err((15, form.len())));
    assert_eq!(verdict(&form), Ok((1, 8)));
    let back = [
        "BEGIN:VCARD", "version:3.0", "FN:A", "N:Doe;J;;;", "TEL;type=HOME;TYPE=pref:1\\;2",
        "EMAIL;TYPE=work;TYPE=pref:a", "GEO:+1.5;-2", "END:VCARD",
    ];
    assert_eq!(given(&form, 16_384), Ok(ended(&back)));
    assert_eq!(given(&form, 0), Err((15, ended(&back).len())));
}

#[test]
fn types_lose_pref_and_nothing_else() {
    goes_in("TEL;TYPE=home,pref,work:1", "TEL;TYPE=home,work;PREF=1:1");
    goes_in("TEL;TYPE=pref,:1", "TEL;TYPE=;PREF=1:1");
    goes_in("TEL;TYPE=:1", "TEL;TYPE=:1");
    goes_in("TEL;TYPE=pref:1", "TEL;PREF=1:1");
    goes_in("TEL;TYPE=\"pref\":1", "TEL;PREF=1:1");
    goes_in("TEL;TYPE=\"pref,home\":1", "TEL;TYPE=\"pref,home\":1");
    goes_in("TEL;tYpE=\"PrEf\",x;x=y;TYPE=pref;TYPE=\"a;b\":1", "TEL;tYpE=x;x=y;TYPE=\"a;b\";PREF=1:1");
    goes_in("TEL;TYPE=prefs;X=pref;TYPES=pref:1", "TEL;TYPE=prefs;X=pref;TYPES=pref:1");
    goes_in("TEL;TYPE=pref,pref,PREF:1", "TEL;PREF=1:1");
    goes_in("g.NOTE;TYPE=pref:1", "g.NOTE;PREF=1:1");
    for line in ["TEL;PREF=1:1", "TEL;pref=:1", "TEL;TYPE=pref;PREF=1:1", "NOTE;Pref=\"x\":1"] {
        assert_eq!(line_in(line), Err((50, 37)), "{line}");
    }
}

#[test]
fn text_is_escaped_anew_where_the_kind_has_text() {
    goes_in("NOTE:a;b", "NOTE:a\\;b");
    goes_in("NOTE:\\N\\n\\,\\;\\\\", "NOTE:\\n\\n\\,\\;\\\\");
    goes_in("NOTE;VALUE=x:a,b;\\N", "NOTE;VALUE=x:a,b;\\N");
    goes_in("NOTE;VALUE=uri:a:b;,\\N", "NOTE;VALUE=uri:a:b;,\\N");
    goes_in("URL:a:b;,\\N", "URL:a:b;,\\N");
    goes_in("URL;VALUE=text:a;\\N", "URL;VALUE=text:a\\;\\n");
    goes_in("ADR:a,\\N;b\\;", "ADR:a,\\n;b\\;;;;;;");
    goes_in("ADR;VALUE=uri:a", "ADR;VALUE=uri:a;;;;;;");
    goes_in("ORG:a;\\N;", "ORG:a;\\n;");
    for line in [
        "NOTE:a,b", "NOTE:\\x", "NOTE:\\", "ORG:a,b", "ORG:a;\\:", "ADR:;;;;;;;", "ADR:\\", "URL:x", "X-A:1",
        "KIND:x", "URL;VALUE=text:a,b", "N:;;;;", "VERSION:3.0", "VERSION:4.0", "NOTE;VALUE=uri:a",
        "UID:a:b", "CLIENTPIDMAP:1;a:b",
    ] {
        assert_eq!(line_in(line), Err((50, 37)), "{line}");
    }
}

#[test]
fn names_are_filled_to_five_and_addresses_to_seven() {
    let name_in = |value: &str| {
        let lines = ["BEGIN:VCARD", "VERSION:3.0", "FN:A", &format!("N:{value}"), "END:VCARD"];
        match taken_in(&ended(&lines)) {
            Ok(lines) => Ok(String::from_utf8(lines[3].clone()).expect("UTF-8")),
            Err(refusal) => Err((refusal.number, refusal.place)),
        }
    };
    for (value, wanted) in [
        ("", ";;;;"),
        ("a;b,c", "a;b,c;;;"),
        (";;;", ";;;;"),
        (";;;;", ";;;;"),
        ("\\;", "\\;;;;;"),
        ("\\N", "\\n;;;;"),
    ] {
        assert_eq!(name_in(value), Ok(format!("N:{wanted}")), "{value}");
    }
    assert_eq!(name_in(";;;;;"), Err((50, 32)));
    assert_eq!(name_in("a\\"), Err((50, 32)));
    for count in 0..=6 {
        goes_in(&format!("ADR:{}", ";".repeat(count)), "ADR:;;;;;;");
    }
}

#[test]
fn a_geo_is_two_floats() {
    for (value, wanted) in [
        ("1;2", "1,2"),
        ("+1.5;-2", "+1.5,-2"),
        ("-0.0;00.10", "-0.0,00.10"),
        ("999;-999.999", "999,-999.999"),
    ] {
        goes_in(&format!("GEO:{value}"), &format!("GEO:geo:{wanted}"));
        goes_out(&format!("GEO:geo:{wanted}"), &format!("GEO:{value}"));
    }
    goes_in("GEO;VALUE=x:1;2", "GEO;VALUE=x:geo:1,2");
    goes_in("GEO;VALUE=URI:1;2", "GEO;VALUE=URI:geo:1,2");
    for value in [
        "", "1", "1;", ";1", "1;2;3", "1,2", "1.;2", ".1;2", "1e1;2", "1; 2", "+;1", "--1;2", "+-1;2",
        "1.2.3;4", "1\\;2", "geo:1,2", "1;2\\",
    ] {
        assert_eq!(line_in(&format!("GEO:{value}")), Err((50, 37)), "{value}");
    }
    assert_eq!(line_in("GEO;VALUE=text:1;2"), Err((50, 37)));
    for value in [
        "a:1,2", "geo:1", "geo:1,2,3", "GEO:1,2", "Geo:1,2", "geo:1,2;u=35", "geo:1;2", "geo:.1,2", "geo:1,",
        "geo:",
    ] {
        assert_eq!(line_out(&format!("GEO:{value}")), Err((51, 40)), "{value}");
    }
    assert_eq!(line_out("GEO;VALUE=text:geo:1\\,2"), Err((51, 40)));
    goes_out("GEO;VALUE=x:geo:1,2", "GEO;VALUE=x:1;2");
}

#[test]
fn given_out_a_single_pref_of_1_becomes_type_pref() {
    goes_out("TEL;PREF=1:1", "TEL;TYPE=pref:1");
    goes_out("TEL;pref=\"1\";TYPE=a,\"b\":1", "TEL;TYPE=a,\"b\";TYPE=pref:1");
    goes_out("TEL;TYPE=pref;PREF=1:1", "TEL;TYPE=pref;TYPE=pref:1");
    goes_out("TEL;TYPE=pref:1", "TEL;TYPE=pref:1");
    for parameters in [
        "PREF=1,1", "PREF=01", "PREF=", "PREF=2", "PREF=1;PREF=1", "PREF=1,", "PREF=\"\"",
        "PREF=1;X=y;pref=2",
    ] {
        assert_eq!(line_out(&format!("TEL;{parameters}:1")), Err((51, 40)), "{parameters}");
    }
}

#[test]
fn given_out_text_is_escaped_anew_and_all_components_stay() {
    goes_out("NOTE:a;b\\N", "NOTE:a\\;b\\n");
    goes_out("ADR:;;;a,\\N;;;", "ADR:;;;a,\\n;;;");
    goes_out("ORG:;\\N;", "ORG:;\\n;");
    goes_out("NOTE;VALUE=x:a,\\N", "NOTE;VALUE=x:a,\\N");
    for line in ["KIND:x", "UID:a:b", "X-A:1", "NICKNAME:a", "N;ALTID=1:;;;;"] {
        let number = if line.starts_with("N;") { 10 } else { 51 };
        assert_eq!(line_out(line), Err((number, 40)), "{line}");
    }
    let two_names =
        ended(&["BEGIN:VCARD", "VERSION:4.0", "FN:A", "N;ALTID=1:;;;;", "N;ALTID=1:;;;;", "END:VCARD"]);
    assert_eq!(given(&two_names, 999), Err((51, 48)));
    let nameless = ended(&["BEGIN:VCARD", "VERSION:4.0", "FN:A", "END:VCARD"]);
    assert_eq!(given(&nameless, 999), Err((51, 32)));
    assert_eq!(given(&[nameless.clone(), nameless].concat(), 999), Err((51, 32)));
    let card = card_with(&[]);
    assert_eq!(given(&[card.clone(), card.clone()].concat(), 999), Err((51, card.len())));
    assert_eq!(
        given(&[card.clone(), b"BEGIN:VCARD\r\nVERSION:4.0\r\nEND:VCARD\r\n".to_vec()].concat(), 999),
        Err((11, card.len() + 26))
    );
}

#[test]
fn the_order_of_refusals_taking_in() {
    let input = |lines: &[&str]| taken(&ended(lines), 16_384).map(|form| form.len());
    assert_eq!(taken(&[b'a'; 16_385], 0), Err((1, 16_384)));
    assert_eq!(taken(b"", 0), Err((2, 0)));
    assert_eq!(taken(b"BEGIN:VCARD\n", 0), Err((3, 11)));
    assert_eq!(taken(b"BEGIN:VCARD", 0), Err((4, 11)));
    assert_eq!(input(&["FN:A"]), Err((9, 0)));
    assert_eq!(input(&["VERSION:3.0"]), Err((9, 0)));
    assert_eq!(input(&["BEGIN:VCARDS"]), Err((50, 0)));
    assert_eq!(input(&["a.BEGIN:VCARDS"]), Err((8, 0)));
    assert_eq!(input(&["BEGIN:VCARD"]), Err((9, 13)));
    assert_eq!(input(&["BEGIN:VCARD", "a.BEGIN:x"]), Err((9, 13)));
    assert_eq!(input(&["BEGIN:VCARD", "END:VCARD"]), Err((50, 13)));
    assert_eq!(input(&["BEGIN:VCARD", "END;x=y:VCARD"]), Err((8, 13)));
    assert_eq!(input(&["BEGIN:VCARD", "VERSION:2.1"]), Err((50, 13)));
    assert_eq!(input(&["BEGIN:VCARD", "VERSION;x=y:2.1"]), Err((8, 13)));
    assert_eq!(input(&["BEGIN:VCARD", "NOTE;PREF:a"]), Err((41, 13)));
    assert_eq!(input(&["BEGIN:VCARD", "X-A:\u{1}"]), Err((5, 17)));
    let whole = ["BEGIN:vcard", "FN:A", "FN:B", "N:A", "VERSION:3.0", "end:VCard"];
    assert_eq!(input(&whole), Ok(ended(&whole).len() + 4));
    assert_eq!(input(&whole[..5]), Err((9, 43)));
    for lost in [1..3, 3..4, 4..5] {
        let lines = [&whole[..lost.start], &whole[lost.end..]].concat();
        assert_eq!(input(&lines), Err((50, ended(&lines).len() - 11)));
    }
    assert_eq!(input(&[&whole[..5], &["END:x"]].concat()), Err((50, 43)));
    assert_eq!(input(&[whole.as_slice(), &["FN:A"]].concat()), Err((9, 54)));
    assert_eq!(input(&[whole.as_slice(), &["END:VCARD"]].concat()), Err((9, 54)));
    assert_eq!(input(&[whole.as_slice(), &["BEGIN:VCARD", "\u{1}"]].concat()), Err((50, 54)));
    assert_eq!(input(&[whole.as_slice(), &["a.BEGIN:VCARD"]].concat()), Err((8, 54)));
    assert_eq!(input(&[whole.as_slice(), &["BEGIN;:VCARD"]].concat()), Err((41, 54)));
}

/// A version 3 card with notes whose form taken in has this many octets.
fn set_of(size: usize) -> Vec<u8> {
    (0..80)
        .flat_map(|short| (0..500).map(move |long| (short, long)))
        .map(|(short, long)| {
            set_with(&[
                &format!("NOTE:{}", "a".repeat(short)),
                &format!("NOTE:{}", "b".repeat(15_600 + long)),
            ])
        })
        .find(|input| {
            taken_in(input).is_ok_and(|lines| {
                lines.iter().map(|line| folded_line(line, 75).len()).sum::<usize>() == size
            })
        })
        .expect("a card of this size")
}

#[test]
fn sixteen_comes_before_fifteen() {
    assert_eq!(taken(&set_of(16_384), 16_383), Err((15, 16_384)));
    assert!(taken(&set_of(16_384), 16_384).is_ok());
    assert_eq!(taken(&set_of(16_385), 20_000), Err((16, 16_384)));
    assert_eq!(taken(&set_of(16_385), 0), Err((16, 16_384)));
}

/// Each line's name and what its value says, or the octets of a value without text; VERSION second, trailing empty components off.
fn said(lines: &[Vec<u8>]) -> Vec<String> {
    let says = |line: &Vec<u8>| {
        let parts = parse(line).expect("a good line");
        let row = row_of(&parts.name);
        let kind =
            if row.name == "VERSION" || row.name == "GEO" { 0 } else { kind_of(row, &parts.parameters) };
        let mut texts = texts_of(kind, &parts.value).map(|texts| texts.expect("good texts"));
        if let (4 | 5, Some(texts)) = (kind, &mut texts) {
            while texts.last().is_some_and(|list| list == &vec![Vec::<u8>::new()]) {
                texts.pop();
            }
        }
        format!("{:?} {:?} {:?}", parts.group, parts.name, texts.ok_or(parts.value))
    };
    let mut said: Vec<String> = lines.iter().map(says).collect();
    let is_version = |line: &Vec<u8>| line.to_ascii_uppercase().starts_with(b"VERSION:");
    let version = lines.iter().position(is_version).expect("a VERSION");
    let line = said.remove(version);
    said.insert(1, line);
    said
}

#[test]
fn what_is_taken_in_the_reader_accepts_and_given_out_it_says_the_same() {
    let mut dice = Dice::new(7);
    let mut counts = [0, 0];
    for _ in 0..20_000 {
        let input = card_of_version_3(&mut dice);
        let Ok(form) = taken(&input, 16_384) else { continue };
        counts[0] += 1;
        let lines = lines_of(&form);
        assert_eq!(verdict(&form), Ok((1, lines.len())));
        let Ok(back) = given(&form, 16_384) else { continue };
        counts[1] += 1;
        assert_eq!(said(&lines_of(&back)), said(&lines_of(&input)), "{}", String::from_utf8_lossy(&input));
        assert_eq!(taken(&back, 16_384), Ok(form));
    }
    assert!(counts[0] >= 8_000 && counts[1] == counts[0], "{counts:?}");
}
