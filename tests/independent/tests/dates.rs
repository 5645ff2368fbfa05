// Knows request 4: dates, times and offsets, by READINGS-02 R4 and the examples of RFC 6350, section 4.3.

mod common;

use common::*;
use independent::dates::minutes;

/// Minutes of an offset, or the refusal.
fn offset(value: &str) -> Answer<i32> {
    minutes(value.as_bytes()).map_err(|refusal| (refusal.number, refusal.place))
}

#[test]
fn the_examples_of_section_4_3_are_taken() {
    let dates = [
        "19850412", "1985-04", "1985", "--0412", "---12", "19961022T140000", "--1022T1400", "---22T14", "T102200", "T1022",
        "T10", "T-2200", "T--00", "T102200Z", "T102200-0800",
    ];
    for date in dates {
        assert_eq!(line_kind(&format!("BDAY:{date}")), 9, "{date}");
        assert_eq!(line_kind(&format!("ANNIVERSARY:{date}")), 9, "{date}");
    }
    for stamp in ["19961022T140000", "19961022T140000Z", "19961022T140000-05", "19961022T140000-0500"] {
        assert_eq!(line_kind(&format!("REV:{stamp}")), 10, "{stamp}");
    }
}

#[test]
fn r4_1_value_and_calscale_set_the_kind() {
    for (line, kind) in [
        ("BDAY:1985", 9),
        ("BDAY;VALUE=uri:1985", 9),
        ("BDAY;VALUE=date:T10", 9),
        ("BDAY;VALUE=:1985", 9),
        ("BDAY;VALUE=TEXT:x", 1),
        ("BDAY;VALUE=text;CALSCALE=julian:x", 1),
        ("BDAY;CALSCALE=julian;VALUE=text:x", 1),
        ("BDAY;VALUE=uri;CALSCALE=julian:x", 0),
        ("BDAY;CALSCALE=:x", 0),
        ("BDAY;CALSCALE=\"Gregorian\":1985", 9),
        ("BDAY;CALSCALE=gregorian,julian:1985", 9),
        ("BDAY;CALSCALE=julian;CALSCALE=gregorian:x", 0),
        ("REV;VALUE=text:19961022T140000", 10),
        ("REV;CALSCALE=julian:19961022T140000", 10),
        ("TZ:x", 1),
        ("TZ;VALUE=text:-05", 1),
        ("TZ;VALUE=uri:a:", 3),
        ("TZ;VALUE=Utc-Offset:-05", 11),
        ("TZ;VALUE=date:x", 0),
        ("GEO;VALUE=utc-offset:x", 0),
        ("NOTE;VALUE=timestamp:x", 0),
        ("NOTE;CALSCALE=julian:x", 1),
    ] {
        assert_eq!(line_kind(line), kind, "{line}");
    }
    assert_eq!(line_verdict("REV;VALUE=text:x"), Err((7, 47)));
    assert_eq!(line_verdict("BDAY;VALUE=date:x"), Err((7, 48)));
}

#[test]
fn r4_3_forms_that_are_not_taken() {
    for (date, octet) in [
        ("198504", 6), ("1985-04-12", 7), ("1985T10", 4), ("--04T10", 4), ("T-22Z", 4), ("T24", 2), ("", 0), ("1985-04T10", 7),
        ("19850412t10", 8), ("19850412T10z", 11), ("19850412,19850413", 8), ("19850412T-22", 9), ("T--00Z", 5),
    ] {
        assert_eq!(line_verdict(&format!("BDAY:{date}")), Err((7, 37 + octet)), "{date}");
    }
    for (stamp, octet) in
        [("19961022", 8), ("19961022T1400", 13), ("--1022T140000", 0), ("1996", 4), ("T140000", 0), ("", 0)]
    {
        assert_eq!(line_verdict(&format!("REV:{stamp}")), Err((7, 36 + octet)), "{stamp}");
    }
    assert_eq!(line_verdict("TZ;VALUE=utc-offset:Z"), Err((7, 52)));
}

#[test]
fn r4_4_limits() {
    for date in ["---31", "--0229", "00000229", "20000229", "20240229", "T--60", "T235960", "T0000+2359", "--1231", "9999"] {
        assert_eq!(line_kind(&format!("BDAY:{date}")), 9, "{date}");
    }
    for (date, octet) in [
        ("---32", 4), ("---00", 4), ("--0230", 4), ("--0431", 5), ("19000229", 7), ("20230229", 7), ("T--61", 4), ("T2360", 3),
        ("T10+2400", 5), ("--1301", 3), ("--0001", 3), ("--0100", 5),
    ] {
        assert_eq!(line_verdict(&format!("BDAY:{date}")), Err((7, 37 + octet)), "{date}");
    }
}

#[test]
fn r4_5_minutes() {
    for (value, count) in [("-0500", -300), ("-05", -300), ("-0000", 0), ("+00", 0), ("+2359", 1439), ("-2359", -1439)] {
        assert_eq!(offset(value), Ok(count), "{value}");
    }
    for (value, octet) in
        [("-2400", 2), ("+2400", 2), ("05", 0), ("-050", 4), ("", 0), ("Z", 0), ("-0560", 3), ("+5", 1), ("-05:00", 3), ("-05000", 5)]
    {
        assert_eq!(offset(value), Err((7, octet)), "{value}");
    }
}
