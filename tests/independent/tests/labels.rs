// Knows the labels of document 02, No. 9: what each rule takes and gives, the order of refusals, and the way back.

mod common;

use common::{decoded, encoded};
use independent::labels::{Rule, RULES};

const OLD: Rule = Rule::Rfc6350;
const NEW: Rule = Rule::Rfc6868;

#[test]
fn what_encoding_takes_and_gives() {
    for octet in 0..=255u8 {
        let (old, new) = match octet {
            b'\n' => (Err((44, 0)), Ok(b"^n".to_vec())),
            b'"' => (Err((44, 0)), Ok(b"^'".to_vec())),
            b'^' => (Ok(vec![octet]), Ok(b"^^".to_vec())),
            0x09 | 0x20..=0x7E => (Ok(vec![octet]), Ok(vec![octet])),
            _ => (Err((31, 0)), Err((31, 0))),
        };
        assert_eq!(encoded(OLD, &[octet], 2), old, "{octet}");
        assert_eq!(encoded(NEW, &[octet], 2), new, "{octet}");
    }
    assert_eq!(encoded(NEW, b"a\"b", 4), Ok(b"a^'b".to_vec()));
}

#[test]
fn what_decoding_takes_and_gives() {
    for octet in 0..=255u8 {
        let alone = match octet {
            0x09 | 0x20 | 0x21 | 0x23..=0x7E => Ok(vec![octet]),
            _ => Err((31, 0)),
        };
        for rule in RULES {
            assert_eq!(decoded(rule, &[octet], 1), alone, "{octet}");
        }
        let after_caret = match octet {
            b'n' => Ok(vec![b'\n']),
            b'^' => Ok(vec![b'^']),
            b'\'' => Ok(vec![b'"']),
            0x09 | 0x20 | 0x21 | 0x23..=0x7E => Ok(vec![b'^', octet]),
            _ => Err((31, 1)),
        };
        assert_eq!(decoded(NEW, &[b'^', octet], 2), after_caret, "{octet}");
    }
    for (label, value) in [(&b"^^n"[..], &b"^n"[..]), (b"^a^'", b"^a\""), (b"^N^", b"^N^"), (b"^^^", b"^^")] {
        assert_eq!(decoded(NEW, label, 9), Ok(value.to_vec()));
        assert_eq!(decoded(OLD, label, 9), Ok(label.to_vec()));
    }
}

#[test]
fn orders_and_places() {
    for rule in RULES {
        assert_eq!(encoded(rule, b"\"\x00", 9), Err((31, 1)));
        assert_eq!(encoded(rule, b"a\r\n", 9), Err((31, 1)));
        assert_eq!(decoded(rule, b"a\"\xFF", 9), Err((31, 1)));
        assert_eq!(decoded(rule, b"a\xFF\"", 9), Err((31, 1)));
        assert_eq!(decoded(rule, b"\xC3\"", 9), Err((31, 0)));
        assert_eq!(decoded(rule, b"ab\n", 0), Err((31, 2)));
    }
    assert_eq!(encoded(OLD, b"ab\n\"", 0), Err((44, 2)));
    assert_eq!(encoded(OLD, b"ab\"\n", 0), Err((44, 2)));
    assert_eq!(encoded(OLD, b"ab^", 2), Err((15, 3)));
    assert_eq!(encoded(NEW, b"ab^", 3), Err((15, 4)));
    assert_eq!(decoded(NEW, b"ab^^", 2), Err((15, 3)));
    assert_eq!(decoded(OLD, b"ab^^", 3), Err((15, 4)));
}

#[test]
fn sizes_of_values_and_labels() {
    let of = |count: usize, end: &str| [vec![b'a'; count], end.as_bytes().to_vec()].concat();
    for rule in RULES {
        assert_eq!(encoded(rule, &of(16_385, "\0"), 0), Err((1, 16_384)));
        assert_eq!(decoded(rule, &of(16_385, "\""), 0), Err((1, 16_384)));
        assert_eq!(decoded(rule, &of(16_384, ""), 16_384), Ok(of(16_384, "")));
    }
    assert_eq!(encoded(OLD, &of(16_383, "^"), 16_384), Ok(of(16_383, "^")));
    assert_eq!(encoded(NEW, &of(16_383, "^"), 0), Err((16, 16_384)));
    assert_eq!(encoded(NEW, &of(16_382, "^"), 16_383), Err((15, 16_384)));
    assert_eq!(encoded(NEW, &of(16_382, "^"), 16_384), Ok(of(16_382, "^^")));
}

#[test]
fn encoded_then_decoded_is_the_same_value() {
    for value in ["", "^", "^n", "a\"b\nc^d", "Müller \"Halle 3\"\nTor ^4"] {
        let label = encoded(NEW, value.as_bytes(), 16_384).expect("a good value");
        assert_eq!(decoded(NEW, &label, value.len()), Ok(value.as_bytes().to_vec()));
        if !value.contains(['"', '\n']) {
            let same = encoded(OLD, value.as_bytes(), 16_384).expect("a value that the old rule takes");
            assert_eq!(same, value.as_bytes());
            assert_eq!(decoded(OLD, &same, value.len()), Ok(same));
        }
    }
}
