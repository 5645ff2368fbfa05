// Knows both sides of every border of folding and of the two text entries, and their laws.

mod common;

use common::*;
use independent::dice::Dice;
use independent::examples::m_with;
use independent::generator::grammar;

#[test]
fn characters_of_each_length_at_the_first_and_second_cut() {
    for wide in ["x", "é", "€", "🚋"] {
        for (cut, before) in [(75, 0), (149, 1)] {
            for place in cut - 4..=cut {
                let line = format!("NOTE:{}{wide}bbbbbb", "a".repeat(place - 5));
                let form = folded(&m_with(line.as_bytes()), 400).expect("room enough");
                let fits = place + wide.len() <= cut;
                let physical: Vec<&[u8]> = form[32..].split(|&octet| octet == b'\n').collect();
                // The line with the character is full, or ends before it, with a CR at its end.
                let holder = physical[before + usize::from(!fits)];
                assert!(std::str::from_utf8(holder).expect("whole characters").contains(wide));
            }
        }
    }
}

#[test]
fn laws_of_folding_on_generated_inputs() {
    let mut dice = Dice::new(7);
    for _ in 0..3_000 {
        let input = grammar::input(&mut dice);
        let Ok(form) = folded_as_read(&input, 16_384) else { continue };
        assert_eq!(copy_and_records(&form), copy_and_records(&input));
        assert_eq!(folded_as_read(&form, 16_384), Ok(form.clone()));
        for line in form.split(|&octet| octet == b'\n') {
            assert!(line.len() <= 76, "75 octets and a CR");
            assert!(std::str::from_utf8(line).is_ok(), "cut at characters");
        }
        assert_eq!(folded_as_read(&input, form.len() - 1), Err((15, form.len())));
        assert_eq!(folded_as_read(&input, form.len()), Ok(form));
    }
}

#[test]
fn what_escaping_takes_and_gives() {
    for octet in 0..=255u8 {
        let expected = match octet {
            b'\\' => Ok(b"\\\\".to_vec()),
            b',' => Ok(b"\\,".to_vec()),
            b';' => Ok(b"\\;".to_vec()),
            0x0A => Ok(b"\\n".to_vec()),
            0x09 | 0x20..=0x7E => Ok(vec![octet]),
            _ => Err((31, 0)),
        };
        assert_eq!(escaped(&[octet], 2), expected, "{octet}");
    }
    assert_eq!(escaped(b"", 0), Ok(vec![]));
}

#[test]
fn what_unescaping_takes_and_gives() {
    for octet in 0..=255u8 {
        let alone = match octet {
            b'\\' | b',' => Err((30, 0)),
            0x09 | 0x20..=0x7E => Ok(vec![octet]),
            _ => Err((31, 0)),
        };
        assert_eq!(unescaped(&[octet], 1), alone, "{octet}");
        let after_backslash = match octet {
            b'n' | b'N' => Ok(vec![0x0A]),
            b'\\' | b',' | b';' => Ok(vec![octet]),
            0x09 | 0x20..=0x7E => Err((30, 0)),
            _ => Err((31, 1)),
        };
        assert_eq!(unescaped(&[b'\\', octet], 1), after_backslash, "{octet}");
    }
    assert_eq!(unescaped(b"", 0), Ok(vec![]));
    assert_eq!(unescaped("\\é".as_bytes(), 3), Err((30, 0)));
}

#[test]
fn sizes_of_texts_and_of_their_escaped_forms() {
    let of = |count: usize, end: &str| ["a".repeat(count).as_bytes(), end.as_bytes()].concat();
    assert_eq!(escaped(&of(16_384, ""), 16_384), Ok(of(16_384, "")));
    assert_eq!(escaped(&of(16_385, ""), 20_000), Err((1, 16_384)));
    assert_eq!(escaped(&of(16_382, ","), 16_384), Ok(of(16_382, "\\,")));
    assert_eq!(escaped(&of(16_383, ","), 20_000), Err((16, 16_384)));
    assert_eq!(escaped(&of(16_383, ","), 0), Err((16, 16_384)));
    assert_eq!(escaped(&of(16_382, ",\0"), 20_000), Err((31, 16_383)));
    assert_eq!(escaped(&of(16_382, ","), 16_383), Err((15, 16_384)));
    assert_eq!(unescaped(&of(16_382, "\\,"), 16_383), Ok(of(16_382, ",")));
    assert_eq!(unescaped(&of(16_382, "\\,"), 16_382), Err((15, 16_383)));
    assert_eq!(unescaped(&of(16_385, ""), 20_000), Err((1, 16_384)));
    assert_eq!(unescaped(&of(16_383, "\\"), 20_000), Err((30, 16_383)));
}

#[test]
fn escaped_then_unescaped_is_the_same_text() {
    let mut dice = Dice::new(8);
    for _ in 0..3_000 {
        let mut text = Vec::new();
        for _ in 0..dice.below(40) {
            grammar::push(&mut text, grammar::character(&mut dice));
        }
        let form = escaped(&text, 16_384).expect("a good text");
        assert_eq!(unescaped(&form, text.len()), Ok(text));
    }
}
