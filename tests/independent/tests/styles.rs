// Knows request 8: which letters the raised style raises, that rereading gives the same records, and that a second raising changes nothing.

mod common;

use common::*;
use independent::examples::m_with;
use independent::folder::{fold, fold_as_read};
use independent::generator::folds::folds;
use independent::lines::logical_lines;
use independent::refusal::Refusal;
use independent::requests::{request_of, Request};

/// The octets that an entry writes to a large room.
fn written(entry: fn(&[u8], &mut [u8]) -> Result<usize, Refusal>, input: &[u8]) -> Result<Vec<u8>, Refusal> {
    let mut room = vec![0; 16_384];
    let count = entry(input, &mut room)?;
    room.truncate(count);
    Ok(room)
}

/// The line after FN of card M, raised.
fn raised(line: &str) -> String {
    let octets = written(fold, &m_with(line.as_bytes())).expect("a small card");
    String::from_utf8(logical_lines(&octets)[3].octets.clone()).expect("check 5 passed")
}

#[test]
fn names_are_raised_and_values_never() {
    for (line, expected) in [
        ("g.fn;type=\"x:y\";q=a:A", "G.FN;TYPE=\"x:y\";Q=a:A"),
        ("x-a;b=\"c;d=e\",f;g=\"h\";i=:j;k=l", "X-A;B=\"c;d=e\",f;G=\"h\";I=:j;k=l"),
        ("tel;x=é,ß;y=\"ä\":ö", "TEL;X=é,ß;Y=\"ä\":ö"),
        ("z-9.note;a=`{:`{", "Z-9.NOTE;A=`{:`{"),
    ] {
        assert_eq!(raised(line), expected);
    }
    let small = b"begin:vcard\r\nversion:4.0\r\nfn:a\r\nend:vcard\r\n";
    assert_eq!(written(fold, small), Ok(b"BEGIN:vcard\r\nVERSION:4.0\r\nFN:a\r\nEND:vcard\r\n".to_vec()));
    assert_eq!(written(fold_as_read, small), Ok(small.to_vec()));
}

#[test]
fn rereading_gives_the_same_records_and_a_second_raising_changes_nothing() {
    let mut moved = 0;
    for request in folds(8).take(20_000) {
        let Some(Request::Fold { octets, .. }) = request_of(request.as_bytes()) else {
            continue;
        };
        let (as_read, raised) = (written(fold_as_read, &octets), written(fold, &octets));
        assert_eq!(as_read.as_ref().err(), raised.as_ref().err(), "{request}");
        let (Ok(as_read), Ok(raised)) = (as_read, raised) else {
            continue;
        };
        assert!(as_read.eq_ignore_ascii_case(&raised));
        let ((copy, records), (raised_copy, raised_records)) = (copy_and_records(&octets), copy_and_records(&raised));
        assert_eq!(records, raised_records);
        assert!(copy.eq_ignore_ascii_case(&raised_copy));
        assert_eq!(written(fold, &raised), Ok(raised.clone()));
        assert_eq!(written(fold_as_read, &raised), Ok(raised.clone()));
        moved += usize::from(as_read != raised);
    }
    assert!(moved > 1_000, "{moved} inputs had a small letter in a name");
}
