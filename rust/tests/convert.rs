//! Conversions to canonical binary and to text.

use wmod::{build, canon, show, ErrorKind, Options, Why};

/// A module with numbers longer than needed, and a custom section.
const LONG: &[u8] =
    b"\0asm\x01\0\0\0\x01\x88\0\x81\0\x60\x02\x7f\x7f\x01\x7f\x03\x02\x01\0\x0a\x09\x01\x07\0\x20\0\x20\x01\x6a\x0b\0\x02\x01x";
const SHORT: &[u8] =
    b"\0asm\x01\0\0\0\x01\x07\x01\x60\x02\x7f\x7f\x01\x7f\x03\x02\x01\0\x0a\x09\x01\x07\0\x20\0\x20\x01\x6a\x0b";

#[test]
fn the_canonical_binary_is_one() {
    assert_eq!(canon(LONG).unwrap(), SHORT);
    assert_eq!(canon(SHORT).unwrap(), SHORT);
}

#[test]
fn a_text_is_read_back() {
    let text = show(LONG).unwrap();
    assert!(text.contains("local.get 1\n    i32.add"), "{text}");
    assert_eq!(build(text).unwrap(), SHORT);
}

#[test]
fn a_text_longer_than_the_first_room() {
    // 9,000 locals in a few bytes
    let bytes =
        b"\0asm\x01\0\0\0\x01\x04\x01\x60\0\0\x03\x02\x01\0\x0a\x07\x01\x05\x01\xa8\x46\x7f\x0b";
    let text = show(bytes).unwrap();
    assert!(text.len() > 36_000);
    assert_eq!(build(text).unwrap(), bytes);
    assert_eq!(
        Options::new().locals(8_999).show(bytes).unwrap_err().why(),
        Why::ManyLocals
    );
}

#[test]
fn refusals_have_their_kind() {
    let said = |error: wmod::Error| (error.kind(), error.why(), error.offset());
    assert_eq!(
        said(canon(b"\0asn").unwrap_err()),
        (ErrorKind::Module, Why::Magic, Some(4))
    );
    assert_eq!(
        said(show(b"").unwrap_err()),
        (ErrorKind::Module, Why::Truncated, Some(0))
    );
    assert_eq!(
        said(build("(module (start $f))").unwrap_err()),
        (ErrorKind::Text, Why::TextUnknownId, Some(15))
    );
    assert_eq!(
        said(build("(module (start 0))").unwrap_err()),
        (ErrorKind::Module, Why::Index, Some(11))
    );
    assert_eq!(
        said(build(b"\xff").unwrap_err()),
        (ErrorKind::Text, Why::TextNotUtf8, Some(0))
    );
}

#[test]
fn older_words_are_read_where_they_are_asked_for() {
    let text = "(module (type (func (param i32))) (func (type 0) get_local 0 drop))";
    let bytes = Options::new().old_words(true).build(text).unwrap();
    assert!(show(&bytes).unwrap().contains("local.get 0"));
    assert_eq!(build(text).unwrap_err().name(), "UnknownWord");
}
