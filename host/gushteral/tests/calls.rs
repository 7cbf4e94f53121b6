//! The words of refusals, and the register.
use gushteral::{BufferTooShort, ComponentError, ReferenceError, TagError, WORDS_ROOM, enter_all, refusal_text};

#[test]
fn errors_say_what_the_library_says() {
    assert_eq!(TagError::InvalidByte(0x7F).to_string(), "a name may not have this byte: 0x7f");
    assert_eq!(ReferenceError::InvalidByte(b' ').to_string(), "a name may not have this byte: 0x20");
    assert_eq!(ReferenceError::Reserved(b"@").to_string(), "this name is reserved");
    assert_eq!(ComponentError::Empty.to_string(), "the name is empty");
    assert_eq!(
        ComponentError::WindowsIllegalCharacter.to_string(),
        "the name has a character that Windows does not allow, or ends in a dot or a space"
    );
    assert_eq!(BufferTooShort.to_string(), "the buffer must have as many bytes as the text, and at least one");
}

#[test]
fn words_of_every_number() {
    let refusals = |number| matches!(number, 1..=13 | 21..=28 | 31..=34 | 41..=44);
    for number in (0..1000).chain([u32::MAX - 1, u32::MAX]) {
        let mut buf = [0; WORDS_ROOM];
        let words = refusal_text(number, None, &mut buf).expect("the buffer is long enough");
        assert_eq!(!words.is_empty(), refusals(number), "{number}: {words}");
    }
}

#[test]
fn words_in_a_buffer() {
    let words = "a name may not have this byte: 0x09";
    let mut buf = [7; 40];
    let short = words.len() - 1;
    assert_eq!(refusal_text(1, Some(b'\t'), &mut buf[..short]), Err(BufferTooShort));
    assert_eq!(buf, [7; 40]);
    assert_eq!(refusal_text(1, Some(b'\t'), &mut buf), Ok(words));
    assert_eq!(buf[words.len()..], [7; 40][words.len()..]);
    assert_eq!(refusal_text(1, None, &mut buf), Ok("a name may not have this byte"));
}

#[test]
fn names_that_meet_are_refused() {
    let mut answers = [7; 6];
    let kept = enter_all(b"ab/cAB/dab/*ab/ea", 4, &mut answers);
    assert_eq!((kept, answers), (2, [0, 41, 7, 0, 7, 7]));
    assert_eq!(enter_all(b"abcd", 0, &mut answers), 0);
    assert_eq!(enter_all(b"abcd", 2, &mut []), 0);
}
