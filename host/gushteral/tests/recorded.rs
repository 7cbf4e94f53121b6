//! The port's answers beside those of gix-validate 0.13.1 that are kept in crates/replay/stdin.
use gushteral::{Mode, Options, ReferenceError};

const ANSWERS: &str = include_str!("../../../crates/replay/stdin");

/// The bytes of hexadecimal digits; `-` stands for none.
fn bytes(digits: &str) -> Vec<u8> {
    if digits == "-" {
        return Vec::new();
    }
    let pairs = digits.as_bytes().chunks(2).map(|pair| str::from_utf8(pair).unwrap());
    pairs.map(|pair| u8::from_str_radix(pair, 16).unwrap()).collect()
}

fn hex(bytes: &[u8]) -> String {
    bytes.iter().map(|byte| format!("{byte:02x}")).collect()
}

/// A result in the words of the file.
fn told(result: Result<&[u8], ReferenceError<'_>>) -> String {
    match result {
        Ok(_) => "0".into(),
        Err(ReferenceError::InvalidByte(byte)) => format!("1 {byte:02x}"),
        Err(ReferenceError::Reserved(name)) => format!("13 {}", hex(name)),
        Err(error) => error.number().to_string(),
    }
}

/// The mended text; every byte of a buffer that is longer than needed is looked at too.
fn mended(input: &[u8]) -> String {
    let room = input.len().max(1);
    let mut buf = vec![0xA5; room + 3];
    let text =
        gushteral::reference_name_partial_or_sanitize(input, &mut buf).expect("the buffer is long enough").to_vec();
    let zeros = vec![0; room - text.len()];
    assert_eq!(buf, [&text[..], &zeros, &[0xA5; 3]].concat());
    hex(&text)
}

fn component(settings: &str, input: &[u8]) -> String {
    let on = |letter| settings.contains(letter);
    let options = Options { protect_windows: on('w'), protect_hfs: on('h'), protect_ntfs: on('n') };
    let result = gushteral::path_component(input, on('l').then_some(Mode::Symlink), options);
    result.map_or_else(|error| error.number(), |_| 0).to_string()
}

/// What the port answers to a line, and what the line says.
fn answer(line: &str) -> (String, String) {
    let fields: Vec<&str> = line.split(' ').collect();
    let (settings, input, recorded) = match fields[..] {
        ["c", settings, input, number] => (settings, bytes(input), number.into()),
        [_, input, ref recorded @ ..] => ("", bytes(input), recorded.join(" ")),
        _ => panic!("no line of the format: {line}"),
    };
    let found = match fields[0] {
        "t" => told(gushteral::tag_name(&input).map_err(ReferenceError::from)),
        "p" => told(gushteral::reference_name_partial(&input)),
        "n" => told(gushteral::reference_name(&input)),
        "b" => told(gushteral::reference_branch_name(&input)),
        "m" => mended(&input),
        "c" => component(settings, &input),
        "d" => u8::from(gushteral::path_component_is_windows_device(&input)).to_string(),
        call => panic!("no call {call}"),
    };
    (found, recorded)
}

#[test]
fn recorded_answers() {
    assert!(ANSWERS.lines().count() >= 1_000);
    for line in ANSWERS.lines() {
        let (found, recorded) = answer(line);
        assert_eq!(found, recorded, "{line}");
    }
}

#[test]
fn dash_at_the_beginning_of_a_branch() {
    let name = b"refs/heads/-draft";
    assert_eq!(gushteral::reference_branch_name(name), Err(ReferenceError::Reserved(name)));
}

#[test]
fn short_buffer_stays() {
    let mut buf = [7; 2];
    let result = gushteral::reference_name_partial_or_sanitize(b"a b", &mut buf);
    assert_eq!(result, Err(gushteral::BufferTooShort));
    assert_eq!(buf, [7; 2]);
}
