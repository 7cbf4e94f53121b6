//! The header, the C programs of the folder `examples`, and the C program of the repository's README, with the library.
use std::fs;
use std::path::{Path, PathBuf};
use std::process::Command;

/// A file of the folder `host`.
fn file_of_host(name: &str) -> PathBuf {
    Path::new(env!("CARGO_MANIFEST_DIR")).join("..").join(name)
}

/// A file that a test writes.
fn own_file(name: &str) -> PathBuf {
    Path::new(env!("CARGO_TARGET_TMPDIR")).join(name)
}

/// What a command prints. One that does not start, or ends with another status than 0, fails the test.
fn printed_by(command: &mut Command) -> String {
    let output = command.output().unwrap_or_else(|error| panic!("{command:?} does not start: {error}"));
    let printed = String::from_utf8_lossy(&output.stdout).into_owned();
    let errors = String::from_utf8_lossy(&output.stderr);
    assert!(output.status.success(), "{command:?} ended with {}\n{printed}{errors}", output.status);
    printed
}

/// The compiler with the header's folder, for a language by its name; every warning is an error.
fn compiler(language: &str) -> Command {
    let mut command = Command::new("cc");
    command.args(["-Wall", "-Wextra", "-Wpedantic", "-Werror", "-I"]).arg(file_of_host("include"));
    command.args(["-x", language]);
    command
}

/// What a C program prints that is compiled with the library.
fn printed_by_program(source: &Path, name: &str, arguments: &[&str]) -> String {
    let program = own_file(name);
    let with_library = ["-x", "none", env!("GUSHTERAL_LIBRARY"), "-o"];
    printed_by(compiler("c").arg(source).args(with_library).arg(&program));
    printed_by(Command::new(program).args(arguments))
}

#[test]
fn header_is_c_and_cpp() {
    for (language, name) in [("c", "header.c"), ("c++", "header.cpp")] {
        let source = own_file(name);
        fs::write(&source, "#include \"gushteral.h\"\n").expect("the test's folder can be written to");
        printed_by(compiler(language).arg("-fsyntax-only").arg(source));
    }
}

#[test]
fn null_for_no_bytes() {
    let printed = printed_by_program(&file_of_host("examples/null.c"), "null", &[]);
    assert_eq!(printed, "all calls take NULL\n");
}

#[test]
fn example() {
    let printed = printed_by_program(&file_of_host("examples/example.c"), "example", &["main", "Dr. Jones*", "@"]);
    let lines = [
        "main: number 0, mended main",
        "Dr. Jones*: number 1 (a name may not have this byte: 0x20), mended Dr.-Jones-",
        "@: number 13 (this name is reserved), mended -",
    ];
    assert_eq!(printed.lines().collect::<Vec<_>>(), lines);
}

/// The blocks of a text in Markdown, in order: the word after each fence, and the lines.
fn blocks(text: &str) -> Vec<(&str, Vec<&str>)> {
    let mut lines = text.lines();
    let mut blocks = Vec::new();
    while let Some(line) = lines.next() {
        if let Some(word) = line.strip_prefix("```") {
            blocks.push((word, lines.by_ref().take_while(|line| *line != "```").collect()));
        }
    }
    blocks
}

/// The one C program of the repository's README prints the lines of the block `text` that follows it. The one block of
/// Rust is run with the doctests.
#[test]
fn programs_of_the_readme() {
    let file = file_of_host("../README.md");
    let readme = fs::read_to_string(&file).unwrap_or_else(|error| panic!("{}: {error}", file.display()));
    let blocks = blocks(&readme);
    for language in ["c", "rust"] {
        let count = blocks.iter().filter(|(word, _)| *word == language).count();
        assert_eq!(count, 1, "blocks of {language} in {}", file.display());
    }
    let mut from_program = blocks.iter().skip_while(|(word, _)| *word != "c");
    let (_, program) = from_program.next().expect("there is one block of C");
    let (_, wanted) = from_program.find(|(word, _)| *word == "text").expect("a block `text` follows the program");
    let source = own_file("readme.c");
    fs::write(&source, program.join("\n") + "\n").expect("the test's folder can be written to");
    let printed = printed_by_program(&source, "readme", &[]);
    assert_eq!(printed.lines().collect::<Vec<_>>(), *wanted);
}
