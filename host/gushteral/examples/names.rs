//! Checks each argument as a partial reference name and mends it where it is none.
use gushteral::{reference_name_partial, reference_name_partial_or_sanitize};
use std::os::unix::ffi::OsStrExt;

fn main() {
    for text in std::env::args_os().skip(1) {
        let text = text.as_bytes();
        let mut buf = vec![0; text.len().max(1)];
        match (reference_name_partial(text), reference_name_partial_or_sanitize(text, &mut buf)) {
            (Ok(name), _) => println!("{}: allowed", name.escape_ascii()),
            (Err(error), Ok(handle)) => {
                println!(
                    "{}: refused by {} ({error}), mended {}",
                    text.escape_ascii(),
                    error.number(),
                    handle.escape_ascii()
                );
            }
            (Err(_), Err(short)) => println!("{short}"),
        }
    }
}
