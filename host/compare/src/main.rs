//! Runs the seven ported calls beside those of gix-validate on the same inputs; ends with status 1 at a difference.
//!
//! `compare` compares; `compare --record FILE` writes a sample of the crate's answers.
mod alphabets;
mod characters;
mod comparison;
mod git;
mod inputs;
mod record;
mod sides;

use alphabets::{COMPONENT_PIECES, COMPONENTS, GOOD_COMPONENTS, GOOD_NAMES, NAME_PIECES, NAMES};
use comparison::{Comparison, Outcome};
use inputs::{Random, damaged, every_string, recased};
use std::error::Error;
use std::process::ExitCode;

const SEED: u64 = 0x6775_7368_7465_7261;

/// Short names, damaged ones and random ones.
fn names(comparison: &mut Comparison) -> Outcome {
    let mut random = Random::new(SEED);
    let visit = &mut |input: &[u8]| comparison.name(input);
    (0..=3).try_for_each(|length| every_string(length, visit))?;
    NAMES.iter().try_for_each(|alphabet| alphabet.each(visit))?;
    GOOD_NAMES.iter().try_for_each(|good| damaged(good, visit))?;
    for good in GOOD_NAMES {
        (0..10_000).try_for_each(|_| visit(&random.damage(good, NAME_PIECES)))?;
    }
    (0..500_000).try_for_each(|_| visit(&random.text(NAME_PIECES)))
}

/// Short components, damaged ones, ones with any one character in them, and random ones.
fn components(comparison: &mut Comparison) -> Outcome {
    let mut random = Random::new(SEED);
    let visit = &mut |input: &[u8]| comparison.component(input);
    (0..=2).try_for_each(|length| every_string(length, visit))?;
    COMPONENTS.iter().try_for_each(|alphabet| alphabet.each(visit))?;
    for character in '\0'..=char::MAX {
        visit(format!("{character}.git").as_bytes())?;
        visit(format!(".gi{character}").as_bytes())?;
        visit(format!(".g{character}itmodules").as_bytes())?;
        visit(format!("{character}:").as_bytes())?;
    }
    for good in GOOD_COMPONENTS {
        damaged(good, visit)?;
        recased(good, visit)?;
        (0..5_000).try_for_each(|_| visit(&random.damage(good, COMPONENT_PIECES)))?;
    }
    (0..250_000).try_for_each(|_| visit(&random.text(COMPONENT_PIECES)))
}

fn compare() -> Result<(), Box<dyn Error>> {
    let mut comparison = Comparison::default();
    names(&mut comparison).map_err(|difference| difference.to_string())?;
    println!("names: no difference but the {} branches with a dash at the beginning", comparison.dashed);
    components(&mut comparison).map_err(|difference| difference.to_string())?;
    println!("components: no difference");
    characters::compare()?;
    git::compare(SEED)?;
    let counts: Vec<String> = comparison.counts.iter().map(|(call, cases)| format!("{call} {cases}")).collect();
    let total: u64 = comparison.counts.values().sum();
    println!("cases: {}; {total} in all, as wanted", counts.join(", "));
    Ok(())
}

fn main() -> ExitCode {
    let arguments: Vec<String> = std::env::args().skip(1).collect();
    let result = match arguments.iter().map(String::as_str).collect::<Vec<_>>()[..] {
        [] => compare(),
        ["--record", file] => record::record(file, SEED),
        _ => Err("use: compare [--record FILE]".into()),
    };
    match result {
        Ok(()) => ExitCode::SUCCESS,
        Err(error) => {
            println!("{error}");
            ExitCode::FAILURE
        }
    }
}
