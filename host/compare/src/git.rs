//! The port beside `git check-ref-format`, where git is installed.
use crate::alphabets::{GOOD_NAMES, NAME_PIECES};
use crate::inputs::Random;
use crate::sides::{Check, hex};
use std::collections::BTreeSet;
use std::error::Error;
use std::ffi::OsStr;
use std::os::unix::ffi::OsStrExt;
use std::process::{Command, Stdio};

const NAMES: usize = 3_000;

/// Whether git allows the name; it runs outside of any repository, so that it expands nothing.
fn allowed(option: &str, name: &[u8]) -> Result<bool, Box<dyn Error>> {
    let status = Command::new("git")
        .args(["check-ref-format", option])
        .arg(OsStr::from_bytes(name))
        .current_dir("/")
        .env_remove("GIT_DIR")
        .stdout(Stdio::null())
        .stderr(Stdio::null())
        .status()?;
    match status.code() {
        Some(0) => Ok(true),
        Some(1 | 128) => Ok(false),
        code => Err(format!("git check-ref-format {option} on {} ended with {code:?}", hex(name)).into()),
    }
}

/// Good names, damaged ones and random ones that can be an argument.
fn sample(seed: u64) -> BTreeSet<Vec<u8>> {
    let mut random = Random::new(seed);
    let mut names: BTreeSet<Vec<u8>> = GOOD_NAMES.iter().map(|good| good.to_vec()).collect();
    names.insert(Vec::new());
    while names.len() < NAMES {
        let good = random.pick(GOOD_NAMES);
        let name = if random.below(4) == 0 { random.text(NAME_PIECES) } else { random.damage(good, NAME_PIECES) };
        if !name.contains(&0) {
            names.insert(name);
        }
    }
    names
}

/// Counts of one comparison with git.
#[derive(Default)]
struct Counts {
    names: usize,
    allowed: usize,
    differences: Vec<String>,
    crate_differs: usize,
}

impl Counts {
    /// Holds `check` on `name` against what git said.
    fn add(&mut self, check: Check, name: &[u8], by_git: bool) {
        self.names += 1;
        self.allowed += usize::from(by_git);
        if check.of_port(name).is_allowed() != by_git {
            self.differences.push(format!("{} on {}, git allows it: {by_git}", check.title(), hex(name)));
        }
        self.crate_differs += usize::from(check.of_crate(name).is_allowed() != by_git);
    }

    fn report(&self, title: &str) -> Result<(), Box<dyn Error>> {
        let Counts { names, allowed, differences, crate_differs } = self;
        println!(
            "{title}: {names} names, {allowed} allowed by git; the port differs on {}, the crate on {crate_differs}",
            differences.len()
        );
        match differences.first() {
            Some(first) => Err(format!("difference from git: {first}").into()),
            None => Ok(()),
        }
    }
}

/// Partial names by `--allow-onelevel`, and what follows `refs/heads/` in a branch by `--branch`.
pub fn compare(seed: u64) -> Result<(), Box<dyn Error>> {
    let Ok(version) = Command::new("git").arg("--version").output() else {
        println!("git: not installed, left out");
        return Ok(());
    };
    println!("{}", String::from_utf8_lossy(&version.stdout).trim());
    let (mut partial, mut branch) = (Counts::default(), Counts::default());
    for name in sample(seed) {
        // Git takes an argument that starts with a dash for an option here.
        if !name.starts_with(b"-") {
            partial.add(Check::Partial, &name, allowed("--allow-onelevel", &name)?);
        }
        branch.add(Check::Branch, &[b"refs/heads/", &name[..]].concat(), allowed("--branch", &name)?);
    }
    partial.report("git check-ref-format --allow-onelevel and reference::name_partial")?;
    branch.report("git check-ref-format --branch and reference::branch_name")
}
