//! The stored outputs, and how a case is compared with its own.

use super::case::Case;
use std::collections::BTreeSet;
use std::fs;
use std::path::PathBuf;

/// The variable that names the one case whose output is to be stored.
const STORE: &str = "HEKTHUMAR_STORE";

/// Runs every case of a group, and fails with all that is wrong.
pub fn check(cases: &[Case]) {
    let wrong: Vec<String> = cases.iter().filter_map(wrong).collect();
    assert!(wrong.is_empty(), "{} of {} cases failed\n\n{}", wrong.len(), cases.len(), wrong.join("\n"));
}

/// Fails unless the names are those of the stored outputs, each once, and the name to be stored is one of them.
pub fn check_names(cases: &[Case]) {
    let mut names = BTreeSet::new();
    for case in cases {
        assert!(names.insert(case.name.clone()), "two cases have the name {}", case.name);
    }
    if let Some(name) = to_store() {
        assert!(names.contains(&name), "{STORE}={name}: there is no such case");
    }
    let stored = fs::read_dir(folder()).expect("there is a folder of stored outputs");
    let stored = stored.map(|file| file.expect("the folder can be read").file_name().to_string_lossy().into_owned());
    let unclaimed: Vec<String> = stored.filter(|name| !names.contains(name)).collect();
    assert!(unclaimed.is_empty(), "no case has these stored outputs: {}", unclaimed.join(", "));
}

/// What is wrong with a case.
fn wrong(case: &Case) -> Option<String> {
    let (printed, mut wrong) = case.carry_out();
    let path = folder().join(&case.name);
    if wrong.is_empty() && to_store().as_ref() == Some(&case.name) {
        fs::write(&path, &printed).unwrap_or_else(|error| panic!("{}: {error}", path.display()));
    }
    let how = format!("{STORE}={} cargo test --offline --test cases stores what is printed", case.name);
    match fs::read_to_string(&path) {
        Ok(stored) if stored == printed => {}
        Ok(stored) => wrong.push(format!("what is printed (+) is not what is stored (-); {how}\n{}", both(&stored, &printed))),
        Err(error) => wrong.push(format!("what is stored cannot be read: {error}; {how}\n{}", both("", &printed))),
    }
    (!wrong.is_empty()).then(|| format!("case {}: {}", case.name, wrong.join("\n")))
}

/// Both texts in full: the lines that they begin and end with in common once, those between of the one and then of the other.
fn both(stored: &str, printed: &str) -> String {
    let (stored, printed): (Vec<&str>, Vec<&str>) = (stored.lines().collect(), printed.lines().collect());
    let shorter = stored.len().min(printed.len());
    let same = |i: &usize| stored[*i] == printed[*i];
    let first = (0..shorter).take_while(same).count();
    let last = (0..shorter - first).take_while(|i| stored[stored.len() - 1 - i] == printed[printed.len() - 1 - i]).count();
    let marked = |mark: &str, lines: &[&str]| lines.iter().map(|line| format!("  {mark} {line}\n")).collect::<String>();
    [
        marked(" ", &stored[..first]),
        marked("-", &stored[first..stored.len() - last]),
        marked("+", &printed[first..printed.len() - last]),
        marked(" ", &stored[stored.len() - last..]),
    ]
    .concat()
}

fn to_store() -> Option<String> {
    std::env::var(STORE).ok()
}

fn folder() -> PathBuf {
    PathBuf::from(concat!(env!("CARGO_MANIFEST_DIR"), "/tests/expected"))
}
