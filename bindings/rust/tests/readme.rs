//! README.md shows the examples as they are, and the one in C compiles without a warning, runs, and finds both bookings and the
//! account's end.

use std::path::{Path, PathBuf};
use std::process::Command;

fn root() -> PathBuf {
    Path::new(env!("CARGO_MANIFEST_DIR")).join("../..")
}

fn text(path: &str) -> String {
    let path = root().join(path);
    std::fs::read_to_string(&path).unwrap_or_else(|error| panic!("{}: {error}", path.display()))
}

/// The README's first block of code in a language.
fn block(language: &str) -> String {
    let readme = text("README.md");
    let start = readme.split_once(&format!("```{language}\n")).unwrap_or_else(|| panic!("README.md has no block of {language}")).1;
    start.split_once("```").expect("the block ends").0.to_string()
}

fn lines(text: &str) -> usize {
    text.lines().filter(|line| !line.is_empty()).count()
}

/// Compiles a C or C++ file against the header with every warning an error.
fn compile(compiler: &str, arguments: &[&str]) {
    let warnings = ["-Wall", "-Wextra", "-pedantic", "-Werror", "-I"];
    let done = Command::new(compiler).args(warnings).arg(root().join("include")).args(arguments).status();
    assert!(done.expect("a C compiler is needed").success(), "{compiler} {arguments:?}");
}

#[test]
fn hosts_are_shown_as_they_are() {
    assert_eq!(block("c"), text("examples/c/host.c"));
    assert_eq!(block("rust"), text("bindings/rust/examples/host.rs"));
    assert!(lines(&block("c")) <= 30 && lines(&block("rust")) <= 30, "a host takes 30 lines");
}

#[test]
fn the_host_in_c_runs() {
    let source = root().join("examples/c/host.c");
    let host = Path::new(env!("CARGO_TARGET_TMPDIR")).join("host");
    let (source, program) = (source.to_str().expect("a path in UTF-8"), host.to_str().expect("a path in UTF-8"));
    compile("cc", &["-std=c11", "-O2", source, env!("HEKTHUMAR_ARCHIVE"), "-o", program]);
    let out = Command::new(&host).output().expect("the host runs");
    let printed = "refused 0, pages changed 1, bookings 11 22\na span past the end: refused with 13 at byte 4 of 8\n";
    assert_eq!(String::from_utf8_lossy(&out.stdout), printed);
    assert!(out.status.success());
}

#[test]
fn the_header_is_clean_in_c_and_cpp() {
    let header = root().join("include/hekthumar.h");
    let header = header.to_str().expect("a path in UTF-8");
    compile("cc", &["-std=c11", "-fsyntax-only", "-x", "c", header]);
    compile("c++", &["-std=c++17", "-fsyntax-only", "-x", "c++", header]);
}
