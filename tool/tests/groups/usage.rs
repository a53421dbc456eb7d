//! The command line itself, and the commands that read no file.

use super::case::Case;

pub fn cases() -> Vec<Case> {
    vec![
        Case::new("usage", ""),
        Case::new("usage-unknown", "explain"),
        Case::raw("usage-empty", &[b""]),
        Case::new("usage-words", "run snapshot"),
        Case::new("usage-too-many", "run snapshot script more"),
        Case::new("usage-show", "show"),
        Case::new("usage-apply", "apply list 1 slots"),
        Case::new("usage-demo", "demo again"),
        Case::new("usage-version", "--version again"),
        Case::raw("usage-escape", &[b"\x1b[2Jclear"]),
        Case::raw("usage-not-text", &[b"sh\xffw", b"control"]),
        Case::new("demo", "demo"),
        Case::new("help", "--help"),
        Case::new("version", "--version"),
    ]
}
