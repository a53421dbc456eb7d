//! The tool on files, each case against its stored output in `expected/`. A stored output is updated only by name:
//! `HEKTHUMAR_STORE=NAME cargo test --offline --test cases`.

mod common;
mod data;
mod groups;

use groups::{case::Case, stored};

/// A test for each group, so that a failure names it.
macro_rules! groups {
    ($($group:ident)*) => {
        $(
            #[test]
            fn $group() {
                stored::check(&groups::$group::cases());
            }
        )*

        fn all_cases() -> Vec<Case> {
            [$(groups::$group::cases()),*].into_iter().flatten().collect()
        }
    };
}

groups!(usage run mistakes expectations reasons show_snapshot show_control show_list apply files);

#[test]
fn names() {
    stored::check_names(&all_cases());
}
