//! The cases, in groups.

pub mod apply;
pub mod case;
pub mod expectations;
pub mod files;
pub mod mistakes;
pub mod reasons;
pub mod run;
pub mod show_control;
pub mod show_list;
pub mod show_snapshot;
pub mod stored;
pub mod usage;
