//! The files that the tests read, written from document 01's layouts.

#![allow(dead_code, reason = "each test file takes what it needs")]

pub mod bytes;
pub mod control;
pub mod damaged;
pub mod layout;
pub mod list;
pub mod snapshot;
