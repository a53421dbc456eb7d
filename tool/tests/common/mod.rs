//! What the tests share: a folder of a test's own, and the tool run in it.

#![allow(dead_code, reason = "each test file takes what it needs")]

pub mod folder;
pub mod tool;
