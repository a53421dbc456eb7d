//! The rules of a pool by itself.

use super::{Broken, Findings};
use hekthumar::layout::{MAX_FRAMES, PAGE};

/// The rules that a pool's length breaks, whatever the control block.
pub fn broken(pool: &[u8]) -> Vec<Broken> {
    let mut findings = Findings::default();
    if !pool.len().is_multiple_of(PAGE) {
        findings.broken(pool.len(), format!("a pool has a multiple of {PAGE} bytes; found {}", pool.len()));
    }
    findings.at_most(pool.len(), "the number of frames", MAX_FRAMES, (pool.len() / PAGE) as u64);
    findings.0
}
