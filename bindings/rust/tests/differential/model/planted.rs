//! The planted mistake, if there is one, and what a library that makes it counts from call to call.

use super::bug::Bug;
use crate::interface::Call;

/// The counts are of accepted calls less accepted returns, with the mistake and without it.
#[derive(Default)]
pub struct Planted {
    bug: Option<Bug>,
    counted: usize,
    right: usize,
}

impl Planted {
    pub fn new(bug: Option<Bug>) -> Planted {
        Planted { bug, ..Planted::default() }
    }

    pub fn bug(&self) -> Option<Bug> {
        self.bug
    }

    /// How far the count is above the right one.
    pub fn ahead(&self) -> usize {
        self.counted.saturating_sub(self.right)
    }

    /// Takes in a call that was done.
    pub fn count(&mut self, call: &Call) {
        match call {
            Call::Begin { .. } | Call::BeginPages { .. } => {
                self.right = 0;
                self.counted = if self.bug == Some(Bug::DepthCountedOverBegins) { self.counted } else { 0 };
            }
            Call::Invoke { .. } => {
                self.right += 1;
                self.counted += 1;
            }
            Call::Return { .. } => {
                self.right = self.right.saturating_sub(1);
                let lowered = usize::from(self.bug != Some(Bug::DepthNotLoweredByReturns));
                self.counted = self.counted.saturating_sub(lowered);
            }
            _ => {}
        }
    }
}
