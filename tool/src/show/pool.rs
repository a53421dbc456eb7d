//! What a pool is; what its frames hold is for the control block to say.

use super::{verdict, Shown};
use crate::failure::Failure;
use crate::output::Output;
use crate::rules::pool::broken;
use crate::text::count;
use crate::verdict::pool_valid;
use hekthumar::PAGE;

/// Shows how many frames a pool has.
pub fn show(file: &Shown, out: &mut Output) -> Result<(), Failure> {
    out.line(format_args!("  {}", count((file.bytes.len() / PAGE) as u64, "frame")))?;
    verdict(file, pool_valid(&file.bytes), "", &broken(&file.bytes), out)
}
