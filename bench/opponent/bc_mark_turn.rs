//! In place of the crate of this name, whose turns have tables and threads: no mark turn finds memory for a table, so each marking is had alone.

use crate::bc_gates::Host;
use crate::bc_pager::Answer;
use crate::bc_superpages::Space;
use crate::shim::{AllocError, Vec};

pub fn take_mark_turn<R, G>(
    _host: &Host<R, G>,
    _space: &mut Space,
    _workers: u32,
    _hints: &[u32],
    _answers: &mut Vec<Answer>,
) -> Result<(), AllocError> {
    Err(AllocError)
}
