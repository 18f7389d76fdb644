//! Descriptors by the second implementation: writing them, and a step through them.

use crate::calls::Answer;
use second::{Board, Walker};

pub fn get_resource(board: &Board, handle: u32, out: &[u8]) -> Answer {
    let mut out = out.to_vec();
    let number = board.get_resource(handle, &mut out);
    Answer { out, ..Answer::number(number.into()) }
}

/// A walker that stands at a position, and where it stands after a step.
pub fn descriptor_step(bytes: &[u8], at: usize) -> Answer {
    let mut walker = Walker { bytes, position: at };
    match walker.step() {
        Some(d) => {
            let fields = [d.next.into(), d.flags.into(), d.start, d.length, d.offset, d.dmaoffset];
            Answer::step(1, fields, walker.position)
        }
        None => Answer::step(0, [0; 6], walker.position),
    }
}
