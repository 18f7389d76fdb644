//! The scripts of one seed: a sound one, and malformed ones made of it.

use crate::parts::Parts;
use crate::proved::Proved;
use crate::random::Random;
use crate::script_compose::Composed;
use crate::script_damage::damaged;
use crate::script_left::Left;
use crate::script_met::ScriptMet;
use second::Board;

/// So that they are chosen by other numbers than the calls of the same seed.
const STREAM: u64 = 0x7363_7269_7074_7321;

/// The malformed ones of each sound script.
const DAMAGED: usize = 2;

/// Runs the scripts of a seed, all over the same lent parts: the first finds zeros or any
/// contents there, the others what the one before left.
pub fn run(seed: u64, met: &mut ScriptMet) -> Result<(), String> {
    let mut random = Random::new(seed ^ STREAM);
    let sound = Composed::new(&mut random);
    let mut proved = Proved::new(&lent(&mut random), &sound.cells);
    let tell = |number, difference| format!("seed {seed}, script {number}: {difference}");
    met.count(&sound.script, &sound.left, &sound.script, &proved.parts());
    sound.left.compare(&mut proved, &sound.script).map_err(|d| tell(0, d))?;
    let places: Vec<_> = sound.left.calls.iter().map(|call| call.place).collect();
    for number in 1..=DAMAGED {
        let script = damaged(&mut random, &sound.script, &places);
        let left = Left::of(&script, sound.cells.clone());
        proved.lend_cells(&sound.cells);
        met.count(&script, &left, &sound.script, &proved.parts());
        left.compare(&mut proved, &script).map_err(|d| tell(number, d))?;
    }
    Ok(())
}

/// Parts that a run must not take for a board: a run begins with the board before the
/// first load.
fn lent(random: &mut Random) -> Parts {
    let mut parts = Parts::of(&Board::new());
    if random.one_in(2) {
        random.fill(&mut parts.records);
        random.fill(&mut parts.registers);
        parts.windows = parts.windows.map(|_| random.number());
        parts.header = parts.header.map(|_| random.long());
        parts.cell_offsets = parts.cell_offsets.map(|_| random.long());
        parts.hooks = parts.hooks.map(|_| random.long());
        parts.used = parts.used.map(|_| random.long());
    }
    parts
}
