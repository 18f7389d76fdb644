//! Random scripts whose calls are all sound, and what their runs leave.

use crate::access::{Access, DataAccess};
use crate::arguments::{configuration, search};
use crate::boards::RandomBoard;
use crate::calls::Call;
use crate::chain_arguments::{chain, hook};
use crate::damage::damaged;
use crate::data_arguments::{conversion, data, read_back};
use crate::model::Second;
use crate::random::Random;
use crate::resource_arguments::resource;
use crate::runs::cell_buffer_length;
use crate::script_encode::{encoded, Asked};
use crate::script_left::Left;
use second::{RECORD_LENGTH, TRAILER_LENGTH};

pub struct Composed {
    pub script: Vec<u8>,
    /// The cell buffer before the run.
    pub cells: Vec<u8>,
    pub left: Left,
    boards: Vec<RandomBoard>,
}

impl Composed {
    /// A script that mostly begins with the load of a board. Each call is performed at
    /// once, as its arguments are chosen with regard to what the calls before it left.
    pub fn new(random: &mut Random) -> Self {
        let boards: Vec<_> = (0..2).map(|_| RandomBoard::new(random)).collect();
        let length = cell_buffer_length(random, boards[0].cells());
        let cells = random.bytes(length);
        let left = Left::new(cells.clone());
        let mut composed = Composed { script: Vec::new(), cells, left, boards };
        if !random.one_in(8) {
            let image = composed.boards[0].image();
            composed.ask(random, Call::Load { image, lent: length });
        }
        for _ in 0..random.within(1..=8) {
            composed.several(random);
        }
        composed
    }

    /// Calls of one kind in a row; at times all functions are hooked before, or what is written
    /// is read in the other edition.
    fn several(&mut self, random: &mut Random) {
        let kind = random.below(20);
        if kind == 0 {
            self.hook_all(random);
        }
        for _ in 0..random.within(1..=4) {
            let second = &self.left.second;
            let call = match kind {
                0..=3 => chain(random, second),
                4 => return self.load(random),
                5 => Call::Reset { lent: 0 },
                6 => write_image(random, second),
                7 => list_window(random, second),
                8..=10 => search(random, &second.parts),
                11..=13 => configuration(random, &second.parts),
                14..=17 => data(random, second),
                18 => conversion(random, second),
                _ => resource(random, second),
            };
            let read_back = read_back(random, &second.parts, &call);
            self.ask(random, call);
            if let Some(read) = read_back.filter(|_| random.one_in(2)) {
                self.ask(random, read);
            }
        }
    }

    fn ask(&mut self, random: &mut Random, call: Call) {
        let call = scripted(call, self.cells.len());
        let asked = Asked { own: own(random, &call), call };
        self.script.extend(encoded(&asked));
        self.left.perform(&asked);
    }

    fn load(&mut self, random: &mut Random) {
        let board = &self.boards[random.below(self.boards.len())];
        let image = match random.one_in(2) {
            true => damaged(random, board),
            false => board.image(),
        };
        self.ask(random, Call::Load { image, lent: 0 });
    }

    /// Hooks all functions in any order.
    fn hook_all(&mut self, random: &mut Random) {
        let mut handles: Vec<_> = (1..=self.left.second.parts.functions() as u32).collect();
        random.shuffle(&mut handles);
        for handle in handles {
            let call = Call::Chain(hook(random, handle));
            self.ask(random, call);
        }
    }
}

/// An image write, mostly with an output that is about as long as it must be.
fn write_image(random: &mut Random, second: &Second) -> Call {
    let fits = RECORD_LENGTH * second.parts.functions() + TRAILER_LENGTH;
    let any = random.below(200);
    let length = random.pick(&[0, 11, fits - 1, fits, fits, fits + 1, any]);
    Call::WriteImage { out: random.bytes(length) }
}

/// A window of the list, one just past it, or a number that must not be cut.
fn list_window(random: &mut Random, second: &Second) -> Call {
    let within = random.below(second.parts.listed().len() + 2) as u32;
    Call::ListWindow { n: random.pick(&[within, within, within, within + 256, u32::MAX]) }
}

/// The call as a script can make it: the whole cell buffer lent, a width and a space that
/// there are.
fn scripted(call: Call, lent: usize) -> Call {
    let configuration = |access: Access| Access { width: some_width(access.width), ..access };
    let data = |access: DataAccess| DataAccess {
        io: access.io.min(1),
        width: some_width(access.width),
        lent,
        ..access
    };
    match call {
        Call::Load { image, .. } => Call::Load { image, lent },
        Call::Reset { .. } => Call::Reset { lent },
        Call::ReadConfig(access) => Call::ReadConfig(configuration(access)),
        Call::FastReadConfig(access) => Call::FastReadConfig(configuration(access)),
        Call::WriteConfig { access, value } => {
            Call::WriteConfig { access: configuration(access), value }
        }
        Call::ReadData(access) => Call::ReadData(data(access)),
        Call::FastReadData(access) => Call::FastReadData(data(access)),
        Call::WriteData { access, value } => Call::WriteData { access: data(access), value },
        call => call,
    }
}

pub fn some_width(width: u32) -> u32 {
    match width {
        1 | 2 | 4 => width,
        _ => 1 << (width % 3),
    }
}

/// The call's own buffer; at times one that it does not use.
fn own(random: &mut Random, call: &Call) -> Vec<u8> {
    match call {
        Call::Load { image: own, .. }
        | Call::WriteImage { out: own }
        | Call::GetResource { out: own, .. } => own.clone(),
        _ if random.one_in(6) => {
            let length = random.below(140);
            random.bytes(length)
        }
        _ => Vec::new(),
    }
}

#[cfg(test)]
mod tests {
    use super::*;

    /// What is asked is what the decoder reads: it leaves the same, to the script's end.
    #[test]
    fn read_as_asked() {
        for seed in 0..100 {
            let Composed { script, cells, left, .. } = Composed::new(&mut Random::new(seed));
            let read = Left::of(&script, cells);
            assert_eq!((left.place, read.place), (script.len(), script.len()), "{seed}");
            assert!(read.script == left.script && read.second.cells == left.second.cells);
            assert_eq!(read.second.parts.first_difference(&left.second.parts), None);
        }
    }
}
