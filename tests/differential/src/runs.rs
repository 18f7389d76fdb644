//! One seeded run: random calls on one board and one cell buffer, compared after each.

use crate::alter::alter;
use crate::arguments::{configuration, lent, search};
use crate::boards::RandomBoard;
use crate::calls::{Answer, Call};
use crate::chain_arguments::{chain, hook};
use crate::chain_calls::ChainCall;
use crate::damage::damaged;
use crate::data_arguments::{conversion, data, read_back};
use crate::model::Second;
use crate::pair::Pair;
use crate::parts::Parts;
use crate::random::Random;
use crate::resource_arguments::{descriptors, position, resource};
use crate::tally::Tally;
use second::{RECORD_LENGTH, TRAILER_LENGTH};

struct Run<'a> {
    random: Random,
    boards: Vec<RandomBoard>,
    pair: Pair,
    /// The image that was written last.
    written: Vec<u8>,
    tally: &'a mut Tally,
    calls: usize,
}

/// Performs the run of a seed; a difference is told with the call that made it.
pub fn run(seed: u64, tally: &mut Tally) -> Result<(), String> {
    let mut run = Run::new(seed, tally);
    for _ in 0..run.random.within(15..=95) {
        run.step().map_err(|difference| format!("seed {seed}, {difference}"))?;
    }
    Ok(())
}

impl<'a> Run<'a> {
    fn new(seed: u64, tally: &'a mut Tally) -> Self {
        let mut random = Random::new(seed);
        let boards: Vec<_> = (0..3).map(|_| RandomBoard::new(&mut random)).collect();
        let length = cell_buffer_length(&mut random, boards[0].cells());
        let pair = Pair::new(tally.through, random.bytes(length));
        Run { random, boards, pair, written: Vec::new(), tally, calls: 0 }
    }

    fn step(&mut self) -> Result<(), String> {
        match self.random.below(56) {
            0..=5 => self.load(),
            6..=8 => self.reset(),
            9..=11 => self.write_image(),
            12 => self.list_all(),
            13 => self.list_some(),
            14 | 15 => self.check_image(),
            16 | 17 => self.change_cells(),
            18 => self.hook_all(),
            19..=21 => {
                let cells = self.pair.cells().len();
                self.change_parts(|random, parts| alter(random, parts, cells))
            }
            22..=27 => self.several(|random, second| configuration(random, &second.parts)),
            28..=31 => self.several(|random, second| search(random, &second.parts)),
            32..=42 => self.data(),
            43 => self.several(conversion),
            44..=48 => self.several(chain),
            49 => self.list_chains(),
            50..=53 => self.resources(),
            _ => {
                let bytes = descriptors(&mut self.random);
                self.walk(&bytes)
            }
        }
    }

    fn call(&mut self, call: Call) -> Result<(), String> {
        self.answer(call).map(drop)
    }

    /// Performs a call in both implementations and compares all that it leaves.
    fn answer(&mut self, call: Call) -> Result<Answer, String> {
        self.calls += 1;
        let outcome = self.pair.call(&call, self.tally);
        outcome.map_err(|difference| format!("call {} ({call}): {difference}", self.calls))
    }

    /// Calls of one kind in a row: what one leaves is the next one's board. On an empty
    /// board there is not much to ask.
    fn several(&mut self, choose: fn(&mut Random, &Second) -> Call) -> Result<(), String> {
        for _ in 0..self.calls_in_a_row() {
            let call = choose(&mut self.random, self.pair.second());
            self.call(call)?;
        }
        Ok(())
    }

    fn calls_in_a_row(&mut self) -> usize {
        let most = if self.pair.parts().functions() == 0 { 1 } else { 6 };
        self.random.within(1..=most)
    }

    /// Data calls in a row; at times what was written is read in the other edition.
    fn data(&mut self) -> Result<(), String> {
        for _ in 0..self.calls_in_a_row() {
            let call = data(&mut self.random, self.pair.second());
            let read_back = read_back(&mut self.random, self.pair.parts(), &call);
            self.call(call)?;
            if let Some(read) = read_back.filter(|_| self.random.one_in(3)) {
                self.call(read)?;
            }
        }
        Ok(())
    }

    fn load(&mut self) -> Result<(), String> {
        let (image, cells) = self.image();
        let whole = self.pair.cells().len();
        let lent = lent(&mut self.random, whole, cells);
        self.call(Call::Load { image, lent })
    }

    fn reset(&mut self) -> Result<(), String> {
        let total = *self.pair.parts().cell_offsets.last().unwrap_or(&0);
        let lent = lent(&mut self.random, self.pair.cells().len(), total as usize);
        self.call(Call::Reset { lent })
    }

    fn write_image(&mut self) -> Result<(), String> {
        let fits = self.image_length();
        let any = self.random.below(fits + 2000);
        let length = self.random.pick(&[0, 11, 12, fits - 1, fits, fits, fits + 1, any]);
        let out = self.random.bytes(length);
        let answer = self.answer(Call::WriteImage { out })?;
        if answer.number == 0 {
            self.written = answer.out;
            self.written.truncate(fits);
        }
        Ok(())
    }

    /// Lists every window, the place after the last, the next, and the last of all.
    fn list_all(&mut self) -> Result<(), String> {
        let end = self.pair.parts().listed().len() as u32;
        for n in (0..=end + 1).chain([u32::MAX]) {
            self.call(Call::ListWindow { n })?;
        }
        Ok(())
    }

    fn list_some(&mut self) -> Result<(), String> {
        let any = self.random.long();
        let n = self.random.pick(&[0, 1, 2, 95, 96, 97, 256, 0x1_0000, 0x8000_0000, any]);
        self.call(Call::ListWindow { n })
    }

    fn check_image(&mut self) -> Result<(), String> {
        let (image, cells) = self.image();
        let any = self.random.below(70_000);
        let room = match self.random.one_in(2) {
            true => self.random.pick(&[0, 65_535, 65_536, 65_537, 1 << 32, usize::MAX, any]),
            false => lent(&mut self.random, usize::MAX, cells),
        };
        self.call(Call::CheckImage { image, room })
    }

    /// Hooks all functions in any order.
    fn hook_all(&mut self) -> Result<(), String> {
        let mut handles: Vec<_> = (1..=self.pair.parts().functions() as u32).collect();
        self.random.shuffle(&mut handles);
        for handle in handles {
            let call = hook(&mut self.random, handle);
            self.call(Call::Chain(call))?;
        }
        Ok(())
    }

    /// Lists every line that there is to its end, and the one after.
    fn list_chains(&mut self) -> Result<(), String> {
        for line in 0..=16 {
            for place in 0.. {
                let call = Call::Chain(ChainCall::List { line, place });
                if self.answer(call)?.number != 0 {
                    break;
                }
            }
        }
        Ok(())
    }

    /// Asks for the descriptors of functions, and walks over some of them.
    fn resources(&mut self) -> Result<(), String> {
        for _ in 0..self.random.within(1..=4) {
            let call = resource(&mut self.random, self.pair.second());
            let answer = self.answer(call)?;
            if self.random.one_in(4) {
                self.walk(&answer.out)?;
            }
        }
        Ok(())
    }

    /// Walks over descriptors to the end, and makes some steps elsewhere.
    fn walk(&mut self, bytes: &[u8]) -> Result<(), String> {
        let step = |at| Call::DescriptorStep { bytes: bytes.to_vec(), at };
        let mut answer = self.answer(step(0))?;
        while answer.number == 1 {
            answer = self.answer(step(answer.following))?;
        }
        for _ in 0..3 {
            let at = position(&mut self.random, bytes.len());
            self.call(step(at))?;
        }
        Ok(())
    }

    /// Gives all cells other contents: data writes alone would leave most of them 0.
    fn change_cells(&mut self) -> Result<(), String> {
        self.pair.change_cells(|cells| self.random.fill(cells));
        Ok(())
    }

    fn change_parts(&mut self, change: impl Fn(&mut Random, &mut Parts)) -> Result<(), String> {
        self.pair.change_parts(|parts| change(&mut self.random, parts));
        Ok(())
    }

    /// An image to load, with the cells that the board it came from needs.
    fn image(&mut self) -> (Vec<u8>, usize) {
        let board = &self.boards[self.random.below(self.boards.len())];
        let image = match self.random.below(20) {
            0..=8 => board.image(),
            9..=17 => damaged(&mut self.random, board),
            18 => self.written.clone(),
            _ => {
                let length = self.random.below(40);
                self.random.bytes(length)
            }
        };
        (image, board.cells())
    }

    /// The length of the image that the writer writes.
    fn image_length(&self) -> usize {
        RECORD_LENGTH * self.pair.parts().functions() + TRAILER_LENGTH
    }
}

/// None, just enough for so many cells, one less, about the limit, or any length.
pub fn cell_buffer_length(random: &mut Random, cells: usize) -> usize {
    let any = random.below(65_536);
    match random.below(10) {
        0 => 0,
        1 | 2 => cells.min(65_536),
        3 => cells.saturating_sub(1),
        4..=6 => 65_536,
        7 => 65_537 + any / 16,
        _ => any,
    }
}
