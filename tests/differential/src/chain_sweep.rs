//! Chains of a full board at every line and place, every used status, and the calls that
//! always give -2.

use crate::calls::Call;
use crate::chain_calls::ChainCall;
use crate::pair::Pair;
use crate::tally::Tally;
use second::board_b1::{b1_image, image_of, plain_record};
use second::FUNCTIONS;

pub fn sweep(tally: &mut Tally) -> Result<(), String> {
    let mut b1 = Loaded::new(b1_image(), tally)?;
    b1.marks()?;
    b1.unsupported()?;
    let mut records = [plain_record(); FUNCTIONS];
    for (record, line) in records.iter_mut().zip([5, 15, 0].into_iter().cycle()) {
        record[0x3C] = line;
    }
    Loaded::new(image_of(&records), tally)?.chains()
}

/// Both implementations with a board loaded.
struct Loaded<'a> {
    pair: Pair,
    tally: &'a mut Tally,
}

impl<'a> Loaded<'a> {
    fn new(image: Vec<u8>, tally: &'a mut Tally) -> Result<Self, String> {
        let mut pair = Pair::new(tally.through, vec![0; 2100]);
        let answer = pair.call(&Call::Load { image, lent: 2100 }, tally)?;
        assert_eq!(answer.number, 0, "a board of the sweep is refused");
        Ok(Loaded { pair, tally })
    }

    fn call(&mut self, call: ChainCall) -> Result<(), String> {
        let outcome = self.pair.call(&Call::Chain(call), self.tally);
        outcome.map(drop).map_err(|difference| format!("chain sweep, {call}: {difference}"))
    }

    /// Every status after every other, with a call-back and without.
    fn marks(&mut self) -> Result<(), String> {
        for handle in 0..=3 {
            for (first, status) in (0..=5).flat_map(|first| (0..=5).map(move |s| (first, s))) {
                for call_back in [0, 0x1234_5678] {
                    self.call(ChainCall::SetUsed { handle, status: first, call_back: 77 })?;
                    self.call(ChainCall::SetUsed { handle, status, call_back })?;
                    self.call(ChainCall::GetUsed { handle })?;
                }
            }
        }
        Ok(())
    }

    fn unsupported(&mut self) -> Result<(), String> {
        for number in 0..=255 {
            let bus = number as u8;
            for message in [0, 1, u32::MAX] {
                self.call(ChainCall::SpecialCycle { bus, message })?;
            }
            for handle in [number, u32::MAX - number] {
                self.call(ChainCall::GetRouting { handle })?;
                self.call(ChainCall::SetInterrupt { handle, mode: number })?;
            }
        }
        Ok(())
    }

    /// Hooks all, from the last function to the first and then from the first on, unhooks
    /// every third, hooks them again, and unhooks all.
    fn chains(&mut self) -> Result<(), String> {
        for handle in (0..=17).rev().chain(0..=17) {
            self.hook(handle)?;
        }
        for handle in (0..=17).step_by(3).chain(1..=2) {
            self.unhook(handle)?;
        }
        for handle in 0..=17 {
            self.hook(handle)?;
        }
        for handle in (0..=17).chain(0..=17) {
            self.unhook(handle)?;
        }
        Ok(())
    }

    fn hook(&mut self, handle: u32) -> Result<(), String> {
        let (handler, parameter) = (handle << 8 | 1, handle << 16 | 2);
        self.call(ChainCall::Hook { handle, handler, parameter })?;
        self.list()
    }

    fn unhook(&mut self, handle: u32) -> Result<(), String> {
        self.call(ChainCall::Unhook { handle })?;
        self.list()
    }

    fn list(&mut self) -> Result<(), String> {
        for line in 0..=17 {
            for place in 0..=7 {
                self.call(ChainCall::List { line, place })?;
            }
        }
        Ok(())
    }
}
