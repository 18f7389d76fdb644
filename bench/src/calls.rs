//! The arguments of the calls that are timed, and the form in which answers are compared.

use second::{Space, Width};

/// A width in the form of each side, so that neither has to convert it in the timed loop.
#[derive(Clone, Copy, Debug)]
pub struct AskedWidth {
    pub bytes: u32,
    pub width: Width,
}

pub const WIDTHS: [AskedWidth; 3] = [
    AskedWidth { bytes: 1, width: Width::Byte },
    AskedWidth { bytes: 2, width: Width::Word },
    AskedWidth { bytes: 4, width: Width::Long },
];

pub const LONG: AskedWidth = WIDTHS[2];

/// A space in the form of each side.
#[derive(Clone, Copy, Debug)]
pub struct AskedSpace {
    pub io: u32,
    pub space: Space,
}

pub const MEMORY: AskedSpace = AskedSpace { io: 0, space: Space::Memory };
pub const IO: AskedSpace = AskedSpace { io: 1, space: Space::Io };

/// The image of a load.
#[derive(Debug)]
pub struct Image(pub Vec<u8>);

/// What a configuration call names; the value is for a write.
#[derive(Clone, Copy, Debug)]
pub struct ConfigCall {
    pub width: AskedWidth,
    pub handle: u32,
    pub register: u8,
    pub value: u32,
}

/// What a data call names; the value is for a write. The address is the CPU's in draft 1.9, the
/// bus's in the later text.
#[derive(Clone, Copy, Debug)]
pub struct DataCall {
    pub space: AskedSpace,
    pub width: AskedWidth,
    pub handle: u32,
    pub address: u32,
    pub value: u32,
    pub call_edition: u32,
}

/// A hook of a line's chain, by its index.
#[derive(Clone, Copy, Debug)]
pub struct ChainHook {
    pub line: u32,
    pub index: u32,
}

/// What a call of the library leaves, beside its number, in memory that its caller lends.
pub trait Results: Default {
    /// The values, with zeros after the last.
    fn values(self) -> [u64; 6];
}

/// Writes, hooks, reset.
impl Results for () {
    fn values(self) -> [u64; 6] {
        [0; 6]
    }
}

/// The value of a read, the place of a load.
impl Results for u32 {
    fn values(self) -> [u64; 6] {
        [self.into(), 0, 0, 0, 0, 0]
    }
}

/// A listing of windows or of a chain.
impl Results for [u64; 6] {
    fn values(self) -> [u64; 6] {
        self
    }
}

/// All that a call hands back: its number, and its values with zeros after the last.
#[derive(Clone, Copy, Debug, PartialEq, Eq)]
pub struct Answer {
    pub number: i64,
    pub values: [u64; 6],
}

/// A call of the library, and a read by `second`.
impl<R: Results> From<(i32, R)> for Answer {
    fn from((number, results): (i32, R)) -> Self {
        Answer { number: number.into(), values: results.values() }
    }
}

/// A number alone by `second`: writes, hooks, reset.
impl From<i32> for Answer {
    fn from(number: i32) -> Self {
        (number, ()).into()
    }
}

/// A load by `second`.
impl From<second::Verdict> for Answer {
    fn from(verdict: second::Verdict) -> Self {
        Answer { number: verdict.number.into(), values: verdict.place.values() }
    }
}

/// A chain listing by `second`: number, handle, handler, parameter.
impl From<(i32, u32, u32, u32)> for Answer {
    fn from((number, handle, handler, parameter): (i32, u32, u32, u32)) -> Self {
        (number, [handle.into(), handler.into(), parameter.into(), 0, 0, 0]).into()
    }
}

/// A window listing by `second`.
impl From<second::Listing> for Answer {
    fn from(listing: second::Listing) -> Self {
        let window = listing.window;
        let values = [
            window.io.into(),
            window.start.into(),
            window.length.into(),
            window.handle.into(),
            window.base.into(),
            window.contested.into(),
        ];
        (listing.number, values).into()
    }
}
