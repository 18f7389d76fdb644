//! A modelled PCI board with its BIOS calls, written from document 01 and requests E1 and
//! E2 of document 02 alone.
#![forbid(unsafe_code)]

mod address;
mod board;
pub mod board_b1;
mod bytes;
mod call_edition;
mod config;
pub mod data;
mod image;
mod interrupt;
mod number;
mod record;
mod resource;
mod search;
mod unsupported;
mod used;
mod walker;
mod windows;

#[cfg(test)]
mod tests;

pub use board::{Board, FUNCTIONS};
pub use call_edition::{DRAFT_1_9, LATER_TEXT};
pub use config::moves_windows;
pub use image::{check_image, Verdict, TRAILER_LENGTH};
pub use interrupt::Hook;
pub use number::*;
pub use record::{Record, BASES, RECORD_LENGTH};
pub use used::Used;
pub use walker::{Descriptor, Walker, DESCRIPTOR_LENGTH};
pub use windows::{KeptWindow, Listing, WINDOWS};
