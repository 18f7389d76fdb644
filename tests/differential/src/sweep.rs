//! Image checks of B1 with every value of every byte, window shape and trailer field, and of
//! boards with a great sum.

use crate::boards::great_sum;
use crate::calls::Call;
use crate::pair::Pair;
use crate::tally::Tally;
use second::board_b1::{b1_image, b1_records, image_of, set_window, Shape};
use second::{RECORD_LENGTH, TRAILER_LENGTH};

pub fn sweep(tally: &mut Tally) -> Result<(), String> {
    let mut checks = Checks { pair: Pair::new(tally.through, Vec::new()), tally };
    record_bytes(&mut checks)?;
    shapes(&mut checks)?;
    trailers(&mut checks)?;
    great_sums(&mut checks)?;
    lengths(&mut checks)
}

/// Both implementations, before the first load.
struct Checks<'a> {
    pair: Pair,
    tally: &'a mut Tally,
}

impl Checks<'_> {
    fn check(&mut self, image: Vec<u8>, what: impl Fn() -> String) -> Result<(), String> {
        let call = Call::CheckImage { image, room: 65_536 };
        let outcome = self.pair.call(&call, self.tally);
        outcome.map(drop).map_err(|difference| format!("B1 with {}: {difference}", what()))
    }
}

/// One byte of the second record, with the sum put right.
fn record_bytes(checks: &mut Checks) -> Result<(), String> {
    let mut records = b1_records();
    for at in 0..RECORD_LENGTH {
        let before = records[1][at];
        for value in 0..=255 {
            records[1][at] = value;
            checks.check(image_of(&records), || format!("byte {at} of record 1 {value:#x}"))?;
        }
        records[1][at] = before;
    }
    Ok(())
}

/// One window of every exponent, in both spaces, with one more bit or none.
fn shapes(checks: &mut Checks) -> Result<(), String> {
    for k in 0..=255 {
        for bits in 0..=65u64 {
            let (io, more) = (bits % 2, bits / 2);
            let register = (0x8000_0000 | io | 1 << more) as u32;
            let mut records = b1_records();
            set_window(&mut records[0], 5, Shape { register, k, order: 2, widths: 4 });
            let what = || format!("base 5 of record 0 {register:#x}, k {k}");
            checks.check(image_of(&records), what)?;
        }
    }
    Ok(())
}

/// Every edition and count, counts with the distance that belongs to them, distances.
fn trailers(checks: &mut Checks) -> Result<(), String> {
    for number in 0..=0xFFFFu16 {
        let what = |field| move || format!("{field} {number}");
        checks.check(with_trailer(6, &number.to_be_bytes()), what("edition"))?;
        checks.check(with_trailer(4, &number.to_be_bytes()), what("count"))?;
        let distance = RECORD_LENGTH as u32 * u32::from(number) + TRAILER_LENGTH as u32;
        let mut fields = distance.to_be_bytes().to_vec();
        fields.extend(number.to_be_bytes());
        checks.check(with_trailer(0, &fields), what("count and distance of"))?;
        checks.check(with_trailer(2, &number.to_be_bytes()), what("low distance"))?;
        checks.check(with_trailer(0, &number.to_be_bytes()), what("high distance"))?;
        checks.check(with_trailer(10, &number.to_be_bytes()), what("low sum"))?;
        checks.check(with_trailer(8, &number.to_be_bytes()), what("high sum"))?;
    }
    Ok(())
}

/// B1's image with bytes of its trailer set, from the given one on.
fn with_trailer(at: usize, bytes: &[u8]) -> Vec<u8> {
    let mut image = b1_image();
    let first = image.len() - TRAILER_LENGTH + at;
    image[first..first + bytes.len()].copy_from_slice(bytes);
    image
}

/// Record sums about 2^21, in the trailer as they are and with each bit changed.
fn great_sums(checks: &mut Checks) -> Result<(), String> {
    for sound in 0..=5 {
        let mut image = image_of(&great_sum(sound));
        let at = image.len() - 4;
        let sum = u32::from_be_bytes([0, 1, 2, 3].map(|byte| image[at + byte]));
        for wrong in (0..32).map(|bit| 1 << bit).chain([0]) {
            image[at..].copy_from_slice(&(sum ^ wrong).to_be_bytes());
            let what = || format!("{sound} of 16 records sound, the others FFh, sum ^ {wrong:#x}");
            checks.check(image.clone(), what)?;
        }
    }
    Ok(())
}

/// Every length of the image, from its beginning and from its end.
fn lengths(checks: &mut Checks) -> Result<(), String> {
    let image = b1_image();
    for length in 0..=image.len() {
        let last = image[image.len() - length..].to_vec();
        checks.check(last, || format!("its last {length} bytes alone"))?;
        let first = image[..length].to_vec();
        checks.check(first, || format!("its first {length} bytes alone"))?;
    }
    Ok(())
}
