//! Scripts that are likely malformed: cut and lengthened ones, headers with a byte changed,
//! any bytes.

use crate::random::Random;
use crate::script_encode::{HEADER, OWN_LENGTH};

/// A script made of a sound one whose calls stand at these places.
pub fn damaged(random: &mut Random, script: &[u8], places: &[usize]) -> Vec<u8> {
    if places.is_empty() || random.one_in(10) {
        return any_bytes(random);
    }
    let place = place(random, places);
    let mut script = script.to_vec();
    match random.below(9) {
        0 => script.truncate(random.below(script.len() + 1)),
        1 => script.truncate(about_call(random, place)),
        2 => lengthen(random, &mut script),
        _ => change_byte(random, &mut script[place..place + HEADER]),
    }
    script
}

/// At times none.
fn any_bytes(random: &mut Random) -> Vec<u8> {
    let any = random.below(2 * HEADER);
    let length = random.pick(&[0, any, any, any]);
    random.bytes(length)
}

/// Where a call stands: often the first, so that little else is performed, or the last.
fn place(random: &mut Random, places: &[usize]) -> usize {
    match random.below(6) {
        0 => places[0],
        1 => places[places.len() - 1],
        _ => random.pick(places),
    }
}

/// An end of a script that leaves the call at a place not whole, or just leaves it out.
fn about_call(random: &mut Random, place: usize) -> usize {
    let any = random.below(HEADER);
    place + random.pick(&[0, 1, HEADER - 1, HEADER, HEADER + 1, any])
}

/// Some bytes more: any, or zeros.
fn lengthen(random: &mut Random, script: &mut Vec<u8>) {
    let length = random.pick(&[1, 63, 64, 65]);
    let more = match random.one_in(2) {
        true => random.bytes(length),
        false => vec![0; length],
    };
    script.extend(more);
}

/// Changes a byte of a header: often one of the first four, each of which has values that
/// are near to good ones.
fn change_byte(random: &mut Random, header: &mut [u8]) {
    let at = match random.below(13) {
        field @ 0..=3 => field,
        4..=6 => random.within(4..=15),
        7 => random.within(16..=19),
        8 => random.within(20..=OWN_LENGTH - 1),
        9 => random.within(OWN_LENGTH..=HEADER - 1),
        10 => HEADER - 1,
        _ => random.below(HEADER),
    };
    let (any, operation) = (random.byte(), random.within(1..=23) as u8);
    header[at] = match at {
        0 => random.pick(&[operation, operation, 0, 24, 25, 128, 255, any]),
        1 => random.pick(&[0, 1, 2, 3, 4, 5, 8, any]),
        2 => random.pick(&[0, 1, 2, 255, any]),
        _ => random.pick(&[header[at].wrapping_add(1), header[at].wrapping_sub(1), any]),
    };
}
