//! Descriptors, the walker and address conversions.

use super::{board_of, fresh_b1, record_with, LENT};
use crate::board_b1::plain_record;
use crate::Width::Long;
use crate::{Board, Descriptor, Walker};

#[test]
fn descriptor_bytes() {
    let mut record = record_with(&[(0x8000_0000, 10), (0, 0), (0x101, 4)]);
    record[536..544].copy_from_slice(&[0x11, 0x22, 0x33, 0x44, 0x55, 0x66, 0x77, 0x88]);
    record[512 + 9] = 15;
    record[512 + 10] = 5;
    let (board, _) = board_of(&[record]);
    let mut out = [LENT; 43];
    assert_eq!(board.get_resource(1, &mut out[..39]), -7);
    assert_eq!(out, [LENT; 43]);
    assert_eq!(board.get_resource(1, &mut out), 0);
    let offsets = [0x11, 0x22, 0x33, 0x44, 0x55, 0x66, 0x77, 0x88];
    assert_eq!(out[..12], [0, 20, 7, 0, 0x80, 0, 0, 0, 0, 0, 4, 0]);
    assert_eq!(out[12..20], offsets);
    assert_eq!(out[20..32], [0, 20, 0xC5, 0x0F, 0, 0, 1, 0, 0, 0, 0, 16]);
    assert_eq!(out[32..40], offsets);
    assert_eq!(out[40..], [LENT; 3]);
}

#[test]
fn resource_numbers() {
    let (board, _) = board_of(&[plain_record()]);
    let mut out = [LENT; 20];
    assert_eq!(board.get_resource(2, &mut []), -9);
    assert_eq!(board.get_resource(0, &mut out), -9);
    assert_eq!(board.get_resource(1, &mut []), -8);
    assert_eq!(board.get_resource(1, &mut out), -8);
    assert_eq!(out, [LENT; 20]);
}

#[test]
fn closed_and_contested_start_at_zero() {
    let (mut board, _) = fresh_b1();
    let starts = |board: &Board| {
        let mut out = [0; 40];
        assert_eq!(board.get_resource(2, &mut out), 0);
        let mut walker = Walker::new(&out);
        [walker.step(), walker.step()].map(|step| step.map(|d| (d.start, d.length)))
    };
    let both = |memory, io| [Some((memory, 0x400)), Some((io, 0x10))];
    assert_eq!(starts(&board), both(0x8000_0400, 0x100));
    board.write_config(2, 0x10, Long, 0x8000_0000);
    assert_eq!(starts(&board), both(0, 0x100));
    board.write_config(1, 0x10, Long, 0);
    assert_eq!(starts(&board), both(0x8000_0000, 0x100));
    board.write_config(2, 0x04, Long, 2);
    assert_eq!(starts(&board), both(0x8000_0000, 0));
    board.write_config(2, 0x04, Long, 0);
    assert_eq!(starts(&board), both(0, 0));
}

fn bytes_of(parts: &[(u16, u16)]) -> Vec<u8> {
    let part = |&(next, flags): &(u16, u16)| Descriptor { next, flags, ..Descriptor::default() };
    parts.iter().flat_map(|p| part(p).to_bytes()).collect()
}

fn walked(bytes: &[u8]) -> Vec<u16> {
    let mut walker = Walker::new(bytes);
    // Bounded, so that a walker that stands still fails and does not run on.
    let flags = std::iter::from_fn(|| walker.step()).take(9).map(|d| d.flags).collect();
    assert_eq!((walker.step(), walker.step()), (None, None));
    flags
}

#[test]
fn walker_steps_and_stops() {
    assert_eq!(walked(&[]), []);
    assert_eq!(walked(&[0; 19]), []);
    let two = bytes_of(&[(20, 1), (20, 2)]);
    assert_eq!(walked(&two), [1, 2]);
    assert_eq!(walked(&two[..39]), [1]);
    assert_eq!(walked(&bytes_of(&[(20, 0x8001), (20, 2)])), [0x8001]);
    assert_eq!(walked(&bytes_of(&[(19, 1), (20, 2)])), [1]);
    assert_eq!(walked(&bytes_of(&[(0, 1), (20, 2)])), [1]);
    assert_eq!(walked(&bytes_of(&[(40, 1), (20, 2), (20, 3)])), [1, 3]);
    assert_eq!(walked(&bytes_of(&[(0xFFFF, 1), (20, 2)])), [1]);
    let odd = [&bytes_of(&[(21, 1)])[..], &[9], &bytes_of(&[(20, 2)])].concat();
    assert_eq!(walked(&odd), [1, 2]);
    let last = bytes_of(&[(20, 0x8000), (20, 2)]);
    let mut walker = Walker::new(&last);
    walker.step();
    assert_eq!(walker.position, 40);
    walker.position = usize::MAX;
    assert_eq!(walker.step(), None);
}

#[test]
fn conversions_undo_each_other() {
    let mut record = plain_record();
    record[536..540].copy_from_slice(&[0xFF, 0xFF, 0xFF, 0xFC]);
    let (board, _) = board_of(&[record]);
    assert_eq!(board.bus_to_cpu(1, 3), (0, 0xFFFF_FFFF));
    assert_eq!(board.bus_to_cpu(1, 0x104), (0, 0x100));
    assert_eq!(board.cpu_to_bus(1, 0x100), (0, 0x104));
    assert_eq!(board.cpu_to_bus(1, 0xFFFF_FFFF), (0, 3));
    assert_eq!((board.bus_to_cpu(2, 5), board.cpu_to_bus(0, 5)), ((-9, 0), (-9, 0)));
}

#[test]
fn never_supported() {
    let (board, _) = fresh_b1();
    for board in [board, Board::new()] {
        assert_eq!(board.special_cycle(0, 0), -2);
        assert_eq!(board.get_routing(1), -2);
        assert_eq!(board.set_interrupt(99, 0), -2);
    }
}
