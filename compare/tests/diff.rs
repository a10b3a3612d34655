//! What differs between two maps: the rows.

mod common;

use common::{set, GUARD_NUMBERS};
use compare::generate::diffs::pair;
use compare::harness::random::Random;
use compare::model::diff::diff;
use compare::model::{Answer, Block, Device, SHAPES};

const DEFAULT: u64 = 0x8282_0000_0000_0000;
/// The last offset of guard 2.
const LAST: u64 = 0xF_FFFF;
/// What the room holds before.
const OLD_ROOM: u64 = 0xDEAD;

/// The rows of a diff that must be done, and the rest of the room unchanged.
fn rows(guard: u32, before: &[u64], after: &[u64]) -> Vec<[u64; 5]> {
    let mut room = [OLD_ROOM; 700];
    let (answer, used) = diff(guard, before, after, &mut room);
    assert_eq!(answer, Answer::Done(0));
    assert!(room[used..].iter().all(|&number| number == OLD_ROOM));
    let (rows, over) = room[..used].as_chunks::<5>();
    assert!(over.is_empty());
    rows.to_vec()
}

/// A guard's map in numbers.
fn numbers(device: &Device, guard: u32) -> Vec<u64> {
    let spans = device.map(guard).unwrap();
    let row = |span: &compare::model::Span| [span.start, span.end, span.rights];
    spans.iter().flat_map(row).collect()
}

#[test]
fn marked_examples_w11_and_w12() {
    let guard = Block::Risaf(2);
    let mut device = Device::reset_state();
    let reset = numbers(&device, 2);
    set(&mut device, guard, 0x44, 0x0001_0000);
    set(&mut device, guard, 0x48, 0x0001_FFFF);
    set(&mut device, guard, 0x4C, 0x0004_0006);
    set(&mut device, guard, 0x40, 0x0000_0001);
    let w11 = numbers(&device, 2);
    set(&mut device, guard, 0x54, 0x0001_0000);
    set(&mut device, guard, 0x58, 0x0001_0FFF);
    set(&mut device, guard, 0x50, 0x0000_1121);
    let w12 = numbers(&device, 2);
    // Nonsecure reads by CIDs 2 and 7, privileged or not.
    let (base, sub) = (0x8486_8486, 0x0084_0084);
    assert_eq!(
        rows(2, &reset, &w11),
        [[0x10000, 0x1FFFF, DEFAULT, base, 14]]
    );
    assert_eq!(
        rows(2, &w11, &reset),
        [[0x10000, 0x1FFFF, base, DEFAULT, 14]]
    );
    assert_eq!(rows(2, &w11, &w12), [[0x10000, 0x10FFF, base, sub, 6]]);
    assert_eq!(
        rows(2, &reset, &w12),
        [
            [0x10000, 0x10FFF, DEFAULT, sub, 8],
            [0x11000, 0x1FFFF, DEFAULT, base, 14],
        ]
    );
}

#[test]
fn like_maps_have_no_rows() {
    assert!(rows(2, &[0, LAST, 5], &[0, LAST, 5]).is_empty());
    // The same rights in other rows.
    assert!(rows(2, &[0, 8, 5, 9, LAST, 5], &[0, LAST, 5]).is_empty());
    for shape in &SHAPES {
        let map = numbers(&Device::reset_state(), shape.number);
        assert!(rows(shape.number, &map, &map).is_empty());
    }
}

#[test]
fn one_row_over_each_window() {
    let small = [(2, 1 << 20), (3, 1 << 20), (7, 409_600), (8, 262_144)];
    let large = [(1, 1 << 30), (4, 1 << 32), (5, 1 << 32), (6, 1 << 32)];
    let rest = [11, 12, 13, 14].map(|guard| (guard, 1 << 28));
    let ahb = [(15, 4_096), (21, 16_384), (22, 16_384), (23, 4_096)];
    let windows = [&small[..], &large, &rest, &ahb, &[(9, 131_072)]].concat();
    assert_eq!(windows.len(), GUARD_NUMBERS.len());
    for (guard, window) in windows {
        let last = window - 1;
        let row = [0, last, 0, u64::MAX, 64];
        assert_eq!(rows(guard, &[0, last, 0], &[0, last, u64::MAX]), [row]);
    }
}

#[test]
fn rights_may_be_anything() {
    let pairs = [
        (0, u64::MAX, 64),
        (u64::MAX, 0, 64),
        (0, 1, 1),
        (u64::MAX, u64::MAX >> 1, 1),
        (0x0F0F, 0xF0F0, 16),
        (0xFF, 0xFE00_0000_0000_00FF, 7),
    ];
    for (old, new, bits) in pairs {
        let row = [0, LAST, old, new, bits];
        assert_eq!(rows(2, &[0, LAST, old], &[0, LAST, new]), [row]);
    }
}

#[test]
fn equal_pairs_are_joined_over_boundaries() {
    // Neighbours of equal rights in both maps, cut at other places.
    let before = [0, 0xFF, 1, 0x100, 0x1FF, 1, 0x200, LAST, 3];
    let after = [0, 0x17F, 2, 0x180, 0x2FF, 2, 0x300, LAST, 3];
    assert_eq!(
        rows(2, &before, &after),
        [[0, 0x1FF, 1, 2, 2], [0x200, 0x2FF, 3, 2, 1]]
    );
    // Up to the last offset.
    assert_eq!(
        rows(2, &[0, LAST, 1], &[0, 7, 1, 8, 9, 0, 10, LAST, 0]),
        [[8, LAST, 1, 0, 1]]
    );
}

#[test]
fn other_pairs_are_not_joined() {
    // The same pair on both sides of what is equal.
    let parted = [0, 0xF, 6, 0x10, 0x10, 5, 0x11, LAST, 6];
    assert_eq!(
        rows(2, &[0, LAST, 5], &parted),
        [[0, 0xF, 5, 6, 2], [0x11, LAST, 5, 6, 2]]
    );
    // Only one of the two words the same, or the same count of bits.
    assert_eq!(
        rows(2, &[0, 9, 1, 10, LAST, 2], &[0, LAST, 4]),
        [[0, 9, 1, 4, 2], [10, LAST, 2, 4, 2]]
    );
    assert_eq!(
        rows(2, &[0, LAST, 4], &[0, 9, 1, 10, LAST, 2]),
        [[0, 9, 4, 1, 2], [10, LAST, 4, 2, 2]]
    );
    assert_eq!(
        rows(2, &[0, 9, 1, 10, LAST, 2], &[0, 9, 2, 10, LAST, 1]),
        [[0, 9, 1, 2, 2], [10, LAST, 2, 1, 2]]
    );
}

/// A map of guard 2 with a row at each start, the last up to the end; rights
/// count up from `first`.
fn map_at(starts: &[u64], first: u64) -> Vec<u64> {
    let ends = starts[1..].iter().map(|next| next - 1).chain([LAST]);
    let rows = starts.iter().zip(ends).zip(first..);
    rows.flat_map(|((&start, end), rights)| [start, end, rights])
        .collect()
}

#[test]
fn as_many_rows_as_there_can_be() {
    // 67 rows each, no boundary the same: cuts at odd and at even offsets.
    let odd: Vec<u64> = [0].into_iter().chain((1..=131).step_by(2)).collect();
    let even: Vec<u64> = (0..=132).step_by(2).collect();
    assert_eq!((odd.len(), even.len()), (67, 67));
    let (before, after) = (map_at(&odd, 1000), map_at(&even, 2000));
    let rows = rows(2, &before, &after);
    assert_eq!(rows.len(), 133);
    for (at, row) in (0u64..).zip(&rows) {
        let (old, new) = (1000 + at.div_ceil(2), 2000 + at / 2);
        let end = if at == 132 { LAST } else { at };
        let bits = (old ^ new).count_ones().into();
        assert_eq!(*row, [at, end, old, new, bits]);
    }
    // In just the room there must be.
    let mut room = vec![OLD_ROOM; 665];
    assert_eq!(diff(2, &before, &after, &mut room), (Answer::Done(0), 665));
    assert_eq!(room, rows.concat());
}

/// A map's rights, offset by offset.
fn painted(map: &[u64]) -> Vec<u64> {
    let rows = map.as_chunks::<3>().0.iter();
    rows.flat_map(|&[start, end, rights]| (start..=end).map(move |_| rights))
        .collect()
}

#[test]
fn every_offset_is_where_it_belongs() {
    let mut random = Random::new(1);
    for round in 0..150 {
        // Guards of small windows: 7, 8, 9 and those on the AHB bus.
        let shape = &SHAPES[[6, 7, 8, 13, 14, 15, 16][round % 7]];
        let (before, after) = pair(&mut random, shape);
        let mut expected: Vec<[u64; 5]> = Vec::new();
        for (offset, (old, new)) in (0..).zip(painted(&before).into_iter().zip(painted(&after))) {
            let bits = u64::from((old ^ new).count_ones());
            match expected.last_mut() {
                _ if old == new => {}
                Some(row) if row[1] + 1 == offset && row[2..] == [old, new, bits] => {
                    row[1] = offset;
                }
                _ => expected.push([offset, offset, old, new, bits]),
            }
        }
        assert_eq!(rows(shape.number, &before, &after), expected);
    }
}
