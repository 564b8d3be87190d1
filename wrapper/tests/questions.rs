//! The cell finders, positions, the lookup of a control block, and the rows of matrices.

mod common;

use common::{drawn, drawn_number, seed, valid, MODES, PM, PX1, PX2, TWO_PATHS};
use layer1::{Channel, Content, Found, FoundPx, LookedUp, Placed, Position, Side, State};
use second::draw::Draw;
use second::interleaving::PxRow;
use second::modes::Mode;
use second::packing::flip;

/// All cells of PM, and those around its borders.
#[test]
fn cells_of_pm() {
    let far = [usize::MAX / 720, 1 << 32, usize::MAX];
    for row in (0..514).chain(far) {
        for column in (0..722).chain(far) {
            let theirs = second::cells::find(row, column);
            let expected = Found {
                number: theirs.number as u8,
                place: theirs.place as u8,
                channel: theirs.channel.map(|channel| match channel {
                    second::cells::Channel::P1 => Channel::P1,
                    second::cells::Channel::Pids => Channel::Pids,
                }),
                frame: theirs.frame as u8,
                bit: theirs.bit as u32,
            };
            assert_eq!(
                layer1::find(row, column),
                expected,
                "row {row} column {column}"
            );
        }
    }
}

/// All rows and columns of PM, and those around its borders.
#[test]
fn places_of_pm() {
    let far = [usize::MAX / 720, 1 << 32, usize::MAX];
    for row in (0..514).chain(far) {
        for column in (0..722).chain(far) {
            let theirs = second::cells::place_of(row, column);
            let expected = Placed {
                number: theirs.number as u8,
                place: theirs.place as u8,
                position: Position {
                    block: theirs.block as u8,
                    row: theirs.row as u8,
                    partition: theirs.partition as u8,
                    column: theirs.column as u8,
                },
            };
            assert_eq!(
                layer1::place_of(row, column),
                expected,
                "row {row} column {column}"
            );
        }
    }
}

/// What each cell shows in the L1 frame of this half and age: the names of coded bits are sent instead of the bits.
fn named(row: &PxRow, half: u8, age: u8) -> Vec<Option<(usize, usize)>> {
    let now = usize::from(if age == 2 { 2 + half } else { age });
    let mut memory = vec![None; row.bits];
    let mut cells = Vec::new();
    for sent in 0..=now {
        let names: Vec<_> = (0..row.half_bits()).map(|bit| Some((sent, bit))).collect();
        cells = row.process(sent % 2, &names, &mut memory);
    }
    cells
        .into_iter()
        .map(|cell| cell.map(|(sent, bit)| (now - sent, bit)))
        .collect()
}

/// All cells of PX1 and PX2 in every mode, half and age of the older modes, whatever the state's number is.
#[test]
fn cells_of_px() {
    let mut draw = Draw::new(seed());
    for mode in MODES.into_iter().filter(|mode| !TWO_PATHS.contains(mode)) {
        let known = Mode::of_number(mode.into()).unwrap();
        for (channel, extended) in [(3, known.p3), (4, known.p4)] {
            let Some(row) = extended.row else { continue };
            for &(half, age) in valid(mode) {
                let state = State {
                    mode,
                    half,
                    age,
                    reserved: drawn_number(&mut draw),
                };
                for (cell, name) in named(row, half, age).into_iter().enumerate() {
                    let (y, column) = (cell / row.width(), cell % row.width());
                    let mut expected = FoundPx {
                        number: 0,
                        place: 0,
                        content: Some(Content::Fill),
                        before: 0,
                        frame: 0,
                        bit: 0,
                    };
                    if let Some((before, bit)) = name {
                        expected.content = Some(Content::Coded);
                        expected.before = before as u8;
                        expected.frame = (bit / row.frame_bits) as u8;
                        expected.bit = (bit % row.frame_bits) as u32;
                    }
                    assert_eq!(
                        layer1::find_px(state, channel, y / 64, y % 64, column),
                        expected,
                        "{state:?} channel {channel} row {y} column {column}"
                    );
                }
            }
        }
    }
}

/// The refusals of the finder of PX1 and PX2: the state, the channel (any in MP5 and MP6), the block pair, the row, the column.
#[test]
fn no_cells_of_px() {
    let states = [0, 1, 2, 3, 4, 5, 6, 7, 11, 12, 255]
        .into_iter()
        .flat_map(|mode| (0..4).flat_map(move |half| (0..5).map(move |age| (mode, half, age))))
        .flat_map(|(mode, half, age)| {
            [0, 7, 8, 255].map(|reserved| State {
                mode,
                half,
                age,
                reserved,
            })
        });
    for state in states {
        let State {
            mode, half, age, ..
        } = state;
        let known = MODES.contains(&mode) && valid(mode).contains(&(half, age));
        let valid = known && state.reserved < 8;
        for channel in [0, 1, 2, 3, 4, 5, 255] {
            let columns = match (mode, channel) {
                (2, 3) => 72,
                (3, 3) | (11, 3) | (11, 4) => 144,
                _ => 0,
            };
            let far = [usize::MAX / 64, usize::MAX];
            for pair in [0, 7, 8].into_iter().chain(far) {
                for row in [0, 63, 64].into_iter().chain(far) {
                    for column in [0, 71, 72, 143, 144].into_iter().chain(far) {
                        let expected = match () {
                            () if !valid => (2, 0),
                            () if columns == 0 => (3, 0),
                            () if pair > 7 => (3, 1),
                            () if row > 63 => (3, 2),
                            () if column >= columns => (3, 3),
                            () => continue,
                        };
                        let found = layer1::find_px(state, channel, pair, row, column);
                        assert_eq!((found.number, found.place), expected);
                        assert_eq!(
                            (found.content, found.before, found.frame, found.bit),
                            (None, 0, 0, 0)
                        );
                    }
                }
            }
        }
    }
}

/// Looks a block up through both.
fn both_lookup(block: &[u8]) -> LookedUp {
    let theirs = second::control::lookup(block);
    let ours = layer1::lookup(block);
    let expected = LookedUp {
        number: theirs.number as u8,
        place: 0,
        mode: theirs.mode as u8,
        count: theirs.count as u8,
        reserved: theirs.reserved as u8,
    };
    assert_eq!(ours, expected, "seed {}", seed());
    ours
}

/// All blocks of covered modes with every number, damaged ones, blocks of other modes, and other lengths.
#[test]
fn control_blocks() {
    let mut draw = Draw::new(seed());
    for mode in 0..64 {
        let covered = MODES.iter().any(|&known| u64::from(known) == mode);
        for count in 0..16 {
            let numbers = match covered {
                true => 0..8,
                false => {
                    let only = draw.below(8);
                    only..only + 1
                }
            };
            for reserved in numbers {
                let block = second::control::block(mode, count, reserved);
                let ours = both_lookup(&block);
                let expected = if covered {
                    (0, mode as u8, count as u8, reserved as u8)
                } else {
                    (4, 0, 0, 0)
                };
                let given = (ours.number, ours.mode, ours.count, ours.reserved);
                assert_eq!(given, expected);
                for _ in 0..if covered { 3 } else { 1 } {
                    let mut damaged = block.clone();
                    for _ in 0..1 + draw.below(3) {
                        flip(&mut damaged, draw.below(2_048) as usize);
                    }
                    both_lookup(&damaged);
                }
            }
        }
    }
    for length in [0, 1, 255, 257, 512, 4_096] {
        assert_eq!(both_lookup(&draw.bytes(length)).number, 3);
    }
}

/// A row is that part of the matrix which was lent, not a copy.
fn is_part(row: &[u8], expected: &[u8]) {
    assert_eq!(
        (row.as_ptr(), row.len()),
        (expected.as_ptr(), expected.len())
    );
}

/// All rows of PM, PX1 and PX2, and the empty part for anything else.
#[test]
fn rows() {
    let mut draw = Draw::new(seed());
    let buffers = drawn(&mut draw, Side::Reader, 11);
    let (pm, px1, px2) = (&buffers[PM], &buffers[PX1], &buffers[PX2]);
    for row in 0..512 {
        is_part(layer1::pm_row(row, pm), &pm[90 * row..][..90]);
        is_part(layer1::px_row(3, row, px1, px2), &px1[18 * row..][..18]);
        is_part(layer1::px_row(4, row, px1, px2), &px2[18 * row..][..18]);
    }
    for row in [512, 513, 1 << 32, usize::MAX / 90, usize::MAX] {
        assert!(layer1::pm_row(row, pm).is_empty());
        assert!(layer1::px_row(3, row, px1, px2).is_empty());
        assert!(layer1::px_row(4, row, px1, px2).is_empty());
    }
    for channel in (0..=255).filter(|channel| ![3, 4].contains(channel)) {
        assert!(layer1::px_row(channel, 0, px1, px2).is_empty());
    }
    for (pm, px1, px2) in [
        (&pm[1..], &px1[1..], &px2[..]),
        (&[][..], &px1[..], &px2[..9_215]),
        (&px1[..], &[][..], &[][..]),
    ] {
        assert!(layer1::pm_row(0, pm).is_empty());
        assert!(layer1::px_row(3, 0, px1, px2).is_empty());
        assert!(layer1::px_row(4, 0, px1, px2).is_empty());
    }
}
