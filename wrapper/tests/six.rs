//! Both ways in all six modes: every cell and every coded bit of PM, PX1 and PX2 in each mode and each valid state, and drawn workings, against the
//! second program.

mod common;

use common::{
    expected_working, seed, sent, valid, MODES, P1, P2, P3, PIDS, PM, PX1, PX2, TWO_PATHS,
};
use layer1::{Channel, Content, State};
use second::draw::Draw;
use second::interleaving::{PM_COLUMNS, PM_ROWS};
use second::modes::Mode;
use second::packing::is_one;
use second::run;
use second::six;

/// Every cell of PM in each mode, and the cell of the bit that stands there; then bits out of range, and modes that are not covered.
#[test]
fn pm() {
    for mode in MODES {
        for cell in 0..PM_ROWS * PM_COLUMNS {
            let (row, column) = (cell / PM_COLUMNS, cell % PM_COLUMNS);
            let (channel, frame, bit) = six::find(mode.into(), row, column).unwrap();
            let found = layer1::find_in(mode, row, column);
            let named = match found.channel.unwrap() {
                Channel::P1 => 1,
                Channel::Pids => 2,
                Channel::P2 => 5,
            };
            assert_eq!(found.number, 0);
            assert_eq!(
                (named, usize::from(found.frame), found.bit as usize),
                (channel, frame, bit)
            );
            let there = layer1::locate_in(mode, channel as u8, frame, bit);
            assert_eq!(six::locate(mode.into(), channel, frame, bit), Ok(cell));
            assert_eq!((there.row.into(), there.column.into()), (row, column));
            assert_eq!(there.position, layer1::place_of(row, column).position);
        }
    }
    for mode in 0..=255 {
        for (channel, frame, bit) in [
            (1, 1, 0),
            (1, 8, 0),
            (1, 0, 11_520),
            (1, 7, 23_040),
            (5, 0, 0),
            (5, 1, 0),
        ] {
            let there = layer1::locate_in(mode, channel, frame, bit);
            let refused = six::locate(mode.into(), channel.into(), frame, bit).err();
            let (number, place) = refused.map_or((0, 0), |refusal| (refusal.number, refusal.place));
            assert_eq!(
                (there.number.into(), there.place.into()),
                (number, place),
                "MP{mode} {channel} {frame} {bit}"
            );
        }
        let refused = six::find(mode.into(), 0, 0)
            .err()
            .map_or(0, |refusal| refusal.number);
        assert_eq!(u32::from(layer1::find_in(mode, 0, 0).number), refused);
    }
}

/// The same state in the second program's terms.
fn theirs(state: State) -> run::State {
    run::State {
        mode: state.mode.into(),
        half: state.half.into(),
        age: state.age.into(),
        reserved: state.reserved.into(),
    }
}

/// The states that are valid in a mode.
fn states(mode: u8) -> impl Iterator<Item = State> {
    valid(mode).iter().map(move |&(half, age)| State {
        mode,
        half,
        age,
        reserved: 5,
    })
}

/// Every cell of PX1 and PX2 in each mode and each valid state.
#[test]
fn cells_of_px() {
    for state in MODES.into_iter().flat_map(states) {
        for channel in 0..8 {
            let Ok(cells) = six::cells(theirs(state), channel) else {
                assert_eq!(layer1::find_px_in(state, channel as u8, 0, 0, 0).number, 3);
                continue;
            };
            let width = cells.len() / 512;
            for (cell, content) in cells.into_iter().enumerate() {
                let (pair, row, column) = (cell / width / 64, cell / width % 64, cell % width);
                let found = layer1::find_px_in(state, channel as u8, pair, row, column);
                let (named, before, frame, bit) = match content {
                    six::Content::Coded([before, frame, bit]) => {
                        (Content::Coded, before, frame, bit)
                    }
                    six::Content::Fill => (Content::Fill, 0, 0, 0),
                    six::Content::Second([frame, bit]) => (Content::Second, 3, frame, bit),
                    six::Content::DelayZeros => (Content::DelayZeros, 0, 0, 0),
                };
                assert_eq!(
                    found.content,
                    Some(named),
                    "{state:?} {channel} {pair} {row} {column}"
                );
                let told = (found.before.into(), found.frame.into(), found.bit as usize);
                assert_eq!(
                    told,
                    (before, frame, bit),
                    "{state:?} {channel} {pair} {row} {column}"
                );
            }
            assert_eq!(
                layer1::find_px_in(state, channel as u8, 0, 0, width).place,
                3
            );
        }
    }
}

/// Every coded bit of P3, P4 and P1' in each mode and each valid state, and those out of range.
#[test]
fn bits_of_px() {
    for state in MODES.into_iter().flat_map(states) {
        for channel in 0..8 {
            for frame in 0..9 {
                for bit in (0..18_434).chain([usize::MAX]) {
                    let there = layer1::locate_px_in(state, channel as u8, frame, bit);
                    let said = (there.number.into(), there.place.into());
                    let cell = [there.later, there.pair, there.row].map(usize::from);
                    let cell = [cell[0], cell[1], cell[2], there.column as usize];
                    match six::locate_px(theirs(state), channel, frame, bit) {
                        Ok(place) => assert_eq!((said, cell), ((0, 0), place)),
                        Err(refusal) => assert_eq!(said, (refusal.number, refusal.place)),
                    }
                    if there.number == 3 && there.place < 2 {
                        break;
                    }
                }
            }
        }
    }
}

/// Drawn workings of every channel in each mode, the borders of each, and each refusal with its place.
#[test]
fn drawn_workings() {
    let mut draw = Draw::new(seed());
    for number in MODES {
        let mode = Mode::of_number(number.into()).unwrap();
        let states: Vec<State> = states(number).collect();
        let [p1, pids, p2, p3, p4] = mode.frame_lengths();
        let second = mode.delayed.map_or(0, |_| p1);
        for (channel, count, bytes, coded) in [
            (1, mode.p1.count, p1, mode.p1.coded_bits()),
            (2, 16, pids, 200),
            (3, 8, p3, 2 * p3),
            (4, 8, p4, 2 * p4),
            (5, 1, p2, mode.p2.all_coded_bits()),
            (6, 8, second, 2 * mode.p1.bits),
            (7, 1, 0, 0),
        ] {
            for n in 0..60 {
                let state = states[n % states.len()];
                let length = [0, bytes + 1].get(n).copied().unwrap_or(bytes);
                let frames = draw.bytes(length);
                let (frame, bit) = match n {
                    2 => (count, 0),
                    3 => (0, coded),
                    4 => (count - 1, coded.saturating_sub(1)),
                    5 => (usize::MAX, usize::MAX),
                    6..=12 => (0, n - 6),
                    _ => (draw.index(count), draw.index(coded.max(1))),
                };
                let expected = six::working(theirs(state), channel, &frames, frame, bit);
                assert_eq!(
                    layer1::working_in(state, channel as u8, &frames, frame, bit),
                    expected_working(expected),
                    "{state:?} channel {channel} frame {frame} bit {bit}, seed {}",
                    seed()
                );
            }
        }
    }
}

/// What a working comes to is the bit that a sending writes into the cell that the locator names: in MP5 and MP6, of P1' three L1 frames later.
#[test]
fn workings_of_what_is_sent() {
    const COUNT: usize = 6;
    let mut draw = Draw::new(seed());
    for number in TWO_PATHS {
        let mode = Mode::of_number(number.into()).unwrap();
        let run = sent(&mut draw, number, COUNT);
        let (p1, p2) = (mode.p1.coded_bits(), mode.p2.coded_bits());
        for n in 0..12_000 {
            let at = n % COUNT;
            let state = State {
                mode: number,
                half: (at % 2) as u8,
                age: at.min(3) as u8,
                reserved: 0,
            };
            let (channel, place, count, coded) = [
                (1, P1, 8, p1),
                (2, PIDS, 16, 200),
                (3, P3, 8, 9_216),
                (5, P2, 1, p2),
                (6, P1, 8, 2 * mode.p1.bits),
            ][n / COUNT % 5];
            let (frame, bit) = (draw.index(count), draw.index(coded));
            let lent = &run[at][place];
            let Ok(worked) = layer1::working_in(state, channel, lent, frame, bit) else {
                assert_eq!((number, channel), (6, 3));
                continue;
            };
            let (later, matrix, cell) = match channel {
                3 | 6 => {
                    let there = layer1::locate_px_in(state, channel, frame, bit);
                    let row = 64 * usize::from(there.pair) + usize::from(there.row);
                    let matrix = if channel == 3 { PX1 } else { PX2 };
                    let width = run[at][matrix].len() / 64;
                    let cell = row * width + there.column as usize;
                    (usize::from(there.later), matrix, cell)
                }
                _ => {
                    let there = layer1::locate_in(number, channel, frame, bit);
                    let row = usize::from(there.row);
                    (0, PM, row * PM_COLUMNS + usize::from(there.column))
                }
            };
            if channel != 3 {
                assert_eq!(worked.cell as usize, cell);
            }
            assert_eq!(later == 3, channel == 6);
            if at + later < COUNT {
                let shown = is_one(&run[at + later][matrix], cell);
                assert_eq!(
                    worked.coded == 1,
                    shown,
                    "L1 frame {at}, {channel} {frame} {bit}"
                );
            }
        }
    }
}
