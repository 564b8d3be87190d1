//! Both ways, and the working: the locators for every coded bit of every mode, and drawn workings, against the second program.

mod common;

use common::{expected_working, seed, valid, MODES, TWO_PATHS};
use layer1::{Channel, Content, Located, LocatedPx, Position, State};
use second::draw::Draw;
use second::interleaving::{pm_position, PM_COLUMNS, PM_ROWS};
use second::locating;
use second::modes::{Extended, Mode};
use second::packing::unpack;

/// The frames of P1 and PIDS in an L1 frame: channel, how many, and the coded bits of each.
const MAIN: [(u8, usize, usize); 2] = [(1, 1, 365_440), (2, 16, 200)];

/// Nothing but zeros, with this number and place.
fn refused(number: u8, place: u8) -> Located {
    Located {
        number,
        place,
        position: Position {
            block: 0,
            row: 0,
            partition: 0,
            column: 0,
        },
        row: 0,
        column: 0,
    }
}

/// The same of P3 and P4.
fn refused_px(number: u8, place: u8) -> LocatedPx {
    LocatedPx {
        number,
        place,
        later: 0,
        pair: 0,
        row: 0,
        column: 0,
    }
}

/// Every coded bit of P1 and of the sixteen PIDS frames, which the finder finds where it goes, and the arguments that are refused.
#[test]
fn bits_of_pm() {
    let mut bits_in_all = 0;
    for (channel, count, bits) in MAIN {
        for frame in 0..count {
            for bit in 0..bits {
                let cell = locating::locate(channel.into(), frame, bit).unwrap();
                let (row, column) = (cell / PM_COLUMNS, cell % PM_COLUMNS);
                let [block, line, partition, place] = pm_position(row, column).map(|n| n as u8);
                let expected = Located {
                    number: 0,
                    place: 0,
                    position: Position {
                        block,
                        row: line,
                        partition,
                        column: place,
                    },
                    row: row as u16,
                    column: column as u16,
                };
                assert_eq!(layer1::locate(channel, frame, bit), expected);
                let found = layer1::find(row, column);
                assert_eq!((found.frame.into(), found.bit as usize), (frame, bit));
                bits_in_all += 1;
            }
            for bit in [bits, 1 << 32, usize::MAX] {
                assert_eq!(layer1::locate(channel, frame, bit), refused(3, 2));
            }
        }
        for frame in [count, 1 << 32, usize::MAX] {
            assert_eq!(layer1::locate(channel, frame, usize::MAX), refused(3, 1));
        }
    }
    assert_eq!(bits_in_all, 365_440 + 3_200);
    for channel in (0..=255).filter(|channel| ![1, 2].contains(channel)) {
        assert_eq!(layer1::locate(channel, usize::MAX, 0), refused(3, 0));
    }
}

/// Whose bit stands in a cell of PM goes into that cell.
#[test]
fn cells_of_pm_and_back() {
    for cell in 0..PM_ROWS * PM_COLUMNS {
        let (row, column) = (cell / PM_COLUMNS, cell % PM_COLUMNS);
        let found = layer1::find(row, column);
        let channel = match found.channel.unwrap() {
            Channel::P1 => 1,
            Channel::Pids => 2,
            Channel::P2 => 5,
        };
        let there = layer1::locate(channel, found.frame.into(), found.bit as usize);
        assert_eq!((there.row.into(), there.column.into()), (row, column));
        assert_eq!(there.position, layer1::place_of(row, column).position);
    }
}

/// How a mode sends channel 3 or 4; none in MP5 and MP6.
fn extended(mode: &Mode, channel: u8) -> Option<&Extended> {
    let sent = match channel {
        3 => &mode.p3,
        4 => &mode.p4,
        _ => return None,
    };
    (mode.delayed.is_none() && sent.row.is_some()).then_some(sent)
}

/// What the second program says of a bit of P3 or P4.
fn expected_px(mode: &Mode, state: State, channel: u8, frame: usize, bit: usize) -> LocatedPx {
    match locating::locate_px(mode, state.half.into(), channel.into(), frame, bit) {
        Err(refusal) => refused_px(refusal.number as u8, refusal.place as u8),
        Ok((later, cell)) => {
            let width = extended(mode, channel).unwrap().row.unwrap().width();
            LocatedPx {
                number: 0,
                place: 0,
                later: later as u8,
                pair: (cell / width / 64) as u8,
                row: (cell / width % 64) as u8,
                column: (cell % width) as u32,
            }
        }
    }
}

/// The states that are valid in a mode.
fn states(mode: u8) -> impl Iterator<Item = State> {
    valid(mode).iter().map(move |&(half, age)| State {
        mode,
        half,
        age,
        reserved: 5,
    })
}

/// Every coded bit of P3 and P4 in each mode and each valid state, and the arguments and states that are refused.
#[test]
fn bits_of_px() {
    for number in MODES {
        let mode = Mode::of_number(number.into()).unwrap();
        for state in states(number) {
            for channel in 0..=255 {
                let bits = extended(mode, channel).map_or(1, |sent| 2 * sent.frames);
                for frame in (0..9).chain([1 << 32, usize::MAX]) {
                    for bit in (0..=bits).chain([1 << 32, usize::MAX]) {
                        assert_eq!(
                            layer1::locate_px(state, channel, frame, bit),
                            expected_px(mode, state, channel, frame, bit),
                            "{state:?} channel {channel} frame {frame} bit {bit}"
                        );
                    }
                }
            }
        }
    }
}

/// A state that is not valid comes before any other refusal.
#[test]
fn states_that_are_not_valid() {
    for mode in 0..=255 {
        for half in [0, 1, 2, 255] {
            for age in [0, 1, 2, 3, 4, 255] {
                for reserved in [0, 7, 8, 255] {
                    let known = MODES.contains(&mode) && valid(mode).contains(&(half, age));
                    if known && reserved < 8 {
                        continue;
                    }
                    let state = State {
                        mode,
                        half,
                        age,
                        reserved,
                    };
                    for (channel, frame, bit) in [(3, 0, 0), (4, 8, 0), (9, 0, usize::MAX)] {
                        let located = layer1::locate_px(state, channel, frame, bit);
                        assert_eq!(located, refused_px(2, 0), "{state:?}");
                        let answer = layer1::working(state, channel, &[1], frame, bit).unwrap_err();
                        assert_eq!((answer.number, answer.place), (2, 0), "{state:?}");
                    }
                }
            }
        }
    }
}

/// The state so many L1 frames later, in the modes whose last age is 2.
fn later(state: State, count: u8) -> State {
    State {
        half: (state.half + count) % 2,
        age: (state.age + count).min(2),
        ..state
    }
}

/// The finder names the bit that the locator was asked for in the L1 frame that it names, and the locator the cell that the finder was asked for.
#[test]
fn there_and_back() {
    for number in MODES.into_iter().filter(|mode| !TWO_PATHS.contains(mode)) {
        let mode = Mode::of_number(number.into()).unwrap();
        for (state, channel) in states(number).flat_map(|state| [(state, 3), (state, 4)]) {
            let Some(sent) = extended(mode, channel) else {
                continue;
            };
            for n in 0..16 * sent.frames {
                let (frame, bit) = (n / (2 * sent.frames), n % (2 * sent.frames));
                let there = layer1::locate_px(state, channel, frame, bit);
                let (pair, row) = (there.pair.into(), there.row.into());
                let column = there.column as usize;
                let back = layer1::find_px(later(state, there.later), channel, pair, row, column);
                assert_eq!(
                    (back.frame.into(), back.bit as usize, back.before),
                    (frame, bit, there.later),
                    "{state:?} channel {channel} frame {frame} bit {bit}"
                );
            }
            let width = sent.row.unwrap().width();
            for cell in 0..512 * width {
                let (pair, row, column) = (cell / width / 64, cell / width % 64, cell % width);
                let found = layer1::find_px(state, channel, pair, row, column);
                if found.content != Some(Content::Coded) {
                    continue;
                }
                let earlier = State {
                    half: (state.half + found.before) % 2,
                    age: 2,
                    ..state
                };
                let (frame, bit) = (found.frame.into(), found.bit as usize);
                let there = layer1::locate_px(earlier, channel, frame, bit);
                assert_eq!(
                    (there.pair.into(), there.row.into(), there.column as usize),
                    (pair, row, column),
                    "{state:?} channel {channel}"
                );
                assert_eq!(there.later, found.before);
            }
        }
    }
}

/// Drawn workings of every channel, and each refusal with its place.
#[test]
fn drawn_workings() {
    let mut draw = Draw::new(seed());
    for number in MODES {
        let mode = Mode::of_number(number.into()).unwrap();
        let states: Vec<State> = states(number).collect();
        let channels = [
            (1, 1, 18_272, 365_440),
            (2, 16, 160, 200),
            (3, 8, mode.p3.frames, 2 * mode.p3.frames),
            (4, 8, mode.p4.frames, 2 * mode.p4.frames),
            (5, 8, 0, 0),
        ];
        for (channel, count, bytes, coded) in channels {
            for n in 0..60 {
                let state = states[n % states.len()];
                let length = [0, bytes + 1].get(n).copied().unwrap_or(bytes);
                let frames = draw.bytes(length);
                let (frame, bit) = match n {
                    2 => (count, 0),
                    3 => (0, coded),
                    4 => (count - 1, coded.saturating_sub(1)),
                    5 => (usize::MAX, usize::MAX),
                    6..=12 => (0, n - 6),
                    _ => (draw.index(count), draw.index(coded.max(1))),
                };
                let half = state.half.into();
                let theirs = locating::working(mode, half, channel.into(), &frames, frame, bit);
                assert_eq!(
                    layer1::working(state, channel, &frames, frame, bit),
                    expected_working(theirs),
                    "{state:?} channel {channel} frame {frame} bit {bit}, seed {}",
                    seed()
                );
            }
        }
    }
}

/// What a working comes to is the bit that a sending writes into the cell that the locator names.
#[test]
fn workings_of_what_is_sent() {
    let mut draw = Draw::new(seed());
    let frames = [18_272, 160].map(|length| draw.bytes(length));
    let input = [&[0][..], &frames[0], &frames[1]].concat();
    let mut matrices = Vec::new();
    second::commands::send(1, 1, Default::default(), &mut &input[..], &mut matrices).unwrap();
    let cells = unpack(&matrices[..46_080]);
    let state = states(1).next().unwrap();
    for (channel, count, bits) in MAIN {
        for n in 0..3_200 {
            let (frame, bit) = match channel {
                1 => (0, draw.index(bits)),
                _ => (n % count, n / count),
            };
            let lent = &frames[usize::from(channel) - 1];
            let worked = layer1::working(state, channel, lent, frame, bit).unwrap();
            let there = layer1::locate(channel, frame, bit);
            let cell = usize::from(there.row) * PM_COLUMNS + usize::from(there.column);
            assert_eq!(worked.cell as usize, cell);
            assert_eq!(u64::from(cells[cell]), worked.coded);
        }
    }
}

/// The same of P3 and P4 in MP11, in the L1 frame that the locator names.
#[test]
fn workings_of_what_is_sent_later() {
    const COUNT: usize = 4;
    let mut draw = Draw::new(seed());
    let lengths = [18_272, 160, 4_608, 4_608];
    let frames: [_; COUNT] = std::array::from_fn(|_| lengths.map(|length| draw.bytes(length)));
    let input: Vec<u8> = frames
        .iter()
        .flat_map(|lent| [&[0][..], &lent.concat()].concat())
        .collect();
    let (mut sent, none) = (Vec::new(), Default::default());
    second::commands::send(11, COUNT as u64, none, &mut &input[..], &mut sent).unwrap();
    let of_an_l1_frame = sent.len() / COUNT;
    for n in 0..8_000 {
        let (at, channel) = (n % 2, 3 + (n / 2 % 2) as u8);
        let state = State {
            mode: 11,
            half: at as u8,
            age: at as u8,
            reserved: 0,
        };
        let (frame, bit) = (draw.index(8), draw.index(9_216));
        let lent = &frames[at][usize::from(channel) - 1];
        let worked = layer1::working(state, channel, lent, frame, bit).unwrap();
        let there = layer1::locate_px(state, channel, frame, bit);
        let first = (at + usize::from(there.later)) * of_an_l1_frame + 46_080;
        let matrix = &sent[first + usize::from(channel - 3) * 9_216..][..9_216];
        let row = 64 * usize::from(there.pair) + usize::from(there.row);
        let cell = row * 144 + there.column as usize;
        let shown = matrix[cell / 8] >> (7 - cell % 8) & 1;
        assert_eq!(
            u64::from(shown),
            worked.coded,
            "L1 frame {at} P{channel} {frame} {bit}"
        );
    }
}
