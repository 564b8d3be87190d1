//! Lengths that are wrong, states that are not valid, reserved numbers that are too high, and every start.

mod common;

use common::{both_start, done, drawn, drawn_number, refused, seed, valid, Call};
use common::{DELAY, MEMORIES, MODES, P1, P3, P4, PLACES, PX1};
use layer1::{Side, State};
use second::draw::Draw;
use second::modes::Mode;
use second::run;

/// Changes a length: one byte more, one less, none at all, much more, or one alone.
fn resized(bytes: &mut Vec<u8>, how: usize) -> bool {
    let length = bytes.len();
    let wanted = match how {
        0 => length + 1,
        1 => length.saturating_sub(1),
        2 => 0,
        3 => 2 * length + 7,
        _ => 1,
    };
    bytes.resize(wanted, 0x5A);
    wanted != length
}

/// Each buffer of each call, alone and with a later one wrong too: the first is named. Of a sending P3 and P4 may be empty (document 02, S-5).
#[test]
fn lengths() {
    let mut draw = Draw::new(seed());
    for call in [Call::Send, Call::Read] {
        for mode in MODES {
            let right = drawn(&mut draw, call.side(), mode);
            for &(half, age) in valid(mode) {
                for (place, how) in PLACES.flat_map(|place| (0..5).map(move |how| (place, how))) {
                    let mut buffers = right.clone();
                    if !resized(&mut buffers[place], how) {
                        continue;
                    }
                    let no_data =
                        call.side() == Side::Sender && how == 2 && (P3..=P4).contains(&place);
                    let late = age == 2 && place < DELAY;
                    if late {
                        buffers[DELAY].push(1);
                    }
                    let reserved = drawn_number(&mut draw);
                    let state = State {
                        mode,
                        half,
                        age,
                        reserved,
                    };
                    match (no_data, late) {
                        (true, false) => {
                            done(call, state, &mut buffers);
                        }
                        (true, true) => {
                            let expected = (3, DELAY as u32);
                            assert_eq!(refused(call, state, &mut buffers), expected);
                        }
                        (false, _) => {
                            let expected = (3, place as u32);
                            assert_eq!(refused(call, state, &mut buffers), expected);
                        }
                    }
                }
            }
        }
    }
}

/// Documents 01 and 02, lent lengths: P1, PIDS, P2, P3, P4, PM, PX1, PX2, control, the memories for P3 and P4, the delay memory.
#[rustfmt::skip]
const SENDER: [(u8, [usize; 12]); 6] = [
    (1, [18_272, 160, 0, 0, 0, 46_080, 0, 0, 4_096, 0, 0, 0]),
    (2, [18_272, 160, 0, 2_304, 0, 46_080, 4_608, 0, 4_096, 9_216, 0, 0]),
    (3, [18_272, 160, 0, 4_608, 0, 46_080, 9_216, 0, 4_096, 18_432, 0, 0]),
    (5, [4_608, 160, 13_664, 4_608, 0, 46_080, 9_216, 9_216, 4_096, 18_432, 0, 13_824]),
    (6, [9_216, 160, 9_056, 0, 0, 46_080, 0, 18_432, 4_096, 0, 0, 27_648]),
    (11, [18_272, 160, 0, 4_608, 4_608, 46_080, 9_216, 9_216, 4_096, 18_432, 18_432, 0]),
];

/// A reader's memory for P3 or P4 is half as long again as a sender's.
fn reader(sender: [usize; 12]) -> [usize; 12] {
    let [frames_and_matrices @ .., memory3, memory4, delay] = sender;
    let mut all = [0; 12];
    all[..9].copy_from_slice(&frames_and_matrices);
    all[MEMORIES].copy_from_slice(&[memory3 / 2 * 3, memory4 / 2 * 3, delay]);
    all
}

/// The lengths that the library gives are the documents' and the second program's, and 0 past the last place. A mode that is not covered
/// has MP3's.
#[test]
fn lengths_told() {
    for mode in 0..=255 {
        let known = SENDER.iter().find(|(known, _)| *known == mode);
        assert_eq!(known.is_some(), MODES.contains(&mode));
        let sender = known.unwrap_or(&SENDER[2]).1;
        for (side, other_side, lengths) in [
            (Side::Sender, run::Side::Sender, sender),
            (Side::Reader, run::Side::Reader, reader(sender)),
        ] {
            let ours = PLACES.map(|place| layer1::length(side, mode, place));
            assert!(ours.eq(lengths), "{side:?} of mode {mode}");
            if let Some(theirs) = Mode::of_number(mode.into()) {
                assert_eq!(other_side.lengths(theirs), lengths);
            }
            for place in [12, 13, 255, 256, 1 << 32, usize::MAX] {
                assert_eq!(layer1::length(side, mode, place), 0);
            }
        }
    }
}

/// Every mode with every half and age near the valid ones: refused under 2, before any length or number.
#[test]
fn states() {
    let mut draw = Draw::new(seed());
    for call in [Call::Send, Call::Read] {
        for mode in 0..=255 {
            let right = drawn(&mut draw, call.side(), mode);
            let mut short = right.clone();
            short[0].pop();
            short.reserved = 8;
            for (half, age) in [0, 1, 2, 3, 255]
                .into_iter()
                .flat_map(|half| [0, 1, 2, 3, 4, 255].map(|age| (half, age)))
            {
                if MODES.contains(&mode) && valid(mode).contains(&(half, age)) {
                    continue;
                }
                let state = State {
                    mode,
                    half,
                    age,
                    reserved: right.reserved,
                };
                for mut buffers in [right.clone(), short.clone()] {
                    assert_eq!(refused(call, state, &mut buffers), (2, 0));
                }
            }
        }
    }
}

/// Document 02, S-2: a state with a number above 7 is not valid, and is judged before any length or number.
#[test]
fn states_with_a_number_too_high() {
    let mut draw = Draw::new(seed());
    for call in [Call::Send, Call::Read] {
        for mode in MODES {
            let mut buffers = drawn(&mut draw, call.side(), mode);
            for (reserved, &(half, age)) in (8..=255).zip(valid(mode).iter().cycle()) {
                let state = State {
                    mode,
                    half,
                    age,
                    reserved,
                };
                assert_eq!(refused(call, state, &mut buffers), (2, 0));
                if reserved % 2 == 0 {
                    buffers.reserved = reserved;
                    resized(&mut buffers[P1], usize::from(reserved) / 2 % 2);
                }
            }
        }
    }
}

/// Document 02, S-2: a sending is refused under 9 for every number above 7 and for no other, before any length, whatever the state's number is.
#[test]
fn numbers_too_high() {
    let mut draw = Draw::new(seed());
    for mode in MODES {
        let right = drawn(&mut draw, Side::Sender, mode);
        for (reserved, &(half, age)) in (0..=255).zip(valid(mode).iter().cycle()) {
            let state = State {
                mode,
                half,
                age,
                reserved: drawn_number(&mut draw),
            };
            let mut buffers = right.clone();
            buffers.reserved = reserved;
            if reserved > 7 {
                assert_eq!(refused(Call::Send, state, &mut buffers), (9, 0));
                buffers[P1].pop();
                buffers[PX1].push(0);
                assert_eq!(refused(Call::Send, state, &mut buffers), (9, 0));
            } else {
                let next = done(Call::Send, state, &mut buffers);
                assert_eq!(next.reserved, reserved);
                buffers[PX1].push(0);
                let expected = (3, PX1 as u32);
                assert_eq!(refused(Call::Send, state, &mut buffers), expected);
            }
        }
    }
}

/// A start with memories of the right lengths, or of another where `hows` says so: the first such one is named, a mode that is not covered
/// comes before it, and either leaves the memories and returns the state of MP1.
fn start(side: Side, mode: u8, right: &[Vec<u8>], hows: [usize; 3]) {
    let mut memories: [Vec<u8>; 3] = right.to_vec().try_into().unwrap();
    let mut wrong = None;
    for place in (0..3).rev() {
        if hows[place] < 4 && resized(&mut memories[place], hows[place]) {
            wrong = Some(place as u32);
        }
    }
    let before = memories.clone();
    let outcome = both_start(side, mode, &mut memories);
    let (answer, known) = match (MODES.contains(&mode), wrong) {
        (false, _) => ((1, 0), 1),
        (true, Some(place)) => ((3, place), 1),
        (true, None) => ((0, 0), mode),
    };
    assert_eq!((outcome.number, outcome.place), answer);
    let state = outcome.state;
    assert_eq!((state.mode, state.half, state.age), (known, 0, 0));
    assert_eq!((state.reserved, outcome.reserved), (0, 0));
    match answer {
        (0, _) => assert!(memories.concat().iter().all(|&byte| byte == 0)),
        _ => assert!(memories == before),
    }
}

/// All starts: modes 0 to 255, and memories of the right lengths and of others.
#[test]
fn starts() {
    let mut draw = Draw::new(seed());
    for side in [Side::Sender, Side::Reader] {
        for mode in 0..=255 {
            let right = &drawn(&mut draw, side, mode)[MEMORIES];
            let first = if MODES.contains(&mode) { 0 } else { 3 };
            for hows in (first..5).flat_map(|how3| (first..5).map(move |how4| [how3, how4])) {
                for how in first..5 {
                    start(side, mode, right, [hows[0], hows[1], how]);
                }
            }
        }
    }
}
