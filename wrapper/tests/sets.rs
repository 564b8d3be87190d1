//! The lookup of the sixteen control blocks of an L1 frame as a set (document 02, S-8).

mod common;

use common::{done, drawn, refused, seed, sent, started, Call, CONTROL, MATRICES, MODES};
use layer1::{LookedUpFrame, Side};
use second::control::{block, control, NUMBERS};
use second::draw::Draw;
use second::sets::{drawn_set, Blocks, CONTROL_BYTES};

/// A set looked up by the library and by the second program.
fn both(blocks: &Blocks, set: &[u8]) -> LookedUpFrame {
    let theirs = blocks.look_up(set);
    let ours = layer1::lookup_frame(set);
    let expected = LookedUpFrame {
        number: theirs.number as u8,
        place: theirs.place as u32,
        mode: theirs.mode as u8,
        reserved: theirs.reserved as u8,
    };
    assert_eq!(ours, expected, "seed {}", seed());
    ours
}

/// The control of every mode and number; of a mode that is not covered, refused under 4; and other lengths.
#[test]
fn controls() {
    let (mut draw, blocks) = (Draw::new(seed()), Blocks::all());
    for mode in 0..64 {
        let covered = MODES.contains(&(mode as u8));
        for reserved in 0..NUMBERS {
            let given = both(&blocks, &control(mode, reserved));
            let expected = match covered {
                true => (0, mode as u8, reserved as u8),
                false => (4, 0, 0),
            };
            assert_eq!((given.number, given.mode, given.reserved), expected);
            assert_eq!(given.place, 0);
        }
    }
    for length in [0, 1, 256, CONTROL_BYTES - 1, CONTROL_BYTES + 1, 8_192] {
        assert_eq!(both(&blocks, &draw.bytes(length)).number, 3);
    }
}

/// Drawn sets: blocks exchanged, repeated, damaged, moved on, and of other modes, numbers and counts. A set with a block that `lookup` refuses
/// is refused under 4 with the lowest such block, and only one without such a block under 13.
#[test]
fn sets() {
    let (mut draw, blocks) = (Draw::new(seed()), Blocks::all());
    let mut met = [0; 14];
    for _ in 0..2_000 {
        let set = drawn_set(&mut draw);
        let given = both(&blocks, &set);
        met[usize::from(given.number)] += 1;
        let faulty = set
            .chunks(256)
            .position(|block| layer1::lookup(block).number != 0);
        match faulty {
            Some(place) => assert_eq!((given.number, given.place), (4, place as u32)),
            None => assert!([0, 13].contains(&given.number)),
        }
    }
    assert!([0, 4, 13].iter().all(|&number: &usize| met[number] > 200));
}

/// What a sending writes is accepted with its mode and number, and what a reading accepts under 4 with its mode; with a block of another L1 frame
/// both refuse it, the reading under 4 and the lookup under 13.
#[test]
fn runs() {
    let blocks = Blocks::all();
    for mode in MODES {
        let mut draw = Draw::new(seed() + u64::from(mode));
        let sent = sent(&mut draw, mode, 3);
        let mut reader = drawn(&mut draw, Side::Reader, mode);
        let mut state = started(Side::Reader, mode, &mut reader);
        for frame in &sent {
            let given = both(&blocks, &frame[CONTROL]);
            assert_eq!(
                (given.number, given.mode, given.reserved),
                (0, mode, frame.reserved)
            );
            reader[MATRICES].clone_from_slice(&frame[MATRICES]);
            let place = 1 + draw.below(15) as usize;
            let other = u64::from(frame.reserved) ^ (1 + draw.below(NUMBERS - 1));
            let part = place * 256..(place + 1) * 256;
            reader[CONTROL][part].copy_from_slice(&block(mode.into(), place as u64, other));
            let given = both(&blocks, &reader[CONTROL]);
            assert_eq!((given.number, given.place), (13, place as u32));
            assert_eq!(refused(Call::Read, state, &mut reader), (4, place as u32));
            reader[MATRICES].clone_from_slice(&frame[MATRICES]);
            state = done(Call::Read, state, &mut reader);
            assert_eq!(state.reserved, frame.reserved);
        }
    }
}
