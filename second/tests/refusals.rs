//! Document 01, the refusal table.

mod common;

use common::{reader_after, refused_reading, sent_run, Buffers};
use common::{CONTROL, DELAY, MEMORY_P3, MEMORY_P4, MODES, NEWER, P3, P4, PM, PX1, PX2};
use second::control::{block, control};
use second::draw::Draw;
use second::interleaving::{interleaver_one, interleaver_two, PX_MP3_MP11};
use second::packing::flip;
use second::run::{Side, State};

/// Refusal 3 of a start: the memories are its places 0, 1 and 2.
#[test]
fn start_lengths() {
    for side in [Side::Sender, Side::Reader] {
        for mode in MODES {
            for (memory, place) in [(MEMORY_P3, 0), (MEMORY_P4, 1), (DELAY, 2)] {
                let mut buffers = Buffers::new(side, mode, 0xFF);
                buffers.0[memory].push(0xFF);
                let before = buffers.clone();
                let answer = buffers.start(side, mode);
                assert_eq!((answer.number, answer.place), (3, place));
                let state = answer.state;
                assert_eq!((state.mode, state.half, state.age), (1, 0, 0));
                assert_eq!(state.reserved, 0);
                assert_eq!(buffers, before);
                assert_eq!(buffers.start(side, 7).number, 1);
            }
        }
    }
}

/// Refusal 2: every state but the valid ones, on both sides.
#[test]
fn states_not_valid() {
    for (age, half) in (0..5).flat_map(|age| (0..3).map(move |half| (age, half))) {
        for mode in [0, 1, 2, 3, 4, 5, 6, 7, 11, 12] {
            let covered = MODES.contains(&mode);
            let valid = match NEWER.contains(&mode) {
                true => [(0, 0), (1, 1), (2, 0), (3, 0), (3, 1)].contains(&(age, half)),
                false => [(0, 0), (1, 1), (2, 0), (2, 1)].contains(&(age, half)),
            };
            if covered && valid {
                continue;
            }
            let state = State {
                mode,
                half,
                age,
                reserved: 3,
            };
            let fitting = if covered { mode } else { 1 };
            // A wrong length gives way to the state.
            let mut sender = Buffers::new(Side::Sender, fitting, 0x33);
            sender.0[0].pop();
            let before = sender.clone();
            let answer = sender.send(state);
            assert_eq!((answer.number, answer.place, answer.state), (2, 0, state));
            assert_eq!(sender, before);
            let mut reader = Buffers::new(Side::Reader, fitting, 0x33);
            reader.0[0].pop();
            assert_eq!(refused_reading(&mut reader, state), (2, 0));
        }
    }
}

/// Refusal 3: each buffer too long or too short, and the lowest of two.
#[test]
fn lengths() {
    for mode in MODES {
        let state = State {
            mode,
            half: 0,
            age: 0,
            reserved: 7,
        };
        for place in 0..12 {
            let mut sender = Buffers::new(Side::Sender, mode, 0x33);
            let mut reader = Buffers::new(Side::Reader, mode, 0x33);
            for buffers in [&mut sender, &mut reader] {
                buffers.0[place].push(0);
                if place < DELAY {
                    buffers.0[DELAY].push(0);
                }
            }
            let before = sender.clone();
            let answer = sender.send(state);
            assert_eq!((answer.number, answer.place), (3, place));
            assert_eq!((answer.state, sender), (state, before));
            assert_eq!(refused_reading(&mut reader, state), (3, place));
            if reader.0[place].len() > 1 {
                let length = reader.0[place].len();
                reader.0[place].truncate(length - 2);
                assert_eq!(refused_reading(&mut reader, state), (3, place));
            }
        }
    }
}

/// Document 02, S-5: nothing at all is taken for P3 and P4 in a sending, and for no other buffer,
/// and in no reading; a single byte is refused.
#[test]
fn no_data() {
    for mode in MODES {
        let state = State {
            mode,
            half: 0,
            age: 0,
            reserved: 0,
        };
        for place in 0..12 {
            let mut sender = Buffers::new(Side::Sender, mode, 0x33);
            if sender.0[place].is_empty() {
                continue;
            }
            sender.0[place].truncate(1);
            let answer = sender.send(state);
            assert_eq!((answer.number, answer.place), (3, place));
            sender.0[place].clear();
            let answer = sender.send(state);
            let taken = place == P3 || place == P4;
            let expected = if taken { (0, 0) } else { (3, place) };
            assert_eq!((answer.number, answer.place), expected);
            let mut reader = Buffers::new(Side::Reader, mode, 0x33);
            reader.0[place].clear();
            assert_eq!(refused_reading(&mut reader, state), (3, place));
        }
    }
}

/// Refusal 4: the lowest block that is not the one of this mode and count.
#[test]
fn control_blocks() {
    let sent = sent_run(3, 1, 1);
    let (mut reader, state) = reader_after(3, &[]);
    for (bits, place) in [
        (&[0][..], 0),
        (&[2_048 * 15 + 2_047], 15),
        (&[2_048 * 9 + 61, 2_048 * 12], 9),
        (&[2_048 * 12, 2_048 * 3 + 700], 3),
    ] {
        reader.take_matrices(&sent[0]);
        bits.iter()
            .for_each(|&bit| flip(&mut reader.0[CONTROL], bit));
        // P1 damage comes after it.
        flip(&mut reader.0[PM], interleaver_one(77));
        assert_eq!(refused_reading(&mut reader, state), (4, place));
    }
    reader.take_matrices(&sent[0]);
    reader.0[CONTROL].rotate_left(256);
    assert_eq!(refused_reading(&mut reader, state), (4, 0));
    reader.0[CONTROL] = control(2, 0);
    assert_eq!(refused_reading(&mut reader, state), (4, 0));
}

/// Document 02, S-2, refusal 4: the number is block 0's, and the first block of another departs.
#[test]
fn numbers_that_differ() {
    let sent = sent_run(3, 1, 1);
    for first in 0..8 {
        for (other, place) in [(0, 1), (1, 1), (7, 7), (15, 15)] {
            let (mut reader, state) = reader_after(3, &[]);
            reader.take_matrices(&sent[0]);
            reader.0[CONTROL] = control(3, first);
            let number = (first + 1 + other % 7) % 8;
            let start = 256 * other as usize;
            let block = block(3, other, number);
            reader.0[CONTROL][start..start + 256].copy_from_slice(&block);
            assert_eq!(refused_reading(&mut reader, state), (4, place));
            reader.0[CONTROL] = control(3, number);
            let answer = reader.read(state);
            assert_eq!((answer.number, answer.reserved), (0, number));
            assert_eq!(answer.state.reserved, number);
        }
    }
}

/// Document 02, S-2: 9 comes after 2 and before 3, and a state that holds a number above 7 is not
/// valid; a refusal keeps the number of the state.
#[test]
fn numbers_too_high() {
    for mode in MODES {
        let mut state = State {
            mode,
            half: 0,
            age: 0,
            reserved: 4,
        };
        for number in [8, 9, 255] {
            let mut sender = Buffers::new(Side::Sender, mode, 0x33);
            sender.1 = number;
            sender.0[PX1].push(0);
            let before = sender.clone();
            let answer = sender.send(state);
            assert_eq!((answer.number, answer.place), (9, 0));
            assert_eq!((answer.state, sender.clone()), (state, before.clone()));
            state.reserved = number;
            let answer = sender.send(state);
            assert_eq!((answer.number, answer.place), (2, 0));
            assert_eq!((answer.state, sender), (state, before));
            let mut reader = Buffers::new(Side::Reader, mode, 0x33);
            assert_eq!(refused_reading(&mut reader, state), (2, 0));
            state.reserved = 4;
        }
    }
}

/// Refusals 5 and 6: P1 before PIDS, the lowest PIDS frame.
#[test]
fn pm_cells() {
    let sent = sent_run(1, 2, 1);
    let (mut reader, state) = reader_after(1, &[]);
    for bit in [0, 1, 2, 3, 365_439, 200_000] {
        reader.take_matrices(&sent[0]);
        flip(&mut reader.0[PM], interleaver_one(bit));
        flip(&mut reader.0[PM], interleaver_two(5));
        assert_eq!(refused_reading(&mut reader, state), (5, 0));
    }
    for (bits, place) in [(&[0][..], 0), (&[3_199], 15), (&[2_000, 1_999], 9)] {
        reader.take_matrices(&sent[0]);
        for &bit in bits {
            flip(&mut reader.0[PM], interleaver_two(bit));
        }
        assert_eq!(refused_reading(&mut reader, state), (6, place));
    }
}

/// Refusal 7: cells that show the fill, in the first two L1 frames.
#[test]
fn zero_fill() {
    let sent = sent_run(11, 3, 3);
    for age in 0..2 {
        let (mut reader, state) = reader_after(11, &sent[..age]);
        let fill = &PX_MP3_MP11.fill()[age * 73_728..(age + 1) * 73_728];
        let cells: Vec<usize> = (0..73_728).filter(|&cell| fill[cell]).collect();
        let other = (0..73_728).find(|&cell| !fill[cell]).unwrap();
        let (first, last) = (cells[0], cells[cells.len() - 1]);
        for (px1, px2, place) in [
            (&[first][..], &[][..], first),
            (&[last], &[first], last),
            (&[], &[last, first], 73_728 + first),
            (&[other], &[other, last], 73_728 + last),
        ] {
            reader.take_matrices(&sent[age]);
            px1.iter().for_each(|&cell| flip(&mut reader.0[PX1], cell));
            px2.iter().for_each(|&cell| flip(&mut reader.0[PX2], cell));
            assert_eq!(refused_reading(&mut reader, state), (7, place));
        }
        flip(&mut reader.0[PM], interleaver_two(1_000));
        assert_eq!(refused_reading(&mut reader, state), (6, 5));
    }
}

/// Refusal 7: a cell that shows a sent bit is not judged before all bits of its frame arrived.
#[test]
fn early_cells_are_judged_late() {
    let sent = sent_run(3, 4, 3);
    let fill = PX_MP3_MP11.fill();
    let (bit, &(_, cell)) = PX_MP3_MP11.shown()[0]
        .iter()
        .enumerate()
        .find(|&(bit, &(later, _))| later == 0 && bit > 30_000)
        .unwrap();
    assert!(!fill[cell]);
    let mut damaged = sent.clone();
    flip(&mut damaged[0].0[PX1], cell);
    let (mut reader, state) = reader_after(3, &damaged[..2]);
    reader.take_matrices(&sent[2]);
    assert_eq!(refused_reading(&mut reader, state), (8, bit / 9_216));
}

/// Refusal 8: each frame of either channel, damaged in any of its three L1 frames.
#[test]
fn extended_frames() {
    let sent = sent_run(11, 6, 5);
    let mut draw = Draw::new(12);
    for now in 2..5 {
        for frame in 0..16 {
            let bit = draw.below(9_216) as usize + 9_216 * (frame % 8);
            let (later, cell) = PX_MP3_MP11.shown()[now % 2][bit];
            let px = if frame < 8 { PX1 } else { PX2 };
            let mut run = sent[..=now].to_vec();
            flip(&mut run[now - 2 + later].0[px], cell);
            let (mut reader, state) = reader_after(11, &run[..now]);
            reader.take_matrices(&run[now]);
            assert_eq!(refused_reading(&mut reader, state), (8, frame));
        }
    }
}

/// Refusal 8: the lowest frame wins, and lower numbers before it.
#[test]
fn lowest_extended_frame() {
    let sent = sent_run(11, 7, 3);
    let (mut reader, state) = reader_after(11, &sent[..2]);
    let shown = |frame: usize| {
        let bits = 9_216 * frame..9_216 * (frame + 1);
        let places = &PX_MP3_MP11.shown()[0][bits];
        places
            .iter()
            .find(|place| place.0 == 2)
            .map(|place| place.1)
    };
    let late: Vec<usize> = (0..8).filter(|&frame| shown(frame).is_some()).collect();
    let (low, high) = (late[0], late[late.len() - 1]);
    reader.take_matrices(&sent[2]);
    flip(&mut reader.0[PX2], shown(low).unwrap());
    assert_eq!(refused_reading(&mut reader, state), (8, 8 + low));
    flip(&mut reader.0[PX1], shown(high).unwrap());
    assert_eq!(refused_reading(&mut reader, state), (8, high));
    flip(&mut reader.0[PM], interleaver_two(600));
    assert_eq!(refused_reading(&mut reader, state), (6, 3));
    flip(&mut reader.0[PM], interleaver_one(600));
    assert_eq!(refused_reading(&mut reader, state), (5, 0));
    flip(&mut reader.0[CONTROL], 4_000);
    assert_eq!(refused_reading(&mut reader, state), (4, 1));
    reader.0[MEMORY_P4].pop();
    assert_eq!(refused_reading(&mut reader, state), (3, 10));
}
