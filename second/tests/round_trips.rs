//! Document 01, sheet guarantees: what is sent is returned.

mod common;

use common::{reader_after, sent_run, Buffers, MODES, NEWER};
use common::{DELAY, MEMORY_P3, MEMORY_P4, P1, P3, P4, PIDS, PX1, PX2};
use second::packing::unpack;
use second::run::{Side, State};

const COUNT: usize = 8;

/// The L1 frames by which P1 comes late in a mode, and the age that stands for greater ones too.
fn delay_and_oldest_age(mode: u64) -> (usize, u64) {
    match NEWER.contains(&mode) {
        true => (3, 3),
        false => (0, 2),
    }
}

/// Documents 01 and 02, operations: every frame comes back, P3 and P4 two L1 frames later, P1 of
/// MP5 and MP6 three later; until then these buffers stay as they are.
#[test]
fn frames_come_back() {
    for mode in MODES {
        let (delay, oldest_age) = delay_and_oldest_age(mode);
        let sent = sent_run(mode, 100 + mode, COUNT);
        let mut reader = Buffers::new(Side::Reader, mode, 0x77);
        let mut state = reader.start(Side::Reader, mode).state;
        for t in 0..COUNT {
            let before = reader.clone();
            reader.take_matrices(&sent[t]);
            let answer = reader.read(state);
            assert_eq!((answer.number, answer.place), (0, 0));
            state = answer.state;
            let half = (t as u64 + 1) % 2;
            let age = (t as u64 + 1).min(oldest_age);
            let reserved = sent[t].1;
            assert_eq!(answer.reserved, reserved);
            let expected = State {
                mode,
                half,
                age,
                reserved,
            };
            assert_eq!(state, expected);
            let p1 = if t < delay { &before } else { &sent[t - delay] };
            assert_eq!(reader.0[P1], p1.0[P1]);
            assert_eq!(reader.0[PIDS..P3], sent[t].0[PIDS..P3]);
            let extended = if t < 2 { &before } else { &sent[t - 2] };
            assert_eq!(reader.0[P3..=P4], extended.0[P3..=P4]);
            check_reader_memory(&reader, &sent[..=t]);
        }
    }
}

/// Documents 01 and 02, lent lengths: the reader holds the last three L1 frames' matrices, oldest
/// first, and the scrambled P1 frames as the sender does.
fn check_reader_memory(reader: &Buffers, sent: &[Buffers]) {
    assert_eq!(reader.0[DELAY], sent[sent.len() - 1].0[DELAY]);
    for (memory, matrices) in [(MEMORY_P3, PX1), (MEMORY_P4, PX2)] {
        let mut expected = vec![0; 3 * sent[0].0[matrices].len()];
        for buffers in sent {
            expected.extend(&buffers.0[matrices]);
        }
        let tail = expected.len() - reader.0[memory].len();
        assert_eq!(reader.0[memory], expected[tail..]);
    }
}

/// Document 01, operations: states of a sender's run, and the memory zeroed by its start.
#[test]
fn sender_states() {
    for mode in MODES {
        let mut sender = Buffers::new(Side::Sender, mode, 0xFF);
        let mut answer = sender.start(Side::Sender, mode);
        assert!(sender.0[MEMORY_P3..].concat().iter().all(|&byte| byte == 0));
        let (_, last) = delay_and_oldest_age(mode);
        assert_eq!(answer.state.reserved, 0);
        let states = [
            (1, 1, 5),
            (0, 2, 0),
            (1, last, 7),
            (0, last, 7),
            (1, last, 2),
        ];
        for (half, age, reserved) in states {
            sender.1 = reserved;
            answer = sender.send(answer.state);
            assert_eq!((answer.number, answer.place), (0, 0));
            let expected = State {
                mode,
                half,
                age,
                reserved,
            };
            assert_eq!(answer.state, expected);
        }
    }
}

/// Section 10.2.2.2: the sender's memory is the internal matrix, kept over the reset.
#[test]
fn sender_memory() {
    let sent = sent_run(11, 5, 4);
    for (memory, matrices) in [(MEMORY_P3, PX1), (MEMORY_P4, PX2)] {
        for (t, buffers) in sent.iter().enumerate() {
            let internal = unpack(&buffers.0[memory]);
            let output = unpack(&buffers.0[matrices]);
            // The last cell read was not written after it.
            let last = (t % 2 + 1) * 73_728 - 1;
            assert_eq!(internal[last], output[73_727]);
        }
        assert_ne!(sent[1].0[memory], sent[3].0[memory]);
    }
}

/// Document 01, PX: P3 and P4 of MP11 go through two like interleavers, and P3 of MP3 and MP5 too.
#[test]
fn extended_channels_alike() {
    let mp11 = sent_run(11, 8, 3);
    for mode in [3, 5] {
        let mut other = Buffers::new(Side::Sender, mode, 0);
        let mut state = other.start(Side::Sender, mode).state;
        for buffers in &mp11 {
            other.0[P3] = buffers.0[P4].clone();
            state = other.send(state).state;
            assert_eq!(other.0[PX1], buffers.0[PX2]);
        }
    }
}

/// Document 01, operations: a refused call adds nothing to a run.
#[test]
fn refused_calls_between() {
    for mode in [2, 11, 5, 6] {
        let sent = sent_run(mode, 30 + mode, COUNT);
        for t in 0..COUNT {
            let (mut reader, state) = reader_after(mode, &sent[..t]);
            let mut twisted = sent[t].clone();
            twisted.0[common::PM][1_000] ^= 4;
            reader.take_matrices(&twisted);
            let before = reader.clone();
            let answer = reader.read(state);
            assert_eq!((answer.number, answer.state), (5, state));
            assert_eq!(reader, before);
            reader.take_matrices(&sent[t]);
            assert_eq!(reader.read(state).number, 0);
        }
    }
}
