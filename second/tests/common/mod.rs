//! Owned buffers for the tests of a run.
#![allow(dead_code)]

use second::control::NUMBERS;
use second::draw::Draw;
use second::modes::Mode;
use second::run::{self, Answer, Reading, Sending, Side, State};

/// The numbers of the covered modes, and of those with P1'.
pub const MODES: [u64; 6] = [1, 2, 3, 11, 5, 6];
pub const NEWER: [u64; 2] = [5, 6];

/// The twelve buffers of a sending or a reading, in the order of their places, and the reserved
/// number of a sending.
#[derive(Clone, Debug, PartialEq, Eq)]
pub struct Buffers(pub [Vec<u8>; 12], pub u64);

pub const P1: usize = 0;
pub const PIDS: usize = 1;
pub const P2: usize = 2;
pub const P3: usize = 3;
pub const P4: usize = 4;
pub const PM: usize = 5;
pub const PX1: usize = 6;
pub const PX2: usize = 7;
pub const CONTROL: usize = 8;
pub const MEMORY_P3: usize = 9;
pub const MEMORY_P4: usize = 10;
pub const DELAY: usize = 11;

impl Buffers {
    /// Document 01, lent lengths: buffers of the right lengths, all of one byte.
    pub fn new(side: Side, mode: u64, byte: u8) -> Buffers {
        let lengths = side.lengths(Mode::of_number(mode).unwrap());
        Buffers(std::array::from_fn(|place| vec![byte; lengths[place]]), 0)
    }

    /// Document 01, operations: starts a side.
    pub fn start(&mut self, side: Side, mode: u64) -> Answer {
        let [.., p3, p4, delay] = &mut self.0;
        run::start(side, mode, [p3, p4, delay])
    }

    /// Document 01, operations: sends.
    pub fn send(&mut self, state: State) -> Answer {
        let [p1, pids, p2, p3, p4, pm, px1, px2, control, memory_p3, memory_p4, delay] =
            &mut self.0;
        let mut lent = Sending {
            p1,
            pids,
            p2,
            p3,
            p4,
            pm,
            px1,
            px2,
            control,
            memory_p3,
            memory_p4,
            delay,
        };
        run::send(state, self.1, &mut lent)
    }

    /// Document 01, operations: reads.
    pub fn read(&mut self, state: State) -> Answer {
        let [p1, pids, p2, p3, p4, pm, px1, px2, control, memory_p3, memory_p4, delay] =
            &mut self.0;
        let mut lent = Reading {
            p1,
            pids,
            p2,
            p3,
            p4,
            pm,
            px1,
            px2,
            control,
            memory_p3,
            memory_p4,
            delay,
        };
        run::read(state, &mut lent)
    }

    /// Document 01, operations: takes the matrices of a sending over.
    pub fn take_matrices(&mut self, sent: &Buffers) {
        self.0[PM..=CONTROL].clone_from_slice(&sent.0[PM..=CONTROL]);
    }
}

/// Document 01, operations: a sender's run of drawn frames, the buffers after each sending.
pub fn sent_run(mode: u64, seed: u64, count: usize) -> Vec<Buffers> {
    let mut draw = Draw::new(seed);
    let mut buffers = Buffers::new(Side::Sender, mode, 0xA5);
    let mut answer = buffers.start(Side::Sender, mode);
    assert_eq!((answer.number, answer.place), (0, 0));
    let mut sent = Vec::new();
    for _ in 0..count {
        buffers.1 = draw.below(NUMBERS);
        for place in 0..=P4 {
            let length = buffers.0[place].len();
            buffers.0[place] = draw.bytes(length);
        }
        answer = buffers.send(answer.state);
        assert_eq!((answer.number, answer.place), (0, 0));
        sent.push(buffers.clone());
    }
    sent
}

/// Document 01, operations: a reader after the first L1 frames of a run, with its state.
pub fn reader_after(mode: u64, sent: &[Buffers]) -> (Buffers, State) {
    let mut reader = Buffers::new(Side::Reader, mode, 0x5A);
    let mut answer = reader.start(Side::Reader, mode);
    for buffers in sent {
        reader.take_matrices(buffers);
        answer = reader.read(answer.state);
        assert_eq!((answer.number, answer.place), (0, 0));
    }
    (reader, answer.state)
}

/// Refusal table: a reading that is refused leaves the state and all buffers as they were.
pub fn refused_reading(reader: &mut Buffers, state: State) -> (u32, usize) {
    let before = reader.clone();
    let answer = reader.read(state);
    assert_ne!(answer.number, 0);
    assert_eq!((answer.state, answer.reserved), (state, 0));
    assert_eq!(*reader, before);
    (answer.number, answer.place)
}
