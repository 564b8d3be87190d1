//! Documents 01 and 02, operations of a run: states, lent buffers, starting and sending.

use std::ops::Deref;

use crate::coding::{encode, Rate};
use crate::control::{control, NUMBERS};
use crate::interleaving::{pm_matrix, Partitions};
use crate::modes::{Extended, Mode, PIDS};
use crate::packing::{pack, unpack};
use crate::scrambling::scramble;

pub use crate::reading::read;

/// A run state: the mode, which half of the internal matrix comes next, the age, and the last
/// reserved number.
#[derive(Clone, Copy, Debug, PartialEq, Eq)]
pub struct State {
    pub mode: u64,
    pub half: u64,
    pub age: u64,
    pub reserved: u64,
}

/// What a start, a sending or a reading returns.
#[derive(Clone, Copy, Debug, PartialEq, Eq)]
pub struct Answer {
    pub number: u32,
    pub place: usize,
    pub state: State,
    /// The reserved number of the L1 frame that a reading has read; 0 in any other answer.
    pub reserved: u64,
}

/// The number and place of a refusal.
#[derive(Clone, Copy, Debug, PartialEq, Eq)]
pub struct Refusal {
    pub number: u32,
    pub place: usize,
}

/// The two sides of a run.
#[derive(Clone, Copy, Debug, PartialEq, Eq)]
pub enum Side {
    Sender,
    Reader,
}

/// The buffers lent to a sending or a reading, in the order of their places: F holds the transfer
/// frames of a channel, M a matrix or the control blocks.
pub struct Lent<'a, F, M> {
    pub p1: F,
    pub pids: F,
    pub p2: F,
    pub p3: F,
    pub p4: F,
    pub pm: M,
    pub px1: M,
    pub px2: M,
    pub control: M,
    pub memory_p3: &'a mut [u8],
    pub memory_p4: &'a mut [u8],
    /// The scrambled P1 frames of the last L1 frames, oldest first.
    pub delay: &'a mut [u8],
}

/// The buffers of a sending: transfer frames to be read, matrices to be written.
pub type Sending<'a> = Lent<'a, &'a [u8], &'a mut [u8]>;

/// The buffers of a reading: matrices to be read, transfer frames to be written.
pub type Reading<'a> = Lent<'a, &'a mut [u8], &'a [u8]>;

impl<F: Deref<Target = [u8]>, M: Deref<Target = [u8]>> Lent<'_, F, M> {
    /// Documents 01 and 02, refusal 3: the lengths in the order of the places.
    pub(crate) fn lengths(&self) -> [usize; 12] {
        [
            self.p1.len(),
            self.pids.len(),
            self.p2.len(),
            self.p3.len(),
            self.p4.len(),
            self.pm.len(),
            self.px1.len(),
            self.px2.len(),
            self.control.len(),
            self.memory_p3.len(),
            self.memory_p4.len(),
            self.delay.len(),
        ]
    }
}

impl State {
    /// Document 01, operations: a run of this mode before its first L1 frame.
    fn fresh(mode: u64) -> State {
        State {
            mode,
            half: 0,
            age: 0,
            reserved: 0,
        }
    }

    /// Documents 01 and 02, run states: the mode of a valid state; refusal 2 for any other. An age
    /// that stands for greater ones too goes with either half.
    pub(crate) fn valid_mode(self) -> Result<&'static Mode, Refusal> {
        let valid = |mode: &&Mode| match self.half {
            0 | 1 if self.age == mode.oldest_age() => true,
            half => self.age < mode.oldest_age() && half == self.age % 2,
        };
        Mode::of_number(self.mode)
            .filter(valid)
            .filter(|_| self.reserved < NUMBERS)
            .ok_or(Refusal {
                number: 2,
                place: 0,
            })
    }

    /// Documents 01 and 02, operations: the state after one more L1 frame of this mode, with its
    /// reserved number.
    pub(crate) fn next(self, mode: &Mode, reserved: u64) -> State {
        State {
            mode: self.mode,
            half: 1 - self.half,
            age: (self.age + 1).min(mode.oldest_age()),
            reserved,
        }
    }
}

/// Document 01, operations: the answer of a call; a refused one returns the state given here.
pub(crate) fn answer(result: Result<State, Refusal>, otherwise: State) -> Answer {
    match result {
        Ok(state) => Answer {
            number: 0,
            place: 0,
            state,
            reserved: 0,
        },
        Err(refusal) => Answer {
            number: refusal.number,
            place: refusal.place,
            state: otherwise,
            reserved: 0,
        },
    }
}

impl Side {
    /// Documents 01 and 02, lent lengths: this side's memories for P3 and P4, the delay memory.
    pub fn memory_lengths(self, mode: &Mode) -> [usize; 3] {
        match self {
            Side::Sender => mode.sender_memory_lengths(),
            Side::Reader => mode.reader_memory_lengths(),
        }
    }

    /// Documents 01 and 02, lent lengths: of the twelve buffers in the order of their places.
    pub fn lengths(self, mode: &Mode) -> Vec<usize> {
        let frames = mode.frame_lengths();
        let matrices = mode.matrix_lengths();
        let memories = self.memory_lengths(mode);
        [&frames[..], &matrices[..], &memories[..]].concat()
    }
}

/// Document 01, refusal 3: the first buffer of a wrong length.
pub(crate) fn check_lengths(lent: &[usize], right: &[usize]) -> Result<(), Refusal> {
    match lent.iter().zip(right).position(|(a, b)| a != b) {
        Some(place) => Err(Refusal { number: 3, place }),
        None => Ok(()),
    }
}

/// Documents 01 and 02, operations: starts a sender or a reader, lent the memories for P3 and P4
/// and the delay memory.
pub fn start(side: Side, mode: u64, memories: [&mut [u8]; 3]) -> Answer {
    answer(try_start(side, mode, memories), State::fresh(1))
}

/// Document 01, operations: a start with its refusals 1 and 3.
fn try_start(side: Side, number: u64, memories: [&mut [u8]; 3]) -> Result<State, Refusal> {
    let refusal = Refusal {
        number: 1,
        place: 0,
    };
    let mode = Mode::of_number(number).ok_or(refusal)?;
    let lengths = memories.each_ref().map(|memory| memory.len());
    check_lengths(&lengths, &side.memory_lengths(mode))?;
    for memory in memories {
        memory.fill(0);
    }
    Ok(State::fresh(number))
}

/// Documents 01 and 02, operations: sends one L1 frame with a reserved number.
pub fn send(state: State, reserved: u64, lent: &mut Sending) -> Answer {
    answer(try_send(state, reserved, lent), state)
}

/// Documents 01 and 02, operations: a sending with its refusals 2, 9 and 3, in this order.
fn try_send(state: State, reserved: u64, lent: &mut Sending) -> Result<State, Refusal> {
    let mode = state.valid_mode()?;
    if reserved >= NUMBERS {
        return Err(Refusal {
            number: 9,
            place: 0,
        });
    }
    check_lengths(&lent.lengths(), &lengths_to_send(mode, lent))?;
    let p1 = scramble_frames(mode.p1.bits, &unpack(lent.p1));
    let mut u = encode_frames(Rate::TwoFifths, mode.p1.bits, &p1);
    u.extend(code_frames(Rate::TwoFifths, mode.p2.bits, lent.p2));
    let pids = code_frames(Rate::TwoFifths, PIDS.bits, lent.pids);
    lent.pm.copy_from_slice(&pack(&pm_matrix(&u, &pids)));
    if let Some(px2) = mode.delayed {
        let delayed = unpack(&shift_in(lent.delay, &pack(&p1)));
        let cells = delayed_cells(px2, mode.p1.bits, &delayed);
        lent.px2.copy_from_slice(&pack(&cells));
    }
    send_extended(&mode.p3, state.half, lent.p3, lent.px1, lent.memory_p3);
    send_extended(&mode.p4, state.half, lent.p4, lent.px2, lent.memory_p4);
    lent.control
        .copy_from_slice(&control(mode.number, reserved));
    Ok(state.next(mode, reserved))
}

/// Document 02, S-5: what a sending must be lent; nothing at all will do for P3 and P4.
fn lengths_to_send(mode: &Mode, lent: &Sending) -> Vec<usize> {
    let mut lengths = Side::Sender.lengths(mode);
    for (place, frames) in [(3, lent.p3), (4, lent.p4)] {
        if frames.is_empty() {
            lengths[place] = 0;
        }
    }
    lengths
}

/// Section 8: scrambles transfer frames, each by itself, or takes the scrambling off again.
pub(crate) fn scramble_frames(frame_bits: usize, frames: &[bool]) -> Vec<bool> {
    let frames: Vec<_> = frames.chunks(frame_bits).map(scramble).collect();
    frames.concat()
}

/// Section 9.3: codes scrambled transfer frames, each by itself.
fn encode_frames(rate: Rate, frame_bits: usize, frames: &[bool]) -> Vec<bool> {
    frames
        .chunks(frame_bits)
        .flat_map(|frame| encode(rate, frame))
        .collect()
}

/// Sections 8 and 9: scrambles and codes packed transfer frames, each by itself.
pub fn code_frames(rate: Rate, frame_bits: usize, frames: &[u8]) -> Vec<bool> {
    encode_frames(
        rate,
        frame_bits,
        &scramble_frames(frame_bits, &unpack(frames)),
    )
}

/// Section 9.2 and document 01, reader's memory: the newest bytes enter a memory at its end; those
/// that leave it at its beginning are handed back.
pub(crate) fn shift_in(memory: &mut [u8], newest: &[u8]) -> Vec<u8> {
    let mut leaving = [memory, newest].concat();
    let kept = leaving.split_off(newest.len());
    memory.copy_from_slice(&kept);
    leaving
}

/// Sections 10.4.2.3 and 10.4.2.4: the frames of P1', scrambled when they were P1's, are coded into
/// one PX2 matrix each.
fn delayed_cells(px2: &Partitions, frame_bits: usize, scrambled: &[bool]) -> Vec<bool> {
    scrambled
        .chunks(frame_bits)
        .flat_map(|frame| px2.matrix(&encode(Rate::OneHalf, frame)))
        .collect()
}

/// Section 10.4.2: the PX process of one channel over one L1 frame. Nothing in place of its frames
/// means zeros (document 02, S-5).
fn send_extended(
    channel: &Extended,
    half: u64,
    frames: &[u8],
    matrices: &mut [u8],
    memory: &mut [u8],
) {
    let Some(row) = channel.row else { return };
    let zeros = vec![0; channel.frames];
    let frames = if frames.is_empty() { &zeros } else { frames };
    let coded = code_frames(Rate::OneHalf, row.frame_bits / 2, frames);
    let mut internal = unpack(memory);
    let output = row.process(half as usize, &coded, &mut internal);
    matrices.copy_from_slice(&pack(&output));
    memory.copy_from_slice(&pack(&internal));
}
