//! Documents 01 and 02, operations of a run: reading, the way back, with its refusals.

use crate::coding::{decode, Rate};
use crate::control::{block, number_of, BLOCK_BYTES};
use crate::interleaving::{pm_coded_bits, PM_COLUMNS, PM_ROWS};
use crate::modes::{Extended, Frames, Mode, BLOCK_PAIRS, EXTENDED_WAIT, PIDS};
use crate::packing::{pack, unpack};
use crate::run::{answer, check_lengths, scramble_frames, shift_in};
use crate::run::{Answer, Reading, Refusal, Side, State};
use crate::scrambling::scramble;

/// Documents 01 and 02, operations: reads one L1 frame.
pub fn read(state: State, lent: &mut Reading) -> Answer {
    let result = try_read(state, lent);
    Answer {
        reserved: result.as_ref().map_or(0, |state| state.reserved),
        ..answer(result, state)
    }
}

/// Documents 01 and 02, operations: a reading with its refusals 2 to 8; nothing is written before
/// all of them are judged.
fn try_read(state: State, lent: &mut Reading) -> Result<State, Refusal> {
    let mode = state.valid_mode()?;
    check_lengths(&lent.lengths(), &Side::Reader.lengths(mode))?;
    let reserved = judge_control(mode, lent.control)?;
    let (u, pids) = pm_coded_bits(&unpack(lent.pm));
    let (p1, p2) = u.split_at(mode.p1.all_coded_bits());
    let p1 = read_p1(mode, state, p1, lent)?;
    let p2 = read_pm(mode.p2, p2, 5, BLOCK_PAIRS)?;
    let pids = read_pm(PIDS, &pids, 6, 0)?;
    if state.age < mode.oldest_age() {
        judge_zeros(mode, state, lent)?;
    }
    if state.age >= EXTENDED_WAIT {
        let (p3, p4) = read_px(mode, state, lent)?;
        lent.p3.copy_from_slice(&p3);
        lent.p4.copy_from_slice(&p4);
    }
    let complete = match mode.delayed {
        Some(_) => unpack(&shift_in(lent.delay, &pack(&p1))),
        None => p1,
    };
    if state.age >= mode.delay() {
        let frames = scramble_frames(mode.p1.bits, &complete);
        lent.p1.copy_from_slice(&pack(&frames));
    }
    lent.pids.copy_from_slice(&pids);
    lent.p2.copy_from_slice(&p2);
    remember(&mode.p3, lent.memory_p3, lent.px1);
    remember(&mode.p4, lent.memory_p4, lent.px2);
    Ok(state.next(mode, reserved))
}

/// Documents 01 and 02, refusal 4: every control block is the one of this mode, its count and one
/// reserved number, which block 0 tells and which is handed back.
fn judge_control(mode: &Mode, control: &[u8]) -> Result<u64, Refusal> {
    let departs = |place| Refusal { number: 4, place };
    let first = number_of(mode.number, 0, &control[..BLOCK_BYTES]).ok_or(departs(0))?;
    for (place, lent) in control.chunks(BLOCK_BYTES).enumerate() {
        if lent != block(mode.number, place as u64, first) {
            return Err(departs(place));
        }
    }
    Ok(first)
}

/// Documents 01 and 02, refusal 5: the scrambled P1 frames that PM brings, if each is a coded frame
/// and each frame that its second path completes is whole.
fn read_p1(
    mode: &Mode,
    state: State,
    coded: &[bool],
    lent: &Reading,
) -> Result<Vec<bool>, Refusal> {
    let mut frames = Vec::new();
    for (place, coded) in coded.chunks(mode.p1.coded_bits()).enumerate() {
        let refusal = Refusal { number: 5, place };
        frames.extend(decode(Rate::TwoFifths, coded).ok_or(refusal)?);
        if !paths_agree(mode, state, lent, place) {
            return Err(refusal);
        }
    }
    Ok(frames)
}

/// Document 02, S-9: whether a P1' frame is a coded frame and the P1 frame that came before it by
/// the delay; not asked of a mode without P1', nor while PX2 shows the delay's zeros.
fn paths_agree(mode: &Mode, state: State, lent: &Reading, frame: usize) -> bool {
    let Some(px2) = mode.delayed.filter(|_| state.age >= mode.delay()) else {
        return true;
    };
    let part = |bytes: &[u8], bits: usize| unpack(&bytes[frame * bits / 8..][..bits / 8]);
    let later = px2.coded_bits(&part(lent.px2, px2.bits()));
    decode(Rate::OneHalf, &later) == Some(part(lent.delay, mode.p1.bits))
}

/// Documents 01 and 02, refusals 5 and 6: the frames of P2 or PIDS, which PM brings whole.
fn read_pm(
    channel: Frames,
    coded: &[bool],
    number: u32,
    first_place: usize,
) -> Result<Vec<u8>, Refusal> {
    decode_frames(Rate::TwoFifths, channel.coded_bits(), coded).map_err(|frame| Refusal {
        number,
        place: first_place + frame,
    })
}

/// Sections 8 and 9, way back: the packed frames, or the first that is no coded frame.
pub fn decode_frames(rate: Rate, coded_bits: usize, coded: &[bool]) -> Result<Vec<u8>, usize> {
    let mut frames = Vec::new();
    for (place, bits) in coded.chunks(coded_bits).enumerate() {
        let scrambled = decode(rate, bits).ok_or(place)?;
        frames.extend(scramble(&scrambled));
    }
    Ok(pack(&frames))
}

/// Documents 01 and 02, refusal 7: cells that can show only zeros are zero, counted through PX1
/// and then PX2; in the modes with P1', PM's cells come before them.
fn judge_zeros(mode: &Mode, state: State, lent: &Reading) -> Result<(), Refusal> {
    let px1 = filled(&mode.p3, state);
    let px2 = [filled(&mode.p4, state), delayed_zeros(mode, state)].concat();
    let mut before = mode.delayed.map_or(0, |_| PM_ROWS * PM_COLUMNS);
    for (zeros, matrices) in [(px1, lent.px1), (px2, lent.px2)] {
        let mut cells = unpack(matrices).into_iter().zip(zeros);
        if let Some(cell) = cells.position(|(bit, zero)| bit && zero) {
            let place = before + cell;
            return Err(Refusal { number: 7, place });
        }
        before += 8 * matrices.len();
    }
    Ok(())
}

/// Document 01, refusal 7: which cells of an extended channel show the zero fill; none is listed
/// once every frame is waited for.
fn filled(channel: &Extended, state: State) -> Vec<bool> {
    match channel.row {
        Some(row) if state.age < EXTENDED_WAIT => {
            row.fill()[state.half as usize * row.half_bits()..][..row.half_bits()].to_vec()
        }
        _ => Vec::new(),
    }
}

/// Document 02, S-9, refusal 7: the cells of PX2, all of them until P1' comes out of the delay.
fn delayed_zeros(mode: &Mode, state: State) -> Vec<bool> {
    match mode.delayed {
        Some(px2) if state.age < mode.delay() => vec![true; BLOCK_PAIRS * px2.bits()],
        _ => Vec::new(),
    }
}

/// Document 01, refusal 8: the P3 and P4 frames of the L1 frame two earlier.
fn read_px(mode: &Mode, state: State, lent: &Reading) -> Result<(Vec<u8>, Vec<u8>), Refusal> {
    let refusal = |place| Refusal { number: 8, place };
    let p3 = read_extended(&mode.p3, state.half, lent.memory_p3, lent.px1).map_err(refusal)?;
    let p4 = read_extended(&mode.p4, state.half, lent.memory_p4, lent.px2)
        .map_err(|frame| refusal(BLOCK_PAIRS + frame))?;
    Ok((p3, p4))
}

/// Section 10.4.2, way back: one channel's frames of the L1 frame two earlier.
fn read_extended(
    channel: &Extended,
    half: u64,
    memory: &[u8],
    matrices: &[u8],
) -> Result<Vec<u8>, usize> {
    let Some(row) = channel.row else {
        return Ok(Vec::new());
    };
    let earlier = unpack(&memory[matrices.len()..]);
    let (two_earlier, one_earlier) = earlier.split_at(row.half_bits());
    let now = unpack(matrices);
    let coded = row.first_of_three(half as usize, [two_earlier, one_earlier, &now]);
    decode_frames(Rate::OneHalf, row.frame_bits, &coded)
}

/// Document 01, lent lengths: the reader's memory of a channel drops its oldest matrices for the
/// new ones.
fn remember(channel: &Extended, memory: &mut [u8], matrices: &[u8]) {
    if channel.row.is_some() {
        shift_in(memory, matrices);
    }
}
