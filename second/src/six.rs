//! Both ways in all six modes: the matrices filled with the names of the coded bits, and the places of these names; and the working of a coded bit.

use std::collections::HashMap;
use std::sync::OnceLock;

use crate::coding::Rate;
use crate::interleaving::{pm_matrix, pm_position, Partitions, PxRow, PM_COLUMNS, PM_ROWS};
use crate::locating::{coded_bits, explained, k_of, written_pm, written_px, Working, Written};
use crate::modes::{Extended, Frames, Mode, BLOCK_PAIRS, DIVERSITY_DELAY, MODES, PIDS};
use crate::run::{Refusal, State};

/// The name of a coded bit of PM: the channel, 1 P1, 2 PIDS or 5 P2, its transfer frame and the bit of it.
pub type Name = (u64, usize, usize);

/// The cells of a mode's PM by name.
type Cells = HashMap<Name, usize>;

/// Document 01, refusal 3: an argument out of range, at its place.
fn out_of_range(place: usize) -> Refusal {
    Refusal { number: 3, place }
}

/// Document 01, refusal 1: a mode that is not covered.
fn covered(mode: u64) -> Result<usize, Refusal> {
    let not_covered = Refusal {
        number: 1,
        place: 0,
    };
    let known = MODES.iter().position(|known| known.number == mode);
    known.ok_or(not_covered)
}

/// The names of the coded bits of one channel, frame by frame.
fn names(channel: u64, frames: usize, bits: usize) -> Vec<Name> {
    (0..frames * bits)
        .map(|i| (channel, i / bits, i % bits))
        .collect()
}

/// Section 10.4.1 with Figure 10-5: PM with the names of the P1 frames' bits, of those of P2 behind them, and of PIDS; and where each name stands.
fn named(mode: usize) -> &'static (Vec<Name>, Cells) {
    static NAMED: [OnceLock<(Vec<Name>, Cells)>; 6] = [const { OnceLock::new() }; 6];
    NAMED[mode].get_or_init(|| {
        let Mode { p1, p2, .. } = &MODES[mode];
        let mut u = names(1, p1.count, p1.coded_bits());
        u.extend(names(5, p2.count, p2.coded_bits()));
        let matrix = pm_matrix(&u, &names(2, PIDS.count, PIDS.coded_bits()));
        let cells = matrix.iter().enumerate().map(|(cell, &name)| (name, cell));
        let cells = cells.collect();
        (matrix, cells)
    })
}

/// Whose coded bit stands in a row and a column of a mode's PM.
pub fn find(mode: u64, row: usize, column: usize) -> Result<Name, Refusal> {
    let mode = covered(mode)?;
    if row >= PM_ROWS {
        return Err(out_of_range(0));
    }
    if column >= PM_COLUMNS {
        return Err(out_of_range(1));
    }
    Ok(named(mode).0[row * PM_COLUMNS + column])
}

/// The PM cell of a coded bit of P1 (channel 1), PIDS (2) or P2 (5).
pub fn locate(mode: u64, channel: u64, frame: usize, bit: usize) -> Result<usize, Refusal> {
    let cells = &named(covered(mode)?).1;
    let found = |frame, bit| cells.get(&(channel, frame, bit)).copied();
    found(0, 0).ok_or(out_of_range(0))?;
    found(frame, 0).ok_or(out_of_range(1))?;
    found(frame, bit).ok_or(out_of_range(2))
}

/// What stands in a cell of PX1 or PX2.
#[derive(Clone, Copy, Debug, PartialEq, Eq)]
pub enum Content {
    /// A bit coded so many L1 frames earlier, of this frame of the eight.
    Coded([usize; 3]),
    Fill,
    /// A coded bit of this P1' frame.
    Second([usize; 2]),
    DelayZeros,
}

/// Section 10.4.2: the cells of an extended channel in the L1 frame of this half and age, its tags followed from the start.
fn followed(row: &PxRow, half: u64, age: u64) -> Vec<Content> {
    let now = (if age < 2 { age } else { 2 + half }) as usize;
    let mut memory = vec![None; row.bits];
    let mut cells = Vec::new();
    for sent in 0..=now {
        let tags: Vec<_> = (0..row.half_bits()).map(|bit| Some((sent, bit))).collect();
        cells = row.process(sent % 2, &tags, &mut memory);
    }
    let content = |tag: Option<(usize, usize)>| match tag {
        Some((sent, bit)) => {
            Content::Coded([now - sent, bit / row.frame_bits, bit % row.frame_bits])
        }
        None => Content::Fill,
    };
    cells.into_iter().map(content).collect()
}

/// Sections 9.2, 10.4.2.3 and 10.4.2.4: the cells of the eight matrices of P1' in the L1 frame of this age.
fn second_path(px2: &Partitions, age: u64) -> Vec<Content> {
    let mut cells = vec![Content::DelayZeros; BLOCK_PAIRS * px2.bits()];
    if age < DIVERSITY_DELAY {
        return cells;
    }
    for frame in 0..BLOCK_PAIRS {
        for bit in 0..px2.bits() {
            cells[frame * px2.bits() + px2.interleaver_one(bit)] = Content::Second([frame, bit]);
        }
    }
    cells
}

/// All cells of PX1 (channel 3) or PX2 (channel 4) of the L1 frame that a state comes before, row by row through the eight matrices of 64 rows.
pub fn cells(state: State, channel: u64) -> Result<Vec<Content>, Refusal> {
    let mode = state.valid_mode()?;
    let sent = match (channel, mode.delayed) {
        (4, Some(px2)) => return Ok(second_path(px2, state.age)),
        (3, _) => mode.p3.row,
        (4, None) => mode.p4.row,
        _ => None,
    };
    let row = sent.ok_or(out_of_range(0))?;
    Ok(followed(row, state.half, state.age))
}

/// One cell of them.
pub fn find_px(
    state: State,
    channel: u64,
    [pair, row, column]: [usize; 3],
) -> Result<Content, Refusal> {
    let cells = cells(state, channel)?;
    let width = cells.len() / 512;
    let out = [pair > 7, row > 63, column >= width];
    match out.into_iter().position(|out| out) {
        Some(place) => Err(out_of_range(1 + place)),
        None => Ok(cells[(64 * pair + row) * width + column]),
    }
}

/// Of a coded bit of P3 (channel 3), P4 (4) or P1' (6) of the L1 frame that a state comes before: how many L1 frames later it is sent, and its
/// block pair, row and column.
pub fn locate_px(
    state: State,
    channel: u64,
    frame: usize,
    bit: usize,
) -> Result<[usize; 4], Refusal> {
    let mode = state.valid_mode()?;
    let sent = match channel {
        3 => mode.p3.row,
        4 => mode.p4.row,
        _ => None,
    };
    let bits = match (sent, channel, mode.delayed) {
        (Some(row), _, _) => row.frame_bits,
        (None, 6, Some(px2)) => px2.bits(),
        _ => return Err(out_of_range(0)),
    };
    if frame >= BLOCK_PAIRS {
        return Err(out_of_range(1));
    }
    if bit >= bits {
        return Err(out_of_range(2));
    }
    let (later, cell) = match (sent, mode.delayed) {
        (Some(row), _) => row.shown()[state.half as usize][frame * bits + bit],
        (None, Some(px2)) => (
            DIVERSITY_DELAY as usize,
            frame * bits + px2.interleaver_one(bit),
        ),
        (None, None) => unreachable!("a channel of the mode"),
    };
    let width = bits / 64;
    Ok([later, cell / width / 64, cell / width % 64, cell % width])
}

/// Tables 7-3 to 7-8 with section 9.4: the rate of a channel of the mode, and its transfer frames in an L1 frame. P1' has those of P1.
fn sent(mode: &Mode, channel: u64) -> Option<(Rate, Frames)> {
    let extended = |sent: Extended| {
        let frames = Frames {
            count: BLOCK_PAIRS,
            bits: sent.frames,
        };
        sent.row.map(|_| (Rate::OneHalf, frames))
    };
    match channel {
        1 => Some((Rate::TwoFifths, mode.p1)),
        2 => Some((Rate::TwoFifths, PIDS)),
        3 => extended(mode.p3),
        4 => extended(mode.p4),
        5 => (mode.p2.count > 0).then_some((Rate::TwoFifths, mode.p2)),
        6 => mode.delayed.map(|_| (Rate::OneHalf, mode.p1)),
        _ => None,
    }
}

/// Sections 10.4.2.3 and 10.4.2.4: how a bit of a P1' frame is written, from its cell in the frame's matrix.
fn written_second(px2: &Partitions, frame: usize, bit: usize) -> Written {
    let cell = px2.interleaver_one(bit);
    let width = px2.bits() / 64;
    let position = pm_position(cell / width, cell % width);
    let k = k_of(position[1], position[3]);
    (bit, k, position, frame * px2.bits() + cell)
}

/// The working of a coded bit of P1 (channel 1), PIDS (2), P3 (3), P4 (4), P2 (5) or P1' (6), of the L1 frame that a state comes before, from the
/// transfer frames of the channel.
pub fn working(
    state: State,
    channel: u64,
    frames: &[u8],
    frame: usize,
    bit: usize,
) -> Result<Working, Refusal> {
    let mode = state.valid_mode()?;
    let (rate, Frames { count, bits }) = sent(mode, channel).ok_or(out_of_range(0))?;
    let zeros = vec![0; count * bits / 8];
    let frames = match (frames.is_empty(), channel) {
        (true, 3 | 4) => &zeros,
        _ => frames,
    };
    let coded = coded_bits(rate, count, bits, frames, frame, bit)?;
    let row = [mode.p3.row, mode.p4.row];
    let written = match (channel, mode.delayed) {
        (1 | 2, _) => written_pm(
            frame * coded + bit,
            locate(mode.number, channel, frame, bit)?,
        ),
        (5, _) => {
            let step = mode.p1.all_coded_bits() + bit;
            written_pm(step, locate(mode.number, channel, frame, bit)?)
        }
        (6, Some(px2)) => written_second(px2, frame, bit),
        _ => {
            let row = row[channel as usize - 3].expect("a channel of the mode");
            let before = state.half as usize * row.half_bits();
            written_px(row, before + frame * coded + bit)
        }
    };
    Ok(explained(rate, bits, frames, [frame, bit], written))
}
