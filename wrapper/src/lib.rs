//! The FM Layer 1 bit chain for Rust: safe functions over the C library of the proved crates.
//!
//! The borrow rules give what the header `include/layer1.h` asks of a caller: slices point to as many bytes as they say, also where they
//! are empty, and one that is written overlaps no other.

#![deny(missing_docs)]

mod raw;

/// The number of the interface that this crate is written for: the header's `LAYER1_VERSION`.
pub const VERSION: u32 = 3;

/// The number of the interface that the archive has. Where it is not `VERSION`, the two do not belong together.
pub fn version() -> u32 {
    // SAFETY: nothing crosses but a number.
    unsafe { raw::layer1_version() }
}

/// Documents 01 and 02: a run's state. One that is not valid is refused (2).
#[derive(Clone, Copy, Debug, PartialEq, Eq)]
pub struct State {
    /// The service mode, by its number: 1, 2, 3, 5, 6 or 11.
    pub mode: u8,
    /// Which half of the interleaver's internal matrix comes next, 0 or 1.
    pub half: u8,
    /// How many L1 frames the run has, as far as it matters: at most 2, in MP5 and MP6 at most 3.
    pub age: u8,
    /// Document 02, S-2: the last number sent or read.
    pub reserved: u8,
}

/// What a start, a sending or a reading returns: number and place of the table of causes, the state, and of a reading the L1 frame's reserved
/// number, 0 when refused.
#[derive(Clone, Copy, Debug, PartialEq, Eq)]
pub struct Outcome {
    /// The number of the table of causes, 0 for success.
    pub number: u8,
    /// The place that comes with it.
    pub place: u32,
    /// The state after the call: after a refused one the state that it was handed, after a refused start that of a start in MP1.
    pub state: State,
    /// The reserved number of the L1 frame that was read, 0 after any other call.
    pub reserved: u8,
}

/// The two sides of a run.
#[derive(Clone, Copy, Debug, PartialEq, Eq)]
pub enum Side {
    /// Starts, then sends.
    Sender,
    /// Starts, then reads.
    Reader,
}

/// The buffers lent to a sending, in the order of their places. An empty `p3` or `p4` means eight frames of zeros (document 02, S-5).
pub struct Sending<'a> {
    /// The P1 frames, read.
    pub p1: &'a [u8],
    /// The PIDS frames, read.
    pub pids: &'a [u8],
    /// The P2 frame, read.
    pub p2: &'a [u8],
    /// The P3 frames, read.
    pub p3: &'a [u8],
    /// The P4 frames, read.
    pub p4: &'a [u8],
    /// PM, written.
    pub pm: &'a mut [u8],
    /// PX1, written.
    pub px1: &'a mut [u8],
    /// PX2, written.
    pub px2: &'a mut [u8],
    /// The sixteen control blocks, written.
    pub control: &'a mut [u8],
    /// The memory for P3, kept from call to call.
    pub memory3: &'a mut [u8],
    /// The memory for P4, kept from call to call.
    pub memory4: &'a mut [u8],
    /// The delay memory, kept from call to call.
    pub delay: &'a mut [u8],
}

/// The buffers lent to a reading, in the order of their places.
pub struct Reading<'a> {
    /// The P1 frames, written.
    pub p1: &'a mut [u8],
    /// The PIDS frames, written.
    pub pids: &'a mut [u8],
    /// The P2 frame, written.
    pub p2: &'a mut [u8],
    /// The P3 frames, written.
    pub p3: &'a mut [u8],
    /// The P4 frames, written.
    pub p4: &'a mut [u8],
    /// PM, read.
    pub pm: &'a [u8],
    /// PX1, read.
    pub px1: &'a [u8],
    /// PX2, read.
    pub px2: &'a [u8],
    /// The sixteen control blocks, read.
    pub control: &'a [u8],
    /// The memory for P3, kept from call to call.
    pub memory3: &'a mut [u8],
    /// The memory for P4, kept from call to call.
    pub memory4: &'a mut [u8],
    /// The delay memory, kept from call to call.
    pub delay: &'a mut [u8],
}

/// Document 02, S-7: the numbers of each part of a vector; element k belongs to subcarrier k - 546.
pub const POINTS: usize = 1_093;

/// The matrices and the control of an L1 frame, lent to be read.
#[derive(Clone, Copy)]
pub struct L1Frame<'a> {
    /// PM.
    pub pm: &'a [u8],
    /// PX1.
    pub px1: &'a [u8],
    /// PX2.
    pub px2: &'a [u8],
    /// The sixteen control blocks.
    pub control: &'a [u8],
}

/// Document 02, S-7: a scale for each sideband.
#[derive(Clone, Copy)]
pub struct Scales {
    /// Of the lower sideband.
    pub lower: f32,
    /// Of the upper sideband.
    pub upper: f32,
}

/// The channels that meet in PM.
#[derive(Clone, Copy, Debug, PartialEq, Eq)]
pub enum Channel {
    /// P1.
    P1,
    /// PIDS.
    Pids,
    /// P2, in MP5 and MP6.
    P2,
}

/// Whose coded bit stands in a cell of PM; no channel and zeros when refused.
#[derive(Clone, Copy, Debug, PartialEq, Eq)]
pub struct Found {
    /// The number of the table of causes, 0 for success.
    pub number: u8,
    /// The place that comes with it.
    pub place: u8,
    /// The channel of the coded bit.
    pub channel: Option<Channel>,
    /// Its transfer frame.
    pub frame: u8,
    /// The coded bit in that frame.
    pub bit: u32,
}

/// Document 02, S-3: where a row and a column of PM stand.
#[derive(Clone, Copy, Debug, PartialEq, Eq)]
pub struct Position {
    /// The L1 block.
    pub block: u8,
    /// The row in the block.
    pub row: u8,
    /// The partition.
    pub partition: u8,
    /// The column in the partition.
    pub column: u8,
}

/// The position of a row and a column of PM; zeros when refused.
#[derive(Clone, Copy, Debug, PartialEq, Eq)]
pub struct Placed {
    /// The number of the table of causes, 0 for success.
    pub number: u8,
    /// The place that comes with it.
    pub place: u8,
    /// The position.
    pub position: Position,
}

/// Where a coded bit of P1 or PIDS goes; zeros when refused.
#[derive(Clone, Copy, Debug, PartialEq, Eq)]
pub struct Located {
    /// The number of the table of causes, 0 for success.
    pub number: u8,
    /// The place that comes with it.
    pub place: u8,
    /// The position of the cell.
    pub position: Position,
    /// Its row of PM.
    pub row: u16,
    /// Its column of PM.
    pub column: u16,
}

/// Where a coded bit of P3 or P4 goes; zeros when refused.
#[derive(Clone, Copy, Debug, PartialEq, Eq)]
pub struct LocatedPx {
    /// The number of the table of causes, 0 for success.
    pub number: u8,
    /// The place that comes with it.
    pub place: u8,
    /// How many L1 frames later the cell is sent.
    pub later: u8,
    /// The block pair of its matrix.
    pub pair: u8,
    /// The row of that matrix.
    pub row: u8,
    /// The column.
    pub column: u32,
}

/// The working of a coded bit.
#[derive(Clone, Copy, Debug, PartialEq, Eq)]
pub struct Working {
    /// The bit of the transfer frame that the coded bit belongs to, j.
    pub bit: u64,
    /// The generator whose output for it the coded bit is: 0o133, 0o171 or 0o165.
    pub generator: u64,
    /// The bits j, j - 1, .. j - 6 of the transfer frame, counted around its end.
    pub bits: [u64; 7],
    /// The bits of the scrambling sequence there.
    pub scrambling: [u64; 7],
    /// How many of the fourteen are 1 where the generator has a tap.
    pub sum: u64,
    /// The sum modulo 2: the coded bit.
    pub coded: u64,
    /// The bit's number i in the equations of 10.2.3, 10.2.4 or 10.2.6.
    pub step: u64,
    /// k of 10.2.3.3 or 10.2.4.3; in 10.2.6 the counter of the partition.
    pub k: u64,
    /// Block, row, partition and column that it is written to; in 10.2.6 of the internal matrix.
    pub position: [u64; 4],
    /// The cell, counted across the rows of that matrix; in 10.2.6 the step that reads it.
    pub cell: u64,
}

/// What stands in a cell of PX1 or PX2.
#[derive(Clone, Copy, Debug, PartialEq, Eq)]
pub enum Content {
    /// A coded bit.
    Coded,
    /// The zero fill.
    Fill,
    /// A coded bit of P1', in MP5 and MP6.
    Second,
    /// The zeros of the diversity delay, in MP5 and MP6.
    DelayZeros,
}

/// Whose coded bit stands in a cell of PX1 or PX2, and how many L1 frames earlier it was sent; no content and zeros when refused.
#[derive(Clone, Copy, Debug, PartialEq, Eq)]
pub struct FoundPx {
    /// The number of the table of causes, 0 for success.
    pub number: u8,
    /// The place that comes with it.
    pub place: u8,
    /// What the cell shows.
    pub content: Option<Content>,
    /// How many L1 frames earlier the bit was sent.
    pub before: u8,
    /// Its transfer frame.
    pub frame: u8,
    /// The coded bit in that frame.
    pub bit: u32,
}

/// What a control block says; mode, count and reserved number 0 when refused.
#[derive(Clone, Copy, Debug, PartialEq, Eq)]
pub struct LookedUp {
    /// The number of the table of causes, 0 for success.
    pub number: u8,
    /// The place that comes with it.
    pub place: u32,
    /// The service mode.
    pub mode: u8,
    /// The block count.
    pub count: u8,
    /// The reserved number.
    pub reserved: u8,
}

/// Document 02, S-8: what the sixteen control blocks of an L1 frame say as a set; mode and reserved number 0 when refused.
#[derive(Clone, Copy, Debug, PartialEq, Eq)]
pub struct LookedUpFrame {
    /// The number of the table of causes, 0 for success.
    pub number: u8,
    /// The place that comes with it.
    pub place: u32,
    /// The service mode.
    pub mode: u8,
    /// The reserved number.
    pub reserved: u8,
}

/// What a call returns that has no state: number and place of the table of causes.
#[derive(Clone, Copy, Debug, PartialEq, Eq)]
pub struct Answer {
    /// The number of the table of causes, 0 for success.
    pub number: u8,
    /// The place that comes with it.
    pub place: u32,
}

/// Document 02, S-12: what a search for the nearest frame tells; distance and margin 0 when refused.
#[derive(Clone, Copy, Debug, PartialEq, Eq)]
pub struct Nearest {
    /// The number of the table of causes, 0 for success.
    pub number: u8,
    /// The place that comes with it.
    pub place: u32,
    /// The number of read cells that differ from the frame's.
    pub distance: u8,
    /// By how much at most a frame of another start is nearer.
    pub margin: u8,
}

/// Document 02, S-13: what the judge says of a dump: number and place of the table of causes, and the number of the L1 frame; zeros when it accepts.
#[derive(Clone, Copy, Debug, Default, PartialEq, Eq)]
pub struct Verdict {
    /// The number of the table of causes, 0 for success.
    pub number: u8,
    /// The place that comes with it.
    pub place: u32,
    /// The number of the L1 frame that a dump is refused at.
    pub frame: u16,
}

/// The eight bits of a word from this one on.
fn byte(word: u64, bit: u32) -> u8 {
    (word >> bit) as u8
}

/// The fields of an outcome word.
fn outcome(word: u64) -> Outcome {
    Outcome {
        number: byte(word, 0),
        place: (word >> 32) as u32 & 0x00ff_ffff,
        state: State {
            mode: byte(word, 8),
            half: byte(word, 16),
            age: byte(word, 24),
            reserved: byte(word, 56),
        },
        reserved: 0,
    }
}

/// The fields of an answer word.
fn answer(word: u64) -> Answer {
    Answer {
        number: byte(word, 0),
        place: (word >> 32) as u32,
    }
}

/// Document 02, S-4: shares the sixteen PIDS places of an L1 frame among eight sources. Each place is the number of its source, or 255 for a
/// frame of zeros.
pub fn share_places(shares: [u8; 8], waiting: [u8; 8], places: &mut [u8]) -> Answer {
    let (shares, waiting) = (u64::from_le_bytes(shares), u64::from_le_bytes(waiting));
    // SAFETY: as in `start`.
    let word =
        unsafe { raw::layer1_share_places(shares, waiting, places.as_mut_ptr(), places.len()) };
    answer(word)
}

/// The bytes that `sheet` asks for, at least.
pub const SHEET_ROOM: usize = 1_200_000;

/// The answer sheet for an input, with `work` the working below each answer, or the one line that says why there is none, in a buffer of at least
/// `SHEET_ROOM` bytes; zeros follow it.
pub fn sheet(
    mode: u8,
    count: u64,
    without_p3: bool,
    without_p4: bool,
    work: bool,
    input: &[u8],
    out: &mut [u8],
) -> Answer {
    // SAFETY: as in `start`.
    let word = unsafe {
        raw::layer1_sheet(
            mode,
            count,
            without_p3.into(),
            without_p4.into(),
            work.into(),
            input.as_ptr(),
            input.len(),
            out.as_mut_ptr(),
            out.len(),
        )
    };
    answer(word)
}

/// Starts a sender or a reader: zeroes its memories.
pub fn start(
    side: Side,
    mode: u8,
    memory3: &mut [u8],
    memory4: &mut [u8],
    delay: &mut [u8],
) -> Outcome {
    let call = match side {
        Side::Sender => raw::layer1_start_sender,
        Side::Reader => raw::layer1_start_reader,
    };
    // SAFETY: each pointer and length are those of one slice, and the borrow rules keep them apart.
    outcome(unsafe {
        call(
            mode,
            memory3.as_mut_ptr(),
            memory3.len(),
            memory4.as_mut_ptr(),
            memory4.len(),
            delay.as_mut_ptr(),
            delay.len(),
        )
    })
}

/// Sends an L1 frame with a reserved number, 0 to 7.
pub fn send(state: State, reserved: u8, lent: &mut Sending) -> Outcome {
    // SAFETY: as in `start`.
    outcome(unsafe {
        raw::layer1_send(
            state.mode,
            state.half,
            state.age,
            state.reserved,
            reserved,
            lent.p1.as_ptr(),
            lent.p1.len(),
            lent.pids.as_ptr(),
            lent.pids.len(),
            lent.p2.as_ptr(),
            lent.p2.len(),
            lent.p3.as_ptr(),
            lent.p3.len(),
            lent.p4.as_ptr(),
            lent.p4.len(),
            lent.pm.as_mut_ptr(),
            lent.pm.len(),
            lent.px1.as_mut_ptr(),
            lent.px1.len(),
            lent.px2.as_mut_ptr(),
            lent.px2.len(),
            lent.control.as_mut_ptr(),
            lent.control.len(),
            lent.memory3.as_mut_ptr(),
            lent.memory3.len(),
            lent.memory4.as_mut_ptr(),
            lent.memory4.len(),
            lent.delay.as_mut_ptr(),
            lent.delay.len(),
        )
    })
}

/// Reads an L1 frame.
pub fn read(state: State, lent: &mut Reading) -> Outcome {
    // SAFETY: as in `start`.
    let outcome = outcome(unsafe {
        raw::layer1_read(
            state.mode,
            state.half,
            state.age,
            state.reserved,
            lent.p1.as_mut_ptr(),
            lent.p1.len(),
            lent.pids.as_mut_ptr(),
            lent.pids.len(),
            lent.p2.as_mut_ptr(),
            lent.p2.len(),
            lent.p3.as_mut_ptr(),
            lent.p3.len(),
            lent.p4.as_mut_ptr(),
            lent.p4.len(),
            lent.pm.as_ptr(),
            lent.pm.len(),
            lent.px1.as_ptr(),
            lent.px1.len(),
            lent.px2.as_ptr(),
            lent.px2.len(),
            lent.control.as_ptr(),
            lent.control.len(),
            lent.memory3.as_mut_ptr(),
            lent.memory3.len(),
            lent.memory4.as_mut_ptr(),
            lent.memory4.len(),
            lent.delay.as_mut_ptr(),
            lent.delay.len(),
        )
    });
    let reserved = match outcome.number {
        0 => outcome.state.reserved,
        _ => 0,
    };
    Outcome {
        reserved,
        ..outcome
    }
}

/// The length of the buffer at a place of a sending or a reading; 0 past the last.
pub fn length(side: Side, mode: u8, place: usize) -> usize {
    let call = match side {
        Side::Sender => raw::layer1_sender_length,
        Side::Reader => raw::layer1_reader_length,
    };
    // SAFETY: only numbers cross.
    unsafe { call(mode, place) }
}

/// A finding word of PM.
fn found(word: u64) -> Found {
    Found {
        number: byte(word, 0),
        place: byte(word, 32),
        channel: match byte(word, 8) {
            1 => Some(Channel::P1),
            2 => Some(Channel::Pids),
            5 => Some(Channel::P2),
            _ => None,
        },
        frame: byte(word, 16),
        bit: (word >> 40) as u32,
    }
}

/// Finds whose coded bit stands in a cell of PM of the modes without P2.
pub fn find(row: usize, column: usize) -> Found {
    // SAFETY: only numbers cross.
    found(unsafe { raw::layer1_find(row, column) })
}

/// Finds whose coded bit stands in a cell of PM, in any mode.
pub fn find_in(mode: u8, row: usize, column: usize) -> Found {
    // SAFETY: only numbers cross.
    found(unsafe { raw::layer1_find_in(mode, row, column) })
}

/// Gives block, row in the block, partition and column in the partition of a row and a column of PM.
pub fn place_of(row: usize, column: usize) -> Placed {
    // SAFETY: only numbers cross.
    let word = unsafe { raw::layer1_place_of(row, column) };
    Placed {
        number: byte(word, 0),
        place: byte(word, 32),
        position: Position {
            block: byte(word, 8),
            row: byte(word, 16),
            partition: byte(word, 24),
            column: byte(word, 40),
        },
    }
}

/// A finding word of PX1 or PX2.
fn found_px(word: u64) -> FoundPx {
    FoundPx {
        number: byte(word, 0),
        place: byte(word, 32),
        content: match byte(word, 8) {
            1 => Some(Content::Coded),
            2 => Some(Content::Fill),
            3 => Some(Content::Second),
            4 => Some(Content::DelayZeros),
            _ => None,
        },
        before: byte(word, 24),
        frame: byte(word, 16),
        bit: (word >> 40) as u32,
    }
}

/// Finds whose coded bit stands in a cell of PX1 (channel 3) or PX2 (channel 4) of the L1 frame that a state comes before. In MP5 and MP6 it
/// knows no channel.
pub fn find_px(state: State, channel: u8, pair: usize, row: usize, column: usize) -> FoundPx {
    let State {
        mode,
        half,
        age,
        reserved,
    } = state;
    // SAFETY: only numbers cross.
    found_px(unsafe { raw::layer1_find_px(mode, half, age, reserved, channel, pair, row, column) })
}

/// Finds the same in any mode. In MP5 and MP6 PX2 has the coded bits of P1' of the L1 frame three earlier, or the delay's zeros.
pub fn find_px_in(state: State, channel: u8, pair: usize, row: usize, column: usize) -> FoundPx {
    let State {
        mode,
        half,
        age,
        reserved,
    } = state;
    // SAFETY: only numbers cross.
    found_px(unsafe {
        raw::layer1_find_px_in(mode, half, age, reserved, channel, pair, row, column)
    })
}

/// A position word of a locator.
fn located(word: u64) -> Located {
    let position = Position {
        block: byte(word, 8),
        row: byte(word, 16),
        partition: byte(word, 24),
        column: byte(word, 40),
    };
    Located {
        number: byte(word, 0),
        place: byte(word, 32),
        position,
        row: 32 * u16::from(position.block) + u16::from(position.row),
        column: 36 * u16::from(position.partition) + u16::from(position.column),
    }
}

/// Tells into which cell of PM a coded bit of P1 (channel 1) or PIDS (channel 2) goes, of a transfer frame of an L1 frame, in the modes without
/// P2.
pub fn locate(channel: u8, frame: usize, bit: usize) -> Located {
    // SAFETY: only numbers cross.
    located(unsafe { raw::layer1_locate(channel, frame, bit) })
}

/// Tells the same in any mode, in MP5 and MP6 of P1's frames 0 to 7 and of P2 (channel 5) too.
pub fn locate_in(mode: u8, channel: u8, frame: usize, bit: usize) -> Located {
    // SAFETY: only numbers cross.
    located(unsafe { raw::layer1_locate_in(mode, channel, frame, bit) })
}

/// A cell word of a locator.
fn located_px(word: u64) -> LocatedPx {
    LocatedPx {
        number: byte(word, 0),
        place: byte(word, 32),
        later: byte(word, 24),
        pair: byte(word, 8),
        row: byte(word, 16),
        column: (word >> 40) as u32,
    }
}

/// Tells into which cell of PX1 (channel 3) or PX2 (channel 4) a coded bit of P3 or P4 goes, of a transfer frame of the L1 frame that a state
/// comes before. In MP5 and MP6 it knows no channel.
pub fn locate_px(state: State, channel: u8, frame: usize, bit: usize) -> LocatedPx {
    let State {
        mode,
        half,
        age,
        reserved,
    } = state;
    // SAFETY: only numbers cross.
    located_px(unsafe { raw::layer1_locate_px(mode, half, age, reserved, channel, frame, bit) })
}

/// Tells the same in any mode, of P3 in MP5 and of P1' (channel 6) in MP5 and MP6 too.
pub fn locate_px_in(state: State, channel: u8, frame: usize, bit: usize) -> LocatedPx {
    let State {
        mode,
        half,
        age,
        reserved,
    } = state;
    // SAFETY: only numbers cross.
    located_px(unsafe { raw::layer1_locate_px_in(mode, half, age, reserved, channel, frame, bit) })
}

/// A working by its word and its numbers.
fn worked(word: u64, numbers: [u64; 25]) -> Result<Working, Answer> {
    if byte(word, 0) != 0 {
        return Err(answer(word));
    }
    Ok(Working {
        bit: numbers[0],
        generator: numbers[1],
        bits: std::array::from_fn(|d| numbers[2 + d]),
        scrambling: std::array::from_fn(|d| numbers[9 + d]),
        sum: numbers[16],
        coded: numbers[17],
        step: numbers[18],
        k: numbers[19],
        position: std::array::from_fn(|n| numbers[20 + n]),
        cell: numbers[24],
    })
}

/// The working of a coded bit of P1 (channel 1), PIDS (2), P3 (3) or P4 (4), of a transfer frame of the L1 frame that a state comes before, from
/// all transfer frames of the channel in that L1 frame; none for P3 or P4 means zeros. In MP5 and MP6 it knows no channel.
///
/// # Errors
///
/// Number and place of the table of causes.
pub fn working(
    state: State,
    channel: u8,
    frames: &[u8],
    frame: usize,
    bit: usize,
) -> Result<Working, Answer> {
    let mut numbers = [0; 25];
    // SAFETY: as in `start`.
    let word = unsafe {
        raw::layer1_working(
            state.mode,
            state.half,
            state.age,
            state.reserved,
            channel,
            frames.as_ptr(),
            frames.len(),
            frame,
            bit,
            numbers.as_mut_ptr(),
            numbers.len(),
        )
    };
    worked(word, numbers)
}

/// The same in every mode: in MP5 and MP6 of P1 (channel 1), PIDS (2), P3 (3), P2 (5) or P1' (6). P1' is lent the P1 frames of that L1 frame, and is
/// sent three L1 frames later.
///
/// # Errors
///
/// Number and place of the table of causes.
pub fn working_in(
    state: State,
    channel: u8,
    frames: &[u8],
    frame: usize,
    bit: usize,
) -> Result<Working, Answer> {
    let mut numbers = [0; 25];
    // SAFETY: as in `start`.
    let word = unsafe {
        raw::layer1_working_in(
            state.mode,
            state.half,
            state.age,
            state.reserved,
            channel,
            frames.as_ptr(),
            frames.len(),
            frame,
            bit,
            numbers.as_mut_ptr(),
            numbers.len(),
        )
    };
    worked(word, numbers)
}

/// Looks up the mode, the block count and the reserved number of one control block.
pub fn lookup(block: &[u8]) -> LookedUp {
    // SAFETY: the pointer and the length are those of a slice.
    let word = unsafe { raw::layer1_lookup(block.as_ptr(), block.len()) };
    LookedUp {
        number: byte(word, 0),
        place: (word >> 32) as u32,
        mode: byte(word, 8),
        count: byte(word, 16),
        reserved: byte(word, 24),
    }
}

/// Looks up the mode and the reserved number of the sixteen control blocks of an L1 frame. A block that `lookup` refuses is refused under 4,
/// and one that does not fit block 0's mode and number and its own position under 13.
pub fn lookup_frame(control: &[u8]) -> LookedUpFrame {
    // SAFETY: the pointer and the length are those of a slice.
    let word = unsafe { raw::layer1_lookup_frame(control.as_ptr(), control.len()) };
    LookedUpFrame {
        number: byte(word, 0),
        place: (word >> 32) as u32,
        mode: byte(word, 8),
        reserved: byte(word, 24),
    }
}

/// Leaves the PIDS frame that is nearest to its 200 cells in the buffer, among those of the first `budget` register starts.
pub fn nearest(cells: &[u8], frame: &mut [u8], budget: usize) -> Nearest {
    // SAFETY: as in `start`.
    let word = unsafe {
        raw::layer1_nearest(
            cells.as_ptr(),
            cells.len(),
            frame.as_mut_ptr(),
            frame.len(),
            budget,
        )
    };
    Nearest {
        number: byte(word, 0),
        place: (word >> 32) as u32,
        distance: byte(word, 8),
        margin: byte(word, 16),
    }
}

/// Document 02, S-11: leaves the PIDS frame that fits its 200 cells in the buffer, a byte each, 0, 1, or anything else where a cell could not be
/// read. Where none fits (14) or more than one does (15), the buffer is left alone.
pub fn restore(cells: &[u8], frame: &mut [u8]) -> Answer {
    // SAFETY: as in `start`.
    answer(unsafe {
        raw::layer1_restore(cells.as_ptr(), cells.len(), frame.as_mut_ptr(), frame.len())
    })
}

/// Document 02, S-13: judges a dump.
pub fn judge(dump: &[u8]) -> Verdict {
    // SAFETY: the pointer and the length are those of one slice, which is read.
    let word = unsafe { raw::layer1_judge(dump.as_ptr(), dump.len()) };
    Verdict {
        number: byte(word, 0),
        place: (word >> 32) as u32,
        frame: (word >> 16) as u16,
    }
}

/// Fills the output vector of a symbol: the real and the imaginary parts.
pub fn fill_vector(
    mode: u8,
    symbol: usize,
    scales: Scales,
    lent: L1Frame,
    re: &mut [f32],
    im: &mut [f32],
) -> Answer {
    // SAFETY: each pointer and length are those of one slice, and those written overlap no other.
    answer(unsafe {
        raw::layer1_fill_vector(
            mode,
            symbol,
            scales.lower,
            scales.upper,
            lent.pm.as_ptr(),
            lent.pm.len(),
            lent.px1.as_ptr(),
            lent.px1.len(),
            lent.px2.as_ptr(),
            lent.px2.len(),
            lent.control.as_ptr(),
            lent.control.len(),
            re.as_mut_ptr(),
            re.len(),
            im.as_mut_ptr(),
            im.len(),
        )
    })
}

/// The part of a matrix that a row word tells.
fn part(word: u64, matrix: &[u8]) -> &[u8] {
    let start = (word & 0xffff_ffff) as usize;
    &matrix[start..start + (word >> 32) as usize]
}

/// A row of PM, or an empty part.
pub fn pm_row(row: usize, pm: &[u8]) -> &[u8] {
    // SAFETY: the pointer and the length are those of a slice.
    part(
        unsafe { raw::layer1_pm_row(row, pm.as_ptr(), pm.len()) },
        pm,
    )
}

/// A row of PX1 (channel 3) or PX2 (channel 4) of MP11, or an empty part.
pub fn px_row<'a>(channel: u8, row: usize, px1: &'a [u8], px2: &'a [u8]) -> &'a [u8] {
    // SAFETY: each pointer and length are those of one slice; nothing is written.
    let word = unsafe {
        raw::layer1_px_row(
            channel,
            row,
            px1.as_ptr(),
            px1.len(),
            px2.as_ptr(),
            px2.len(),
        )
    };
    part(word, if channel == 4 { px2 } else { px1 })
}
