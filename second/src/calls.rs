//! The calls that the papers describe, one on a line, with what comes of each: for a test of a library that has
//! them. A line has four parts with `:` between: the call's name and its numbers; its buffers; the numbers that it
//! returns; the buffers as it leaves them, `=` for one that is left as it was. A buffer is hexadecimal, `.` if it is
//! empty, `*LENGTH` if it has the bytes of `pattern`, and `+LENGTH` stands for that many zeros at its end.

use std::io::{self, Write};

use crate::cells::{self, Channel};
use crate::commands::{self, Stop};
use crate::control;
use crate::draw::Draw;
use crate::dumps;
use crate::interleaving::{pm_position, PxRow, PM_COLUMNS};
use crate::locating;
use crate::modes::{Mode, Without, MODES};
use crate::nearest;
use crate::packing::flip;
use crate::places;
use crate::restoring::{self, Code};
use crate::run::{self, Answer, Reading, Refusal, Sending, Side, State};
use crate::sets::{drawn_set, Blocks};
use crate::six;
use crate::vector::{self, Mapping, POINTS};

/// No section: what stands in a buffer before a call that is to write it.
fn pattern(length: usize) -> Vec<u8> {
    (0..length).map(|n| (n * 37 + 11) as u8).collect()
}

/// No section: a buffer as a word.
fn word(buffer: &[u8]) -> String {
    if buffer.is_empty() {
        return ".".to_string();
    }
    if buffer == pattern(buffer.len()) {
        return format!("*{}", buffer.len());
    }
    let zeros = buffer.iter().rev().take_while(|&&byte| byte == 0).count();
    let text = buffer.len() - if zeros < 64 { 0 } else { zeros };
    let mut word: String = buffer[..text]
        .iter()
        .map(|byte| format!("{byte:02x}"))
        .collect();
    if text < buffer.len() {
        word += &format!("+{zeros}");
    }
    word
}

/// No section: numbers, or other words, with a blank before each.
fn words<T: ToString>(items: impl IntoIterator<Item = T>) -> String {
    items
        .into_iter()
        .map(|item| format!(" {}", item.to_string()))
        .collect()
}

/// No section: the line of a call.
fn line<B: AsRef<[u8]>>(
    output: &mut impl Write,
    name: &str,
    numbers: &[usize],
    before: &[B],
    returned: &[usize],
    after: &[B],
) -> io::Result<()> {
    let left =
        before
            .iter()
            .zip(after)
            .map(|(before, after)| match before.as_ref() == after.as_ref() {
                true => "=".to_string(),
                false => word(after.as_ref()),
            });
    writeln!(
        output,
        "{name}{} :{} :{} :{}",
        words(numbers),
        words(before.iter().map(|buffer| word(buffer.as_ref()))),
        words(returned),
        words(left)
    )
}

/// The buffers of a sending or a reading, in the order of their places.
type Buffers = [Vec<u8>; 12];

/// The places of PM and of the memory for P3.
const PM: usize = 5;
const MEMORY: usize = 9;

/// No section: the numbers of a state.
fn state_numbers(state: State) -> [usize; 4] {
    [state.mode, state.half, state.age, state.reserved].map(|number| number as usize)
}

/// No section: the numbers of an answer.
fn answered(answer: &Answer) -> Vec<usize> {
    [
        &[answer.number as usize, answer.place],
        &state_numbers(answer.state)[..],
    ]
    .concat()
}

/// Documents 01 and 02, operations: a sending of these buffers, as a line.
fn send(
    output: &mut impl Write,
    state: State,
    reserved: u64,
    buffers: &mut Buffers,
) -> io::Result<State> {
    let before = buffers.clone();
    let [p1, pids, p2, p3, p4, pm, px1, px2, control, memory_p3, memory_p4, delay] = buffers;
    let mut lent = Sending {
        p1,
        pids,
        p2,
        p3,
        p4,
        pm,
        px1,
        px2,
        control,
        memory_p3,
        memory_p4,
        delay,
    };
    let answer = run::send(state, reserved, &mut lent);
    let numbers = [&state_numbers(state)[..], &[reserved as usize]].concat();
    line(
        output,
        "send",
        &numbers,
        &before,
        &answered(&answer),
        buffers,
    )?;
    Ok(answer.state)
}

/// Documents 01 and 02, operations: a reading of these buffers, as a line.
fn read(output: &mut impl Write, state: State, buffers: &mut Buffers) -> io::Result<State> {
    let before = buffers.clone();
    let [p1, pids, p2, p3, p4, pm, px1, px2, control, memory_p3, memory_p4, delay] = buffers;
    let mut lent = Reading {
        p1,
        pids,
        p2,
        p3,
        p4,
        pm,
        px1,
        px2,
        control,
        memory_p3,
        memory_p4,
        delay,
    };
    let answer = run::read(state, &mut lent);
    let returned = [&answered(&answer)[..], &[answer.reserved as usize]].concat();
    line(
        output,
        "read",
        &state_numbers(state),
        &before,
        &returned,
        buffers,
    )?;
    Ok(answer.state)
}

/// Documents 01 and 02, operations: a start with these memories, as a line.
fn start(
    output: &mut impl Write,
    side: Side,
    mode: u64,
    memories: &mut [Vec<u8>],
) -> io::Result<State> {
    let before = memories.to_vec();
    let [memory3, memory4, delay] = memories else {
        unreachable!("three memories")
    };
    let answer = run::start(side, mode, [memory3, memory4, delay]);
    let name = match side {
        Side::Sender => "start_sender",
        Side::Reader => "start_reader",
    };
    line(
        output,
        name,
        &[mode as usize],
        &before,
        &answered(&answer),
        memories,
    )?;
    Ok(answer.state)
}

/// Documents 01 and 02: buffers of the lengths that a side has, with the pattern in each.
fn patterned(side: Side, mode: &Mode) -> Buffers {
    let lengths = side.lengths(mode);
    std::array::from_fn(|place| pattern(lengths[place]))
}

/// Documents 01 and 02, refusals 1 to 3 and 9: starts, sendings and readings with each buffer empty, one byte short
/// and one too long, and with other modes, states and numbers.
fn refused_calls(output: &mut impl Write, mode: &Mode) -> io::Result<()> {
    let fresh = State {
        mode: mode.number,
        half: 0,
        age: 0,
        reserved: 0,
    };
    for side in [Side::Sender, Side::Reader] {
        let whole = patterned(side, mode);
        let call = |output: &mut _, state, reserved, buffers: &Buffers| match side {
            Side::Sender => send(output, state, reserved, &mut buffers.clone()),
            Side::Reader => read(output, state, &mut buffers.clone()),
        };
        for place in 0..whole.len() {
            let length = whole[place].len();
            for other in [0, length.saturating_sub(1), length + 1] {
                let mut lent = whole.clone();
                lent[place] = pattern(other);
                if other != length {
                    call(&mut *output, fresh, 7, &lent)?;
                }
                if place >= MEMORY {
                    start(output, side, mode.number, &mut lent[MEMORY..])?;
                }
            }
        }
        let mut none: Buffers = Default::default();
        call(&mut *output, fresh, 0, &none)?;
        start(output, side, mode.number, &mut none[MEMORY..])?;
        call(&mut *output, fresh, 8, &whole)?;
        call(&mut *output, State { half: 1, ..fresh }, 0, &whole)?;
        call(&mut *output, State { age: 4, ..fresh }, 0, &none)?;
        call(&mut *output, State { mode: 4, ..fresh }, 0, &whole)?;
        call(
            &mut *output,
            State {
                reserved: 8,
                ..fresh
            },
            9,
            &whole,
        )?;
        start(output, side, 12, &mut none[MEMORY..])?;
    }
    Ok(())
}

/// The L1 frames of a run: every valid state is met.
const COUNT: usize = 5;

/// Documents 01 and 02: a run of a sender, and one of a reader, with damaged L1 frames between.
fn runs(output: &mut impl Write, draw: &mut Draw, mode: &Mode) -> io::Result<()> {
    let (mut sender, mut reader) = (patterned(Side::Sender, mode), patterned(Side::Reader, mode));
    let mut sending = start(output, Side::Sender, mode.number, &mut sender[MEMORY..])?;
    let mut reading = start(output, Side::Reader, mode.number, &mut reader[MEMORY..])?;
    for t in 0..COUNT {
        let whole = patterned(Side::Sender, mode);
        sender[..MEMORY].clone_from_slice(&whole[..MEMORY]);
        for (place, frames) in sender[..PM].iter_mut().enumerate() {
            let nothing = place >= 3 && draw.below(3) == 0;
            *frames = draw.bytes(if nothing { 0 } else { frames.len() });
        }
        sending = send(output, sending, draw.below(8), &mut sender)?;
        let empty = patterned(Side::Reader, mode);
        reader[..PM].clone_from_slice(&empty[..PM]);
        reader[PM..MEMORY].clone_from_slice(&sender[PM..MEMORY]);
        if t == 1 || t == 3 {
            for place in (PM..MEMORY).filter(|&place| !sender[place].is_empty()) {
                let mut damaged = reader.clone();
                let bits = 8 * damaged[place].len() as u64;
                flip(&mut damaged[place], draw.below(bits) as usize);
                read(output, reading, &mut damaged)?;
            }
        }
        reading = read(output, reading, &mut reader)?;
    }
    Ok(())
}

/// Documents 01 and 02, lent lengths: of every mode's buffers, and past the last; a mode that is not covered has those
/// of MP3.
fn lengths(output: &mut impl Write) -> io::Result<()> {
    let mp3 = Mode::of_number(3).expect("a covered mode");
    for number in (0..=12).chain([255]) {
        let mode = Mode::of_number(number).unwrap_or(mp3);
        for (name, side) in [
            ("sender_length", Side::Sender),
            ("reader_length", Side::Reader),
        ] {
            let lengths = side.lengths(mode);
            for place in (0..14).chain([usize::MAX]) {
                let length = lengths.get(place).copied().unwrap_or(0);
                line::<&[u8]>(output, name, &[number as usize, place], &[], &[length], &[])?;
            }
        }
    }
    Ok(())
}

/// Document 01, cell finder, and document 02, S-3: drawn cells of PM, the corners, and some out of range.
fn cells_of_pm(output: &mut impl Write, draw: &mut Draw) -> io::Result<()> {
    let mut cells: Vec<(usize, usize)> = (0..2_000)
        .map(|_| (draw.below(514) as usize, draw.below(722) as usize))
        .collect();
    let border = [0, 511, 512, 719, 720, 1 << 32, usize::MAX];
    cells.extend(
        border
            .iter()
            .flat_map(|&row| border.map(|column| (row, column))),
    );
    for (row, column) in cells {
        let found = cells::find(row, column);
        let channel = match found.channel {
            None => 0,
            Some(Channel::P1) => 1,
            Some(Channel::Pids) => 2,
        };
        let number = found.number as usize;
        let returned = [number, channel, found.frame, found.place, found.bit];
        line::<&[u8]>(output, "find", &[row, column], &[], &returned, &[])?;
        let at = cells::place_of(row, column);
        let returned = [number, at.block, at.row, at.partition, at.place, at.column];
        line::<&[u8]>(output, "place_of", &[row, column], &[], &returned, &[])?;
    }
    Ok(())
}

/// Section 10.4.2: what a cell of the eight matrices shows in the L1 frame of this half and age: how many L1 frames
/// earlier its bit was coded, and its number there; none for the zero fill.
fn shown(row: &PxRow, half: u64, age: u64, cell: usize) -> Option<(usize, usize)> {
    let now = (if age == 2 { 2 + half } else { age }) as usize;
    let mut memory = vec![None; row.bits];
    let mut cells = Vec::new();
    for sent in 0..=now {
        let names: Vec<_> = (0..row.half_bits()).map(|bit| Some((sent, bit))).collect();
        cells = row.process(sent % 2, &names, &mut memory);
    }
    cells[cell].map(|(sent, bit)| (now - sent, bit))
}

/// House matter: the finder's answer for a cell of PX1 or PX2: content, frame, L1 frames before and bit, or a refusal.
fn find_px(
    state: State,
    channel: usize,
    [pair, y, column]: [usize; 3],
) -> Result<[usize; 4], Refusal> {
    let refused = |place| Err(Refusal { number: 3, place });
    let mode = state.valid_mode()?;
    let extended = match channel {
        3 => mode.p3,
        4 => mode.p4,
        _ => return refused(0),
    };
    let Some(row) = extended.row.filter(|_| mode.delayed.is_none()) else {
        return refused(0);
    };
    if let Some(place) = [pair > 7, y > 63, column >= row.width()]
        .into_iter()
        .position(|out| out)
    {
        return refused(1 + place);
    }
    let cell = (64 * pair + y) * row.width() + column;
    Ok(match shown(row, state.half, state.age, cell) {
        None => [2, 0, 0, 0],
        Some((before, bit)) => [1, bit / row.frame_bits, before, bit % row.frame_bits],
    })
}

/// House matter: drawn cells of PX1 and PX2, some out of range or of a state or a channel that is not there.
fn cells_of_px(output: &mut impl Write, draw: &mut Draw) -> io::Result<()> {
    for _ in 0..600 {
        let state = State {
            mode: [2, 3, 11, 11, 5, 6, 1, 4][draw.below(8) as usize],
            half: draw.below(2),
            age: draw.below(4),
            reserved: draw.below(9),
        };
        let channel = [3, 3, 3, 4, 4, 2][draw.below(6) as usize];
        let place = [9, 66, 146].map(|limit| draw.below(limit) as usize);
        let returned = match find_px(state, channel, place) {
            Ok([content, frame, before, bit]) => [0, content, frame, before, 0, bit],
            Err(refusal) => [refusal.number as usize, 0, 0, 0, refusal.place, 0],
        };
        let numbers = [&state_numbers(state)[..], &[channel], &place].concat();
        line::<&[u8]>(output, "find_px", &numbers, &[], &returned, &[])?;
    }
    Ok(())
}

/// House matter: into which cells drawn bits of P1 and PIDS go, the last of each frame, and some out of range.
fn bits_of_pm(output: &mut impl Write, draw: &mut Draw) -> io::Result<()> {
    let borders = [0, 199, 200, 365_439, 365_440, 1 << 32, usize::MAX];
    let mut bits: Vec<[usize; 3]> = Vec::new();
    for channel in [0, 1, 2, 3, 255] {
        for frame in [0, 1, 15, 16, usize::MAX] {
            bits.extend(borders.map(|bit| [channel, frame, bit]));
        }
    }
    for _ in 0..600 {
        bits.push([1, 0, draw.index(365_440)]);
        bits.push([2, draw.index(16), draw.index(200)]);
    }
    for [channel, frame, bit] in bits {
        let returned = match locating::locate(channel as u64, frame, bit) {
            Ok(cell) => {
                let (row, column) = (cell / PM_COLUMNS, cell % PM_COLUMNS);
                let [block, line, partition, place] = pm_position(row, column);
                [0, 0, block, line, partition, place, row, column]
            }
            Err(refusal) => [refusal.number as usize, refusal.place, 0, 0, 0, 0, 0, 0],
        };
        let numbers = [channel, frame, bit];
        line::<&[u8]>(output, "locate", &numbers, &[], &returned, &[])?;
    }
    Ok(())
}

/// No section: a drawn state, seldom one that is not valid, of any covered mode or one that is not.
fn drawn_state(draw: &mut Draw) -> State {
    let mode = [2, 3, 11, 11, 5, 6, 1, 4][draw.index(8)];
    let [half, age] = [[0, 0], [1, 1], [0, 2], [1, 2], [1, 0]][draw.index(5)];
    State {
        mode,
        half,
        age,
        reserved: [0, 1, 2, 3, 4, 5, 6, 7, 7, 8][draw.index(10)],
    }
}

/// House matter: into which cells drawn bits of P3 and P4 go, some out of range or of a state or a channel that is not
/// there.
fn bits_of_px(output: &mut impl Write, draw: &mut Draw) -> io::Result<()> {
    for _ in 0..800 {
        let state = drawn_state(draw);
        let channel = [3, 3, 3, 4, 4, 2][draw.index(6)];
        let frame = [draw.index(8), draw.index(9)][draw.index(2)];
        let bit = [draw.index(4_610), draw.index(9_220), usize::MAX][draw.index(10) / 4];
        let located = state.valid_mode().and_then(|mode| {
            let half = state.half as usize;
            let (later, cell) = locating::locate_px(mode, half, channel as u64, frame, bit)?;
            let row = [mode.p3.row, mode.p4.row][channel - 3].expect("a channel of the mode");
            let (line, column) = (cell / row.width(), cell % row.width());
            Ok([0, 0, later, line / 64, line % 64, column])
        });
        let refused = |refusal: Refusal| [refusal.number as usize, refusal.place, 0, 0, 0, 0];
        let numbers = [&state_numbers(state)[..], &[channel, frame, bit]].concat();
        let returned = located.unwrap_or_else(refused);
        line::<&[u8]>(output, "locate_px", &numbers, &[], &returned, &[])?;
    }
    Ok(())
}

/// House matter: drawn cells and bits of PM in every mode, each border, and modes that are not covered.
fn pm_in_six_modes(output: &mut impl Write, draw: &mut Draw) -> io::Result<()> {
    for mode in [1, 2, 3, 5, 6, 11, 0, 4, 255] {
        for n in 0..500 {
            let [row, column] = match n {
                0..49 => [n % 7, n / 7].map(|b| [0, 511, 512, 719, 720, 1 << 32, usize::MAX][b]),
                _ => [draw.index(512), draw.index(720)],
            };
            let returned = match six::find(mode, row, column) {
                Ok((channel, frame, bit)) => [0, channel as usize, frame, 0, bit],
                Err(refusal) => [refusal.number as usize, 0, 0, refusal.place, 0],
            };
            let numbers = [mode as usize, row, column];
            line::<&[u8]>(output, "find_in", &numbers, &[], &returned, &[])?;
            let channel = [1, 2, 5, 5, 1, 0, 3, 6][draw.index(8)];
            let frame = [draw.index(9), draw.index(17), usize::MAX, 0][draw.index(4)];
            let limit = [200, 11_521, 23_041, 365_441][draw.index(4)];
            let bit = [draw.index(limit), limit - 1, usize::MAX][draw.index(9) / 4];
            let returned = match six::locate(mode, channel, frame, bit) {
                Ok(cell) => {
                    let (row, column) = (cell / PM_COLUMNS, cell % PM_COLUMNS);
                    let [block, line, partition, place] = pm_position(row, column);
                    [0, 0, block, line, partition, place, row, column]
                }
                Err(refusal) => [refusal.number as usize, refusal.place, 0, 0, 0, 0, 0, 0],
            };
            let numbers = [mode as usize, channel as usize, frame, bit];
            line::<&[u8]>(output, "locate_in", &numbers, &[], &returned, &[])?;
        }
    }
    Ok(())
}

/// House matter: drawn cells and bits of PX1 and PX2 in every mode, some out of range or of a state or a channel that is not there.
fn px_in_six_modes(output: &mut impl Write, draw: &mut Draw) -> io::Result<()> {
    for _ in 0..800 {
        let state = State {
            mode: [2, 3, 11, 5, 5, 6, 6, 1, 4][draw.index(9)],
            half: draw.below(2),
            age: draw.below(4),
            reserved: [0, 3, 7, 7, 8][draw.index(5)],
        };
        let channel = [3, 4, 4, 6, 6, 2][draw.index(6)];
        let place = [[8, 64, 144], [9, 66, 290]][draw.index(2)].map(|limit| draw.index(limit));
        let returned = match six::find_px(state, channel, place) {
            Ok(six::Content::Coded([before, frame, bit])) => [0, 1, frame, before, 0, bit],
            Ok(six::Content::Fill) => [0, 2, 0, 0, 0, 0],
            Ok(six::Content::Second([frame, bit])) => [0, 3, frame, 3, 0, bit],
            Ok(six::Content::DelayZeros) => [0, 4, 0, 0, 0, 0],
            Err(refusal) => [refusal.number as usize, 0, 0, 0, refusal.place, 0],
        };
        let numbers = [&state_numbers(state)[..], &[channel as usize], &place].concat();
        line::<&[u8]>(output, "find_px_in", &numbers, &[], &returned, &[])?;
        let frame = [draw.index(8), draw.index(9)][draw.index(2)];
        let bit = [draw.index(9_217), draw.index(18_433), usize::MAX][draw.index(10) / 4];
        let returned = match six::locate_px(state, channel, frame, bit) {
            Ok([later, pair, row, column]) => [0, 0, later, pair, row, column],
            Err(refusal) => [refusal.number as usize, refusal.place, 0, 0, 0, 0],
        };
        let numbers = [&state_numbers(state)[..], &[channel as usize, frame, bit]].concat();
        line::<&[u8]>(output, "locate_px_in", &numbers, &[], &returned, &[])?;
    }
    Ok(())
}

/// House matter: the numbers of a working, in the order of the header.
fn numbers_of(worked: &locating::Working) -> Vec<usize> {
    let bits = worked.bits.into_iter().chain(worked.scrambling);
    let written = [worked.step, worked.k].into_iter().chain(worked.position);
    [worked.number, worked.generator.into()]
        .into_iter()
        .chain(bits.map(usize::from))
        .chain([worked.sum as usize, worked.sum as usize % 2])
        .chain(written)
        .chain([worked.cell])
        .collect()
}

/// House matter: a working, of the older modes or of all six, in a buffer of so many numbers, as a line; the length is looked at last.
fn work(
    output: &mut impl Write,
    in_six: bool,
    state: State,
    frames: &[u8],
    [channel, frame, bit]: [usize; 3],
    room: usize,
) -> io::Result<()> {
    let too_long_or_short = Refusal {
        number: 3,
        place: 4,
    };
    let worked = state.valid_mode().and_then(|mode| {
        let half = state.half as usize;
        let worked = match in_six {
            true => six::working(state, channel as u64, frames, frame, bit)?,
            false => locating::working(mode, half, channel as u64, frames, frame, bit)?,
        };
        (room == 25).then_some(worked).ok_or(too_long_or_short)
    });
    let before = pattern(8 * room);
    let (returned, after): (_, Vec<u8>) = match worked {
        Ok(worked) => {
            let numbers = numbers_of(&worked);
            let bytes = numbers.iter().flat_map(|&n| (n as u64).to_le_bytes());
            ([vec![0, 0], numbers.clone()].concat(), bytes.collect())
        }
        Err(refusal) => (vec![refusal.number as usize, refusal.place], before.clone()),
    };
    let numbers = [&state_numbers(state)[..], &[channel, frame, bit]].concat();
    let (before, after) = ([frames, &before[..]], [frames, &after[..]]);
    let name = ["working", "working_in"][usize::from(in_six)];
    line(output, name, &numbers, &before, &returned, &after)
}

/// House matter: the workings of drawn bits of a mode, and other states, channels, lengths, frames and bits.
fn workings(output: &mut impl Write, draw: &mut Draw, mode: &Mode) -> io::Result<()> {
    let lengths = [18_272, 160, mode.p3.frames, mode.p4.frames];
    for n in 0..80 {
        let state = State {
            mode: mode.number,
            half: draw.below(2),
            age: mode.oldest_age(),
            reserved: drawn_state(draw).reserved,
        };
        let of = n % 4;
        let length = lengths[of];
        let lent = [length, length, length, length, length, 0, length + 1][draw.index(7)];
        let frames = draw.bytes(lent);
        let channel = [0, 4, 5, 255].get(n / 2).copied().unwrap_or(1 + of);
        let frame = [0, draw.index([1, 16, 8, 8][of]), 16][draw.index(11) / 5];
        let coded = [365_440, 200, 2 * length, 2 * length][of];
        let bit = [0, draw.index(coded.max(1)), coded][draw.index(11) / 5];
        let room = [25, 25, 25, 25, 25, 25, 24, 26, 0][draw.index(9)];
        work(output, false, state, &frames, [channel, frame, bit], room)?;
        work(output, true, state, &frames, [channel, frame, bit], room)?;
    }
    Ok(())
}

/// House matter: the workings of drawn bits of a mode's channels in all six modes, the borders of each, and other states, channels, lengths and room.
fn workings_in_six_modes(output: &mut impl Write, draw: &mut Draw, mode: &Mode) -> io::Result<()> {
    let second = mode.delayed.map_or(0, |_| mode.p1.bytes());
    let [p1, pids, p2, p3, p4] = mode.frame_lengths();
    let (p1_coded, p2_coded) = (mode.p1.coded_bits(), mode.p2.all_coded_bits());
    for (channel, length, count, coded) in [
        (1, p1, mode.p1.count, p1_coded),
        (2, pids, 16, 200),
        (3, p3, 8, 2 * p3),
        (4, p4, 8, 2 * p4),
        (5, p2, 1, p2_coded),
        (6, second, 8, 2 * mode.p1.bits),
        (7, 0, 1, 1),
    ] {
        for n in 0..24 {
            let state = match n {
                0..20 => State {
                    mode: mode.number,
                    half: draw.below(2),
                    age: mode.oldest_age(),
                    reserved: draw.below(8),
                },
                _ => drawn_state(draw),
            };
            let lent = [0, length + 1].get(n).copied().unwrap_or(length);
            let frames = draw.bytes(lent);
            let (frame, bit) = match n {
                2 => (count, 0),
                3 => (0, coded),
                4 => (count - 1, coded.saturating_sub(1)),
                5 => (usize::MAX, usize::MAX),
                _ => (draw.index(count), draw.index(coded.max(1))),
            };
            let room = if n == 6 { 26 } else { 25 };
            work(output, true, state, &frames, [channel, frame, bit], room)?;
        }
    }
    Ok(())
}

/// Documents 01 and 02: lookups of control blocks and of an L1 frame's sixteen, drawn, damaged and of other lengths.
fn lookups(output: &mut impl Write, draw: &mut Draw) -> io::Result<()> {
    let blocks = Blocks::all();
    for n in 0..100 {
        let mut set = drawn_set(draw);
        let at = draw.below(16) as usize * 256;
        let mut block = set[at..at + 256].to_vec();
        match n {
            0 => (set, block) = (Vec::new(), Vec::new()),
            1 => (set, block) = (pattern(4_095), pattern(255)),
            2 => (set, block) = (pattern(4_097), pattern(257)),
            3 => (set, block) = (pattern(4_096), pattern(256)),
            _ => (),
        }
        let said = control::lookup(&block);
        let [mode, count, reserved] = [said.mode, said.count, said.reserved].map(|n| n as usize);
        let returned = [said.number as usize, mode, count, reserved, 0];
        line(output, "lookup", &[], &[&block], &returned, &[&block])?;
        let said = blocks.look_up(&set);
        let [mode, reserved] = [said.mode, said.reserved].map(|n| n as usize);
        let returned = [said.number as usize, mode, 0, reserved, said.place];
        line(output, "lookup_frame", &[], &[&set], &returned, &[&set])?;
    }
    Ok(())
}

/// Document 01: rows of PM, and of PX1 and PX2 of MP11: where each starts and how many bytes it has.
fn rows(output: &mut impl Write) -> io::Result<()> {
    let row_of = |fits: bool, row: usize, bytes: usize| match fits && row < 512 {
        true => [row * bytes, bytes],
        false => [0, 0],
    };
    for row in [0, 1, 255, 511, 512, 1 << 32, usize::MAX] {
        for length in [0, 46_079, 46_080, 46_081] {
            let pm = pattern(length);
            let returned = row_of(length == 46_080, row, 90);
            line(output, "pm_row", &[row], &[&pm], &returned, &[&pm])?;
        }
        for channel in [0, 3, 4, 5, 255] {
            for lengths in [
                [9_216, 9_216],
                [0, 9_216],
                [9_216, 0],
                [0, 0],
                [9_215, 9_217],
            ] {
                let px = lengths.map(pattern);
                let fits = lengths == [9_216, 9_216] && (channel == 3 || channel == 4);
                let returned = row_of(fits, row, 18);
                line(output, "px_row", &[channel, row], &px, &returned, &px)?;
            }
        }
    }
    Ok(())
}

/// No section: the number and the place that a call with no state returns.
fn number_and_place(result: Result<(), Refusal>) -> [usize; 2] {
    match result {
        Ok(()) => [0, 0],
        Err(refusal) => [refusal.number as usize, refusal.place],
    }
}

/// Document 02, S-4: drawn shares and counts, and lists of other lengths.
fn shares(output: &mut impl Write, draw: &mut Draw) -> io::Result<()> {
    for n in 0..200 {
        let (shares, waiting) = places::drawn(draw);
        let before = pattern([0, 15, 17].get(n).copied().unwrap_or(16));
        let mut list = before.clone();
        let returned = number_and_place(places::share_places(shares, waiting, &mut list));
        let numbers: Vec<usize> = shares.into_iter().chain(waiting).map(usize::from).collect();
        line(
            output,
            "share_places",
            &numbers,
            &[&before],
            &returned,
            &[&list],
        )?;
    }
    Ok(())
}

/// Document 02, S-11 and S-12: frames that fit and nearest frames of drawn cells, and other lengths and budgets.
fn frames_of_cells(output: &mut impl Write, draw: &mut Draw) -> io::Result<()> {
    let code = Code::of_pids();
    let other = [
        (0, 10),
        (200, 0),
        (199, 10),
        (201, 10),
        (200, 9),
        (200, 11),
        (0, 0),
    ];
    for n in 0..60 {
        let (mut cells, mut length) = (nearest::drawn_cells(draw), 10);
        if let Some(&(of_cells, of_frame)) = other.get(n) {
            cells = pattern(of_cells);
            length = of_frame;
        }
        let budget = [0, 1, 2, 63, 64, 65, 1 << 32, usize::MAX][draw.below(8) as usize];
        let before = pattern(length);
        let mut frame = before.clone();
        let said = nearest::nearest(&cells, &mut frame, budget);
        let [number, distance, margin] =
            [said.number, said.distance, said.margin].map(|n| n as usize);
        let returned = [number, distance, margin, said.place];
        line(
            output,
            "nearest",
            &[budget],
            &[&cells, &before],
            &returned,
            &[&cells, &frame],
        )?;
        if n >= other.len() {
            let whole = restoring::drawn_frame(draw);
            let count = draw.below(140) as usize;
            cells = restoring::unread(draw, &whole, count);
            if draw.below(4) == 0 {
                cells = restoring::one_wrong(draw, &cells);
            }
        }
        let mut frame = before.clone();
        let returned = number_and_place(restoring::restore(&code, &cells, &mut frame));
        line(
            output,
            "restore",
            &[],
            &[&cells, &before],
            &returned,
            &[&cells, &frame],
        )?;
    }
    Ok(())
}

/// Document 02, S-13: a few of the drawn dumps of a mode, and one of no bytes.
fn dumps_judged(
    output: &mut impl Write,
    draw: &mut Draw,
    seed: u64,
    mode: &Mode,
) -> Result<(), Stop> {
    let dumps = dumps::drawn(seed, mode)?;
    let chosen = (0..4).map(|_| dumps[draw.below(dumps.len() as u64) as usize].clone());
    for dump in chosen.chain([Vec::new()]) {
        let said = dumps::judge(&dump);
        let returned = [said.number as usize, said.frame, said.place];
        line(output, "judge", &[], &[&dump], &returned, &[&dump])?;
    }
    Ok(())
}

/// No section: the bytes of numbers in single precision, the lowest first.
fn bytes_of(numbers: &[f32]) -> Vec<u8> {
    numbers
        .iter()
        .flat_map(|number| number.to_le_bytes())
        .collect()
}

/// Document 02, S-7: the vectors of drawn symbols of drawn matrices, and other lengths, symbols and scales.
fn vectors(output: &mut impl Write, draw: &mut Draw, mode: &Mode) -> io::Result<()> {
    for n in 0..16 {
        let mut matrices = mode.matrix_lengths().map(|length| draw.bytes(length));
        let mut parts = [POINTS; 2];
        match n {
            0..=3 => matrices[n].clear(),
            4..=5 => parts[n - 4] = 0,
            6 => parts = [POINTS + 1, POINTS],
            _ => (),
        }
        let mut scales = [1 + draw.below(9), 1 + draw.below(9)].map(|scale| scale as f32 / 8.0);
        let symbol = if n == 7 { 512 } else { draw.below(512) };
        match n {
            8 => scales[0] = f32::INFINITY,
            9 => scales[1] = 0.0,
            10 => scales[1] = f32::NAN,
            11 => scales[0] = -1.0,
            _ => (),
        }
        let lent = Mapping {
            mode: mode.number,
            symbol,
            matrices: matrices.each_ref().map(Vec::as_slice),
            scales,
        };
        let [mut re, mut im] = parts.map(|length| vec![0.375_f32; length]);
        let before: Vec<Vec<u8>> = [&matrices[..], &[bytes_of(&re), bytes_of(&im)]].concat();
        let returned = number_and_place(vector::fill(&lent, &mut re, &mut im));
        let after: Vec<Vec<u8>> = [&matrices[..], &[bytes_of(&re), bytes_of(&im)]].concat();
        let [lower, upper] = scales.map(|scale| scale.to_bits() as usize);
        let numbers = [mode.number as usize, symbol as usize, lower, upper];
        line(output, "fill_vector", &numbers, &before, &returned, &after)?;
    }
    Ok(())
}

/// The house's answer sheets: whole ones, with workings and without, inputs of which there is none, and room that is too little.
fn sheets(output: &mut impl Write, seed: u64) -> Result<(), Stop> {
    let room = 1_200_000;
    let none = Without::default();
    for (mode, count, of_mode, of_count, work, room) in [
        (1, 2, 1, 2, false, room),
        (11, 3, 11, 3, true, room + 1),
        (2, 0, 2, 0, true, room),
        (5, 1, 11, 1, true, room),
        (3, 65, 3, 1, false, room),
        (3, 2, 3, 1, false, room),
        (3, 1, 3, 1, true, room - 1),
        (3, 1, 3, 1, false, 0),
    ] {
        let mut input = Vec::new();
        commands::draw_cells(seed, of_mode, of_count, &mut input)?;
        commands::draw(seed, of_mode, of_count, none, &mut input)?;
        let before = pattern(room);
        let mut after = before.clone();
        let mut returned = [3, 1];
        if room >= 1_200_000 {
            after.clear();
            // A text that says why there is no sheet is a text too.
            let _ = if work {
                commands::worked_sheet(mode, count, none, &mut &input[..], &mut after)
            } else {
                commands::sheet(mode, count, none, &mut &input[..], &mut after)
            };
            after.resize(room, 0);
            returned = [0, 0];
        }
        let numbers = [mode as usize, count as usize, 0, 0, work as usize];
        line(
            output,
            "sheet",
            &numbers,
            &[&input, &before],
            &returned,
            &[&input, &after],
        )?;
    }
    Ok(())
}

/// The house's answer sheets: an input of no bytes has no list.
fn sheet_of_nothing(output: &mut impl Write) -> io::Result<()> {
    let input = Vec::new();
    let before = pattern(1_200_000);
    let mut after = Vec::new();
    // A text that says why there is no sheet is a text too.
    let _ = commands::sheet(1, 1, Without::default(), &mut &input[..], &mut after);
    after.resize(before.len(), 0);
    let (before, after) = ([&input, &before], [&input, &after]);
    line(output, "sheet", &[1, 1, 0, 0, 0], &before, &[0, 0], &after)
}

/// No section: the lines of every call, drawn from a seed.
pub fn lines(seed: u64, output: &mut impl Write) -> Result<(), Stop> {
    let mut draw = Draw::new(seed);
    lengths(output)?;
    cells_of_pm(output, &mut draw)?;
    cells_of_px(output, &mut draw)?;
    bits_of_pm(output, &mut draw)?;
    bits_of_px(output, &mut draw)?;
    pm_in_six_modes(output, &mut draw)?;
    px_in_six_modes(output, &mut draw)?;
    lookups(output, &mut draw)?;
    rows(output)?;
    shares(output, &mut draw)?;
    frames_of_cells(output, &mut draw)?;
    sheets(output, seed)?;
    sheet_of_nothing(output)?;
    for mode in &MODES {
        vectors(output, &mut draw, mode)?;
        workings(output, &mut draw, mode)?;
        workings_in_six_modes(output, &mut draw, mode)?;
        dumps_judged(output, &mut draw, seed, mode)?;
        refused_calls(output, mode)?;
        runs(output, &mut draw, mode)?;
    }
    Ok(())
}
