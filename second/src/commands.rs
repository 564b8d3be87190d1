//! The commands of the program, over any input and output.

use std::io::{self, BufRead, Read, Write};
use std::path::Path;

use crate::coding::Rate;
use crate::control::{control, NUMBERS};
use crate::draw::{cell_list, Damage, Draw};
use crate::dumps;
use crate::locating;
use crate::modes::{Mode, Without, EXTENDED_WAIT, P1_BITS, PIDS_BITS};
use crate::nearest;
use crate::packing::{pack, unpack};
use crate::places::{self, INPUT_BYTES};
use crate::reading::decode_frames;
use crate::run::{
    self, check_lengths, code_frames, Answer, Reading, Refusal, Sending, Side, State,
};
use crate::scrambling::scramble;
use crate::sheet::{self, take_list, Handed, NoSheet, Sheet, GREATEST_COUNT};
use crate::vector::{self, Mapping};
use crate::words;

/// Why a command ends before its work is done.
#[derive(Debug)]
pub enum Stop {
    Refused {
        refusal: Refusal,
        frame: u64,
    },
    /// House matter: the line that is printed in the place of a sheet.
    NoSheet(NoSheet),
    /// Document 02, S-9: the finder keeps to the older modes.
    NotFound,
    TooLong,
    /// House matter: the input goes on where this L1 frame would stand, behind the last.
    GoesOn(u64),
    Usage,
    Different(String),
    Trouble(io::Error),
}

impl From<io::Error> for Stop {
    /// No section: trouble with input or output.
    fn from(error: io::Error) -> Stop {
        Stop::Trouble(error)
    }
}

/// Document 01, refusals: stops a command at an L1 frame.
fn refused(number: u32, place: usize, frame: u64) -> Stop {
    let refusal = Refusal { number, place };
    Stop::Refused { refusal, frame }
}

/// Document 01, refusals: what is said of a refused L1 frame.
pub fn refusal_line(number: u32, place: usize, frame: u64) -> String {
    format!("refused: number {number} place {place} frame {frame}")
}

/// House matter: what is said of an input that goes on behind its last L1 frame.
pub fn goes_on_line(frame: u64) -> String {
    format!("refused: input goes on at frame {frame}")
}

/// House matter: what is said of an input that is longer than the program takes.
pub fn too_long_line() -> String {
    format!("refused: the input has more than {INPUT_BYTES} bytes")
}

/// Document 02, S-4: the lines of shares and counts, and their places.
pub fn allocate(input: &mut impl Read, output: &mut impl Write) -> Result<(), Stop> {
    let text = take(input, INPUT_BYTES + 1)?;
    if text.len() > INPUT_BYTES {
        return Err(Stop::TooLong);
    }
    Ok(places::list(&text, output)?)
}

/// Document 01, refusal 1: the covered mode of a number.
fn covered(mode: u64) -> Result<&'static Mode, Stop> {
    Mode::of_number(mode).ok_or(refused(1, 0, 0))
}

/// Document 02, S-9: the covered mode of a number, if the cell finder knows it: one without P1'.
fn in_finder(mode: u64) -> Result<&'static Mode, Stop> {
    let mode = covered(mode)?;
    match mode.delayed {
        None => Ok(mode),
        Some(_) => Err(Stop::NotFound),
    }
}

/// House matter: lines that ask for a cell's bit or a bit's cell, and their answers.
pub fn owners(mode: u64, input: &mut impl BufRead, output: &mut impl Write) -> Result<(), Stop> {
    Ok(locating::owners(in_finder(mode)?, input, output)?)
}

/// House matter: a line for each coded bit of an L1 frame.
pub fn all_bits(mode: u64, frame: u64, output: &mut impl Write) -> Result<(), Stop> {
    Ok(locating::all_bits(in_finder(mode)?, frame, output)?)
}

/// House matter: the working of a coded bit, from the channel's transfer frames of the L1 frame.
pub fn working(
    mode: u64,
    frame: u64,
    channel: u64,
    [tframe, bit]: [u64; 2],
    input: &mut impl Read,
    output: &mut impl Write,
) -> Result<(), Stop> {
    let mode = in_finder(mode)?;
    let frames = take(input, P1_BITS)?;
    let half = (frame % 2) as usize;
    let worked = locating::working(mode, half, channel, &frames, tframe as usize, bit as usize)
        .map_err(|refusal| Stop::Refused { refusal, frame })?;
    Ok(writeln!(output, "{worked}")?)
}

/// Document 01, lent lengths: the next bytes of the input, fewer if it ends before.
fn take(input: &mut impl Read, length: usize) -> io::Result<Vec<u8>> {
    let mut bytes = Vec::with_capacity(length);
    input.take(length as u64).read_to_end(&mut bytes)?;
    Ok(bytes)
}

/// Document 02, S-2: the reserved number of an L1 frame, the next byte of the input; 0 after its
/// end, where the buffers that follow are too short.
fn take_reserved(input: &mut impl Read) -> io::Result<u64> {
    let byte = take(input, 1)?;
    Ok(byte.first().copied().map_or(0, u64::from))
}

/// Documents 01 and 02, lent lengths: the next buffers of the input.
fn take_each<const N: usize>(
    input: &mut impl Read,
    lengths: [usize; N],
) -> io::Result<[Vec<u8>; N]> {
    let mut buffers = lengths.map(|_| Vec::new());
    for (buffer, length) in buffers.iter_mut().zip(lengths) {
        *buffer = take(input, length)?;
    }
    Ok(buffers)
}

/// Documents 01 and 02, operations: one side of a run with its memories.
#[derive(Clone)]
pub(crate) struct Run {
    pub(crate) mode: &'static Mode,
    state: State,
    /// For P3, for P4, and the delay memory.
    memories: [Vec<u8>; 3],
}

impl Run {
    /// Documents 01 and 02, operations: a start with memories of the right lengths.
    pub(crate) fn start(side: Side, number: u64) -> Result<Run, Stop> {
        let mode = covered(number)?;
        let mut memories = side.memory_lengths(mode).map(|length| vec![0; length]);
        let lent = memories.each_mut().map(Vec::as_mut_slice);
        let answer = run::start(side, number, lent);
        if answer.number != 0 {
            return Err(refused(answer.number, answer.place, 0));
        }
        Ok(Run {
            mode,
            state: answer.state,
            memories,
        })
    }

    /// Documents 01 and 02, operations: sends P1, PIDS, P2, P3 and P4 with a reserved number; gives
    /// PM, PX1, PX2 and control.
    fn send(&mut self, reserved: u64, frames: &[Vec<u8>; 5]) -> (Answer, [Vec<u8>; 4]) {
        let [p1, pids, p2, p3, p4] = frames;
        let [mut pm, mut px1, mut px2, mut control] =
            self.mode.matrix_lengths().map(|length| vec![0; length]);
        let [memory_p3, memory_p4, delay] = &mut self.memories;
        let mut lent = Sending {
            p1,
            pids,
            p2,
            p3,
            p4,
            pm: &mut pm,
            px1: &mut px1,
            px2: &mut px2,
            control: &mut control,
            memory_p3,
            memory_p4,
            delay,
        };
        let answer = run::send(self.state, reserved, &mut lent);
        self.state = answer.state;
        (answer, [pm, px1, px2, control])
    }

    /// Documents 01 and 02, operations: reads PM, PX1, PX2 and control; gives the number and the
    /// frames that are returned.
    pub(crate) fn read(&mut self, matrices: &[Vec<u8>; 4]) -> (Answer, Vec<u8>) {
        let [pm, px1, px2, control] = matrices;
        let [mut p1, mut pids, mut p2, mut p3, mut p4] =
            self.mode.frame_lengths().map(|length| vec![0; length]);
        let [memory_p3, memory_p4, delay] = &mut self.memories;
        let mut lent = Reading {
            p1: &mut p1,
            pids: &mut pids,
            p2: &mut p2,
            p3: &mut p3,
            p4: &mut p4,
            pm,
            px1,
            px2,
            control,
            memory_p3,
            memory_p4,
            delay,
        };
        let age = self.state.age;
        let answer = run::read(self.state, &mut lent);
        self.state = answer.state;
        let waits = [self.mode.delay(), 0, 0, EXTENDED_WAIT, EXTENDED_WAIT];
        let mut returned = Vec::new();
        if answer.number == 0 {
            returned.push(answer.reserved as u8);
        }
        for (frames, wait) in [p1, pids, p2, p3, p4].iter().zip(waits) {
            if answer.number == 0 && age >= wait {
                returned.extend_from_slice(frames);
            }
        }
        (answer, returned)
    }
}

/// Documents 01 and 02, sheet guarantees: draws the reserved numbers and transfer frames of a run,
/// and leaves out the channels without data.
pub fn draw(
    seed: u64,
    mode: u64,
    count: u64,
    without: Without,
    output: &mut impl Write,
) -> Result<(), Stop> {
    let mode = covered(mode)?;
    let handed = handed_lengths(mode, without)?;
    let mut draw = Draw::new(seed);
    for _ in 0..count {
        output.write_all(&[draw.below(NUMBERS) as u8])?;
        for (length, handed) in mode.frame_lengths().into_iter().zip(handed) {
            output.write_all(&draw.bytes(length)[..handed])?;
        }
    }
    Ok(())
}

/// Document 02, S-5: the lengths of the channels in the input of a sender.
fn handed_lengths(mode: &Mode, without: Without) -> Result<[usize; 5], Stop> {
    mode.handed_lengths(without).ok_or(Stop::Usage)
}

/// Document 02, S-5: copies the input of a sender, with the zeros that are meant in place of
/// nothing.
pub fn fill(
    mode: u64,
    count: u64,
    without: Without,
    input: &mut impl Read,
    output: &mut impl Write,
) -> Result<(), Stop> {
    let mode = covered(mode)?;
    let handed = handed_lengths(mode, without)?;
    for _ in 0..count {
        output.write_all(&take(input, 1)?)?;
        let frames = take_each(input, handed)?;
        for (mut frames, length) in frames.into_iter().zip(mode.frame_lengths()) {
            frames.resize(length, 0);
            output.write_all(&frames)?;
        }
    }
    Ok(())
}

/// Documents 01 and 02, operations: sends the next L1 frame of the input. An input that ends early
/// is refused, and a number above 7 before it; what is missing at its end is not meant as zeros.
fn send_next(
    sender: &mut Run,
    handed: [usize; 5],
    frame: u64,
    input: &mut impl Read,
) -> Result<[Vec<u8>; 4], Stop> {
    let reserved = take_reserved(input)?;
    let frames = take_each(input, handed)?;
    if reserved < NUMBERS {
        let lengths = frames.each_ref().map(Vec::len);
        check_lengths(&lengths, &handed).map_err(|refusal| Stop::Refused { refusal, frame })?;
    }
    let (answer, matrices) = sender.send(reserved, &frames);
    if answer.number != 0 {
        return Err(refused(answer.number, answer.place, frame));
    }
    Ok(matrices)
}

/// Documents 01 and 02, operations: sends a run of L1 frames.
pub fn send(
    mode: u64,
    count: u64,
    without: Without,
    input: &mut impl Read,
    output: &mut impl Write,
) -> Result<(), Stop> {
    send_behind(|_| Vec::new(), mode, count, without, input, output)
}

/// Document 02, S-13: sends a run of L1 frames as a dump, which holds at most 65,535 of them.
pub fn dump(
    mode: u64,
    count: u64,
    without: Without,
    input: &mut impl Read,
    output: &mut impl Write,
) -> Result<(), Stop> {
    let held = u16::try_from(count).map_err(|_| Stop::Usage)?;
    let header = |mode: &Mode| dumps::header(mode, held);
    send_behind(header, mode, count, without, input, output)
}

/// Document 02, S-13: the verdict on a dump, as a line, and the cause in words.
pub fn judge(
    input: &mut impl Read,
    output: &mut impl Write,
    report: &mut impl Write,
) -> Result<(), Stop> {
    let mut dump = Vec::new();
    input.read_to_end(&mut dump)?;
    let verdict = dumps::judge(&dump);
    if verdict.number == 0 {
        return Ok(writeln!(output, "accepted")?);
    }
    let frame = verdict.frame as u64;
    writeln!(
        output,
        "{}",
        refusal_line(verdict.number, verdict.place, frame)
    )?;
    Ok(writeln!(report, "{}", words::of_cause(verdict.number))?)
}

/// Document 02, S-13: dumps to be judged, as the files 0, 1 and so on of a directory.
pub fn draw_dumps(seed: u64, mode: u64, directory: &Path) -> Result<(), Stop> {
    let dumps = dumps::drawn(seed, covered(mode)?)?;
    for (number, dump) in dumps.iter().enumerate() {
        std::fs::write(directory.join(number.to_string()), dump)?;
    }
    Ok(())
}

/// Documents 01 and 02, operations: sends a run of L1 frames behind what its mode begins with.
fn send_behind(
    header: impl Fn(&Mode) -> Vec<u8>,
    mode: u64,
    count: u64,
    without: Without,
    input: &mut impl Read,
    output: &mut impl Write,
) -> Result<(), Stop> {
    let mut sender = Run::start(Side::Sender, mode)?;
    let handed = handed_lengths(sender.mode, without)?;
    output.write_all(&header(sender.mode))?;
    for frame in 0..count {
        let matrices = send_next(&mut sender, handed, frame, input)?;
        output.write_all(&matrices.concat())?;
    }
    if !take(input, 1)?.is_empty() {
        output.flush()?;
        return Err(Stop::GoesOn(count));
    }
    Ok(())
}

/// House matter: the sheet of an input, a list and the L1 frames behind it.
fn sheet_text(
    mode: u64,
    count: u64,
    without: Without,
    work: bool,
    input: &[u8],
) -> Result<String, Stop> {
    if ![1, 2, 3, 11].contains(&mode) {
        return Err(Stop::NoSheet(NoSheet::Mode));
    }
    let mut sender = Run::start(Side::Sender, mode)?;
    let lengths = handed_lengths(sender.mode, without)?;
    if count > GREATEST_COUNT {
        return Err(Stop::NoSheet(NoSheet::Count));
    }
    let (list, mut frames) = take_list(input).map_err(Stop::NoSheet)?;
    let want = count as usize * (1 + lengths.iter().sum::<usize>());
    if frames.len() < want {
        return Err(Stop::NoSheet(NoSheet::Short(want)));
    }
    if frames.len() > want {
        return Err(Stop::NoSheet(NoSheet::Long(want)));
    }
    let handed = work.then_some(Handed {
        bytes: frames,
        lengths,
    });
    let mut sheet = Sheet::new(sender.mode, count, list, handed);
    let mut text = sheet::head(sender.mode, count, without, work) + &sheet.refusals();
    for frame in 0..count {
        let matrices = match send_next(&mut sender, lengths, frame, &mut frames) {
            Err(Stop::Refused { refusal, frame }) => {
                return Err(Stop::NoSheet(NoSheet::Frame(frame, refusal)))
            }
            sent => sent?,
        };
        text += &sheet.answers(frame, &matrices);
    }
    Ok(text + &sheet.end(count))
}

/// House matter: prints the sheet of an input, or why there is none.
pub fn sheet(
    mode: u64,
    count: u64,
    without: Without,
    input: &mut impl Read,
    output: &mut impl Write,
) -> Result<(), Stop> {
    print_sheet(false, mode, count, without, input, output)
}

/// House matter: the same with the working of each coded bit that an answer names.
pub fn worked_sheet(
    mode: u64,
    count: u64,
    without: Without,
    input: &mut impl Read,
    output: &mut impl Write,
) -> Result<(), Stop> {
    print_sheet(true, mode, count, without, input, output)
}

/// House matter: prints a sheet, with workings or without.
fn print_sheet(
    work: bool,
    mode: u64,
    count: u64,
    without: Without,
    input: &mut impl Read,
    output: &mut impl Write,
) -> Result<(), Stop> {
    let mut bytes = Vec::new();
    input.read_to_end(&mut bytes)?;
    match sheet_text(mode, count, without, work, &bytes) {
        Ok(text) => Ok(output.write_all(text.as_bytes())?),
        Err(Stop::NoSheet(why)) => {
            writeln!(output, "{why}")?;
            Err(Stop::NoSheet(why))
        }
        Err(stop) => Err(stop),
    }
}

/// House matter: draws a cell list.
pub fn draw_cells(seed: u64, mode: u64, count: u64, output: &mut impl Write) -> Result<(), Stop> {
    output.write_all(&cell_list(seed, in_finder(mode)?, count))?;
    Ok(())
}

/// Document 01, operations: reads a run of L1 frames up to the first refused one.
pub fn read(
    mode: u64,
    count: u64,
    input: &mut impl Read,
    output: &mut impl Write,
) -> Result<(), Stop> {
    let mut reader = Run::start(Side::Reader, mode)?;
    for frame in 0..count {
        let matrices = take_each(input, reader.mode.matrix_lengths())?;
        let (answer, returned) = reader.read(&matrices);
        if answer.number != 0 {
            return Err(refused(answer.number, answer.place, frame));
        }
        output.write_all(&returned)?;
    }
    Ok(())
}

/// Document 01, operations: reads a run of L1 frames, going on after refused ones.
pub fn read_on(
    mode: u64,
    count: u64,
    input: &mut impl Read,
    output: &mut impl Write,
    report: &mut impl Write,
) -> Result<(), Stop> {
    let mut reader = Run::start(Side::Reader, mode)?;
    for frame in 0..count {
        let matrices = take_each(input, reader.mode.matrix_lengths())?;
        let (answer, returned) = reader.read(&matrices);
        let Answer { number, place, .. } = answer;
        if number != 0 {
            writeln!(report, "{}", refusal_line(number, place, frame))?;
            writeln!(report, "{}", words::of_cause(number))?;
        }
        output.write_all(&returned)?;
        if number == 3 {
            // The input has ended: no further L1 frame is there.
            break;
        }
    }
    Ok(())
}

/// Section 11: writes the control blocks of an L1 frame with a reserved number.
pub fn control_blocks(mode: u64, reserved: u64, output: &mut impl Write) -> Result<(), Stop> {
    let mode = covered(mode)?;
    if reserved >= NUMBERS {
        return Err(refused(9, 0, 0));
    }
    output.write_all(&control(mode.number, reserved))?;
    Ok(())
}

/// Document 01, refusals: copies the matrices of a run, some of them damaged.
pub fn damage(
    seed: u64,
    mode: u64,
    count: u64,
    input: &mut impl Read,
    output: &mut impl Write,
) -> Result<(), Stop> {
    let mode = covered(mode)?;
    let lengths = mode.matrix_lengths();
    let mut damage = Damage::new(seed, mode, count);
    for frame in 0..count {
        let mut matrices = take_each(input, lengths)?;
        if let Some(short) = (0..4).find(|&m| matrices[m].len() != lengths[m]) {
            return Err(refused(3, mode.frame_lengths().len() + short, frame));
        }
        damage.frame(frame, &mut matrices);
        output.write_all(&matrices.concat())?;
    }
    Ok(())
}

/// Document 01, sheet guarantees: copies the matrices of a run, before each L1 frame a damaged
/// copy of it that a reader refuses.
pub fn damage_before(
    seed: u64,
    mode: u64,
    count: u64,
    input: &mut impl Read,
    output: &mut impl Write,
) -> Result<(), Stop> {
    let mut reader = Run::start(Side::Reader, mode)?;
    let mut damage = Damage::new(seed, reader.mode, count);
    for frame in 0..count {
        let matrices = take_each(input, reader.mode.matrix_lengths())?;
        let copy = refused_copy(&reader, &mut damage, &matrices);
        let (answer, _) = reader.read(&matrices);
        if answer.number != 0 {
            return Err(refused(answer.number, answer.place, frame));
        }
        output.write_all(&copy.concat())?;
        output.write_all(&matrices.concat())?;
    }
    Ok(())
}

/// Document 01, refusals: damages matrices till the reader would refuse them.
fn refused_copy(reader: &Run, damage: &mut Damage, matrices: &[Vec<u8>; 4]) -> [Vec<u8>; 4] {
    loop {
        let mut copy = matrices.clone();
        damage.hit(&mut copy);
        let (answer, _) = reader.clone().read(&copy);
        if answer.number != 0 {
            return copy;
        }
    }
}

/// Document 01, what the sheets cover: holds two outputs of send against each other.
pub fn compare(mode: u64, count: u64, a: &[u8], b: &[u8]) -> Result<(), Stop> {
    let covered = covered(mode)?;
    if let Some(byte) = (0..a.len().min(b.len())).find(|&n| a[n] != b[n]) {
        let bit = (a[byte] ^ b[byte]).leading_zeros() as usize;
        return Err(Stop::Different(name_of_bit(covered, 8 * byte + bit)));
    }
    let frame_length: usize = covered.matrix_lengths().iter().sum();
    let expected = u128::from(count) * frame_length as u128;
    if a.len() != b.len() || a.len() as u128 != expected {
        return Err(Stop::Different(format!(
            "mode {mode} lengths {} and {} of {expected}",
            a.len(),
            b.len()
        )));
    }
    Ok(())
}

/// Document 02, S-14: adds buffers of one length modulo 2, bit by bit.
pub fn add(buffers: &[Vec<u8>], output: &mut impl Write) -> Result<(), Stop> {
    let Some((first, others)) = buffers.split_first() else {
        return Err(Stop::Usage);
    };
    if let Some(other) = others.iter().find(|other| other.len() != first.len()) {
        let lengths = format!("lengths {} and {}", first.len(), other.len());
        return Err(Stop::Different(lengths));
    }
    let mut sum = unpack(first);
    for other in others {
        for (bit, more) in sum.iter_mut().zip(unpack(other)) {
            *bit = *bit != more;
        }
    }
    Ok(output.write_all(&pack(&sum))?)
}

/// Document 01, lent lengths: the L1 frame, matrix, row and column of a bit of send's output.
fn name_of_bit(mode: &Mode, bit: usize) -> String {
    let lengths = mode.matrix_lengths();
    let frame_bits = 8 * lengths.iter().sum::<usize>();
    let frame = bit / frame_bits;
    let mut rest = bit % frame_bits;
    let mut matrix = 0;
    while rest >= 8 * lengths[matrix] {
        rest -= 8 * lengths[matrix];
        matrix += 1;
    }
    // Each of the four has 512 rows in an L1 frame.
    let row_bits = 8 * lengths[matrix] / 512;
    let name = ["PM", "PX1", "PX2", "control"][matrix];
    let (row, column) = (rest / row_bits, rest % row_bits);
    let number = mode.number;
    format!("mode {number} frame {frame} {name} row {row} column {column}")
}

/// The input of the stored vectors: rate, frame bits and bytes of P1, PIDS, P3 of MP2 and of MP3.
const VECTORS: [(Rate, usize, usize); 4] = [
    (Rate::TwoFifths, P1_BITS, 18_272),
    (Rate::TwoFifths, PIDS_BITS, 160),
    (Rate::OneHalf, 2_304, 2_304),
    (Rate::OneHalf, 4_608, 4_608),
];

/// Sections 8, 9 and 11: scrambled, coded and returned frames, and the control blocks.
pub fn vectors(input: &mut impl Read, output: &mut impl Write) -> Result<(), Stop> {
    let buffers = take_each(input, VECTORS.map(|(_, _, length)| length))?;
    if let Some(short) = (0..4).find(|&n| buffers[n].len() != VECTORS[n].2) {
        return Err(refused(3, short, 0));
    }
    for (frames, (rate, frame_bits, _)) in buffers.iter().zip(VECTORS) {
        let bits = unpack(frames);
        let scrambled: Vec<bool> = bits.chunks(frame_bits).flat_map(scramble).collect();
        let coded = code_frames(rate, frame_bits, frames);
        let coded_bits = coded.len() / (bits.len() / frame_bits);
        let returned =
            decode_frames(rate, coded_bits, &coded).map_err(|place| refused(8, place, 0))?;
        output.write_all(&pack(&scrambled))?;
        output.write_all(&pack(&coded))?;
        output.write_all(&returned)?;
    }
    for mode in [1, 2, 3, 11] {
        output.write_all(&control(mode, 0))?;
    }
    Ok(())
}

/// Document 01, sheet guarantees: draws the input of the stored vectors.
pub fn draw_vectors(seed: u64, output: &mut impl Write) -> Result<(), Stop> {
    let mut draw = Draw::new(seed);
    for (_, _, length) in VECTORS {
        output.write_all(&draw.bytes(length))?;
    }
    Ok(())
}

/// Document 02, S-12: the nearest frame for each line of cells.
pub fn nearest(budget: u64, input: &mut impl BufRead, output: &mut impl Write) -> Result<(), Stop> {
    match nearest::lines(budget, input, output)? {
        true => Ok(()),
        false => Err(refused(16, 0, 0)),
    }
}

/// Document 02, S-7: the vector of a symbol of one L1 frame.
pub fn vector(
    mode: u64,
    symbol: u64,
    scales: [f32; 2],
    input: &mut impl Read,
    output: &mut impl Write,
) -> Result<(), Stop> {
    let matrices = take_each(input, covered(mode)?.matrix_lengths())?;
    let lent = Mapping {
        mode,
        symbol,
        matrices: [0, 1, 2, 3].map(|n| &matrices[n][..]),
        scales,
    };
    vector::lines(&lent, output)?.map_err(|refusal| Stop::Refused { refusal, frame: 0 })
}
