//! Both ways: into which cell a coded bit goes, the working of a coded bit, and lines that ask
//! either way, without frames.

use std::collections::HashMap;
use std::fmt;
use std::io::{self, BufRead, Write};
use std::sync::OnceLock;

use crate::cells::{decimal, find, place_of, Channel};
use crate::coding::Rate;
use crate::interleaving::{PxRow, PM_COLUMNS, PM_ROWS};
use crate::modes::{Extended, Mode, P1_BITS, PIDS, PIDS_BITS};
use crate::packing::is_one;
use crate::run::Refusal;
use crate::scrambling::Register;

/// The channels by number: 1 P1, 2 PIDS, 3 P3, 4 P4.
pub const NAMES: [&str; 4] = ["P1", "PIDS", "P3", "P4"];

/// House matter: an L1 frame that a line can name is below this.
pub const GREATEST_FRAME: u64 = 1 << 32;

/// House matter: a line of more bytes is refused, as it could not stand in a sheet's list.
pub const LONGEST_LINE: usize = 4095;

/// Document 01, refusal 3: an argument out of range, at its place.
fn out_of_range(place: usize) -> Refusal {
    Refusal { number: 3, place }
}

/// The finder turned round by asking it for every cell: the cells of the P1 frame's coded bits,
/// then those of the PIDS frames.
fn searched() -> &'static [Vec<usize>; 17] {
    static CELLS: OnceLock<[Vec<usize>; 17]> = OnceLock::new();
    CELLS.get_or_init(|| {
        let mut bits: Vec<HashMap<usize, usize>> = vec![HashMap::new(); 17];
        for cell in 0..PM_ROWS * PM_COLUMNS {
            let found = find(cell / PM_COLUMNS, cell % PM_COLUMNS);
            let list = match found.channel {
                Some(Channel::P1) => 0,
                _ => 1 + found.frame,
            };
            bits[list].insert(found.bit, cell);
        }
        let lists: Vec<Vec<usize>> = bits
            .iter()
            .map(|list| (0..list.len()).map(|bit| list[&bit]).collect())
            .collect();
        lists.try_into().expect("seventeen transfer frames")
    })
}

/// The PM cell of a coded bit of P1 (channel 1) or PIDS (channel 2).
pub fn locate(channel: u64, frame: usize, bit: usize) -> Result<usize, Refusal> {
    let lists = match channel {
        1 => &searched()[..1],
        2 => &searched()[1..],
        _ => return Err(out_of_range(0)),
    };
    let list = lists.get(frame).ok_or(out_of_range(1))?;
    list.get(bit).copied().ok_or(out_of_range(2))
}

/// How a mode sends channel 3 or 4; none for any other, and none in MP5 and MP6.
fn extended(mode: &Mode, channel: u64) -> Option<&Extended> {
    let sent = match (mode.delayed, channel) {
        (None, 3) => &mode.p3,
        (None, 4) => &mode.p4,
        _ => return None,
    };
    sent.row.is_some().then_some(sent)
}

/// How many L1 frames later a coded bit of P3 or P4 is sent, and in which cell of the eight
/// matrices, row by row.
pub fn locate_px(
    mode: &Mode,
    half: usize,
    channel: u64,
    frame: usize,
    bit: usize,
) -> Result<(usize, usize), Refusal> {
    let row = extended(mode, channel)
        .and_then(|sent| sent.row)
        .ok_or(out_of_range(0))?;
    if frame >= 8 {
        return Err(out_of_range(1));
    }
    if bit >= row.frame_bits {
        return Err(out_of_range(2));
    }
    Ok(row.shown()[half][frame * row.frame_bits + bit])
}

/// The working of a coded bit.
#[derive(Clone, Debug, PartialEq, Eq)]
pub struct Working {
    /// The bit of the transfer frame, and the generator whose output for it is kept.
    pub number: usize,
    pub generator: u8,
    /// The bit and the six before it, newest first, and the scrambling bits at their places.
    pub bits: [bool; 7],
    pub scrambling: [bool; 7],
    /// How many ones the generator takes.
    pub sum: u32,
    /// The number of the bit in its interleaver, k or the counter of its partition, block, row,
    /// partition and column, and the cell.
    pub step: usize,
    pub k: usize,
    pub position: [usize; 4],
    pub cell: usize,
}

impl fmt::Display for Working {
    /// House matter: a working as it stands on a sheet; the generator in octal, as Table 9-2 has it.
    fn fmt(&self, f: &mut fmt::Formatter) -> fmt::Result {
        let digits = |bits: [bool; 7]| bits.map(|bit| if bit { "1" } else { "0" }).join(" ");
        let [block, row, partition, column] = self.position;
        write!(f, "WORK BIT {} GENERATOR {:o}", self.number, self.generator)?;
        write!(f, " FRAME {}", digits(self.bits))?;
        write!(f, " SCRAMBLER {}", digits(self.scrambling))?;
        write!(f, " SUM {} STEP {} K {}", self.sum, self.step, self.k)?;
        write!(f, " BLOCK {block} PARTITION {partition}")?;
        write!(f, " ROW {row} COLUMN {column} CELL {}", self.cell)
    }
}

/// Section 8.2: the scrambling bits of the longest transfer frame; those of a shorter one are its
/// first.
fn scrambling_bits() -> &'static [bool] {
    static BITS: OnceLock<Vec<bool>> = OnceLock::new();
    BITS.get_or_init(|| {
        let mut register = Register::reset();
        (0..P1_BITS).map(|_| register.scrambling_bit()).collect()
    })
}

/// Section 9.3: the input bit and the generator of coded bit m, by counting what is kept, from the
/// last whole turn of the puncture matrix on.
fn output_of(rate: Rate, m: usize) -> (usize, u8) {
    const GENERATORS: [u8; 3] = [0o133, 0o171, 0o165];
    let turn = rate.kept(0).len() + rate.kept(1).len();
    let mut before = m / turn * turn;
    for number in m / turn * 2.. {
        let kept = rate.kept(number);
        if m < before + kept.len() {
            return (number, GENERATORS[kept[m - before]]);
        }
        before += kept.len();
    }
    unreachable!("every coded bit is kept of some input bit")
}

/// Section 10.2.3.3: the k of a row and a column of an interleaver block, by search.
pub(crate) fn k_of(row: usize, column: usize) -> usize {
    let there = |k: &usize| (k * 11) % 32 == row && (k * 11 + k / 288) % 36 == column;
    (0..32 * 36)
        .find(there)
        .expect("each place of a block has its k")
}

/// How a coded bit is written: its number in the interleaver, k, position and cell.
pub(crate) type Written = (usize, usize, [usize; 4], usize);

/// Sections 10.2.3 and 10.2.4: how a bit of P1 or PIDS is written, from its cell.
pub(crate) fn written_pm(step: usize, cell: usize) -> Written {
    let placed = place_of(cell / PM_COLUMNS, cell % PM_COLUMNS);
    let position = [placed.block, placed.row, placed.partition, placed.column];
    (step, k_of(placed.row, placed.column), position, cell)
}

/// Section 10.2.6: how a bit of P3 or P4 is written, its partition's earlier steps counted.
pub(crate) fn written_px(row: &PxRow, step: usize) -> Written {
    let partition = row.partition(step);
    let k = (0..step).filter(|&i| row.partition(i) == partition).count();
    let (block, line, column) = row.place(partition, k);
    let cell = (block * 32 + line) * row.width() + partition * 36 + column;
    (step, k, [block, line, partition, column], cell)
}

/// The working of a coded bit of an L1 frame in this half, of the transfer frames of the channel.
pub fn working(
    mode: &Mode,
    half: usize,
    channel: u64,
    frames: &[u8],
    frame: usize,
    bit: usize,
) -> Result<Working, Refusal> {
    let (rate, count, bits) = match (mode.delayed, channel) {
        (None, 1) => (Rate::TwoFifths, 1, P1_BITS),
        (None, 2) => (Rate::TwoFifths, PIDS.count, PIDS_BITS),
        _ => {
            let sent = extended(mode, channel).ok_or(out_of_range(0))?;
            (Rate::OneHalf, 8, sent.frames)
        }
    };
    let zeros = vec![0; count * bits / 8];
    let frames = match (frames.is_empty(), channel) {
        (true, 3 | 4) => &zeros,
        _ => frames,
    };
    let coded = coded_bits(rate, count, bits, frames, frame, bit)?;
    let written = match channel {
        1 => written_pm(bit, locate(1, frame, bit)?),
        2 => written_pm(frame * coded + bit, locate(2, frame, bit)?),
        _ => {
            let row = extended(mode, channel)
                .and_then(|sent| sent.row)
                .ok_or(out_of_range(0))?;
            written_px(row, half * row.half_bits() + frame * coded + bit)
        }
    };
    Ok(explained(rate, bits, frames, [frame, bit], written))
}

/// Document 01, refusal 3: the length of the lent frames, the transfer frame and the coded bit; and the coded bits of a frame.
pub(crate) fn coded_bits(
    rate: Rate,
    count: usize,
    bits: usize,
    frames: &[u8],
    frame: usize,
    bit: usize,
) -> Result<usize, Refusal> {
    if frames.len() != count * bits / 8 {
        return Err(out_of_range(1));
    }
    if frame >= count {
        return Err(out_of_range(2));
    }
    let coded = match rate {
        Rate::TwoFifths => bits * 5 / 2,
        Rate::OneHalf => bits * 2,
    };
    if bit >= coded {
        return Err(out_of_range(3));
    }
    Ok(coded)
}

/// Sections 8.2 and 9.3: the working of a coded bit of a transfer frame of so many bits, which the interleaver writes so.
pub(crate) fn explained(
    rate: Rate,
    bits: usize,
    frames: &[u8],
    [frame, bit]: [usize; 2],
    (step, k, position, cell): Written,
) -> Working {
    let (number, generator) = output_of(rate, bit);
    let back = |d: usize| (number + bits - d) % bits;
    let seven: [usize; 7] = std::array::from_fn(back);
    let sent = seven.map(|n| is_one(frames, frame * bits + n));
    let added = seven.map(|n| scrambling_bits()[n]);
    let taken = |d: &usize| generator >> (6 - d) & 1 == 1;
    let ones = |d: usize| u32::from(sent[d]) + u32::from(added[d]);
    Working {
        number,
        generator,
        bits: sent,
        scrambling: added,
        sum: (0..7).filter(taken).map(ones).sum(),
        step,
        k,
        position,
        cell,
    }
}

/// The words of a line after its L1 frame: a name and numbers, none if they are not such.
fn words(line: &[u8]) -> Option<(u64, &str, Vec<usize>)> {
    let words: Vec<&[u8]> = line.split(|&byte| byte == b' ').collect();
    let [frame, name, numbers @ ..] = &words[..] else {
        return None;
    };
    let frame = decimal(frame)? as u64;
    let numbers = numbers
        .iter()
        .map(|word| decimal(word))
        .collect::<Option<_>>()?;
    (frame < GREATEST_FRAME).then_some((frame, std::str::from_utf8(name).ok()?, numbers))
}

/// Whose bit a PM cell shows, as a line.
fn pm_cell(frame: u64, row: usize, column: usize) -> Option<String> {
    let found = find(row, column);
    let channel = match found.channel? {
        Channel::P1 => "P1",
        Channel::Pids => "PIDS",
    };
    let (tframe, bit) = (found.frame, found.bit);
    Some(format!(
        "{frame} PM {row} {column} {channel} {tframe} {bit}"
    ))
}

/// Whose bit a cell of PX1 (channel 3) or PX2 (channel 4) shows in an L1 frame, by looking for the
/// bit that goes there among those of this L1 frame and of the two before it.
fn px_cell(mode: &Mode, frame: u64, channel: u64, numbers: [usize; 3]) -> Option<String> {
    let [pair, row, column] = numbers;
    let sent = extended(mode, channel)?.row?;
    if pair >= 8 || row >= 64 || column >= sent.width() {
        return None;
    }
    let cell = (pair * 64 + row) * sent.width() + column;
    let asked = format!("{frame} PX{} {pair} {row} {column}", channel - 2);
    let owner = shown_in(sent, (frame % 2) as usize)[cell];
    Some(match owner {
        (earlier, bit) if earlier <= frame => format!(
            "{asked} P{channel} {} {} {}",
            frame - earlier,
            bit / sent.frame_bits,
            bit % sent.frame_bits
        ),
        _ => format!("{asked} FILL"),
    })
}

/// For each cell of an L1 frame in this half, how many L1 frames earlier its bit was sent, and
/// which coded bit of that L1 frame it is.
fn shown_in(row: &'static PxRow, half: usize) -> &'static [(u64, usize)] {
    static SHOWN: OnceLock<HashMap<(usize, usize), Vec<(u64, usize)>>> = OnceLock::new();
    let all = SHOWN.get_or_init(|| {
        let mut all = HashMap::new();
        for row in [
            &crate::interleaving::PX_MP2,
            &crate::interleaving::PX_MP3_MP11,
        ] {
            for half in 0..2 {
                let mut cells = vec![(0, 0); row.half_bits()];
                for from in 0..2 {
                    for (bit, &(later, cell)) in row.shown()[from].iter().enumerate() {
                        if (from + later) % 2 == half {
                            cells[cell] = (later as u64, bit);
                        }
                    }
                }
                all.insert((row.bits, half), cells);
            }
        }
        all
    });
    &all[&(row.bits, half)]
}

/// Into which cell a coded bit goes, as a line.
fn bit_line(mode: &Mode, frame: u64, name: &str, tframe: usize, bit: usize) -> Option<String> {
    let channel = NAMES.iter().position(|known| *known == name)? as u64 + 1;
    let asked = format!("{frame} {name} {tframe} {bit}");
    if channel < 3 {
        let cell = locate(channel, tframe, bit).ok()?;
        return Some(format!(
            "{asked} PM {frame} {} {}",
            cell / PM_COLUMNS,
            cell % PM_COLUMNS
        ));
    }
    let (later, cell) = locate_px(mode, (frame % 2) as usize, channel, tframe, bit).ok()?;
    let width = extended(mode, channel)?.row?.width();
    let (line, column) = (cell / width, cell % width);
    Some(format!(
        "{asked} PX{} {} {} {} {column}",
        channel - 2,
        frame + later as u64,
        line / 64,
        line % 64
    ))
}

/// What is printed for a line; none if it cannot be answered.
fn answer(mode: &Mode, line: &[u8]) -> Option<String> {
    let (frame, name, numbers) = words(line)?;
    match (name, &numbers[..]) {
        ("PM", &[row, column]) => pm_cell(frame, row, column),
        ("PX1", &[pair, row, column]) => px_cell(mode, frame, 3, [pair, row, column]),
        ("PX2", &[pair, row, column]) => px_cell(mode, frame, 4, [pair, row, column]),
        (_, &[tframe, bit]) => bit_line(mode, frame, name, tframe, bit),
        _ => None,
    }
}

/// House matter: what a line asks, with no newline, and without the CR of another system.
fn question(line: &[u8]) -> Option<&[u8]> {
    let line = line.strip_suffix(b"\n").unwrap_or(line);
    if line.len() > LONGEST_LINE {
        return None;
    }
    Some(line.strip_suffix(b"\r").unwrap_or(line))
}

/// House matter: an answer for each line of the input.
pub fn owners(mode: &Mode, input: &mut impl BufRead, output: &mut impl Write) -> io::Result<()> {
    let mut line = Vec::new();
    let mut number = 0u64;
    while input.read_until(b'\n', &mut line)? > 0 {
        number += 1;
        match question(&line).and_then(|asked| answer(mode, asked)) {
            Some(answer) => writeln!(output, "{answer}")?,
            None => writeln!(output, "REFUSED {number}")?,
        }
        line.clear();
    }
    Ok(())
}

/// House matter: a line for each coded bit of an L1 frame of the mode, as input of `owners`.
pub fn all_bits(mode: &Mode, frame: u64, output: &mut impl Write) -> io::Result<()> {
    for (n, list) in searched().iter().enumerate() {
        let (name, tframe) = match n {
            0 => ("P1", 0),
            _ => ("PIDS", n - 1),
        };
        for bit in 0..list.len() {
            writeln!(output, "{frame} {name} {tframe} {bit}")?;
        }
    }
    for channel in [3, 4] {
        let Some(row) = extended(mode, channel).and_then(|sent| sent.row) else {
            continue;
        };
        for tframe in 0..8 {
            for bit in 0..row.frame_bits {
                writeln!(output, "{frame} P{channel} {tframe} {bit}")?;
            }
        }
    }
    Ok(())
}
