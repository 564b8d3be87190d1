//! The sheet: whose bit stands in each listed cell of a run's L1 frames, in which cell each listed
//! bit of its transfer frames is sent, the bit, and its working where that is asked for.

use std::fmt;

use crate::cells::{decimal, find, Channel};
use crate::interleaving::{PxRow, PM_COLUMNS, PM_ROWS};
use crate::locating::{locate, working, NAMES};
use crate::modes::{Extended, Mode, Without};
use crate::packing::unpack;
use crate::run::Refusal;

/// House matter: a cell list has fewer bytes than these before its empty line.
pub const LIST_BYTES: usize = 4_096;

/// House matter: the L1 frames of a sheet, at most.
pub const GREATEST_COUNT: u64 = 64;

/// The matrices of an L1 frame as a list names them, in the order in which they are sent.
const MATRICES: [&str; 3] = ["PM", "PX1", "PX2"];

/// House matter: why there is no sheet.
#[derive(Debug, PartialEq)]
pub enum NoSheet {
    /// The finder keeps to the older modes.
    Mode,
    Count,
    /// The list goes on where it should have ended.
    LongList,
    /// The input ends in the list.
    List,
    /// Fewer bytes behind the list than the L1 frames have: so many.
    Short(usize),
    /// More bytes than these.
    Long(usize),
    Frame(u64, Refusal),
}

impl fmt::Display for NoSheet {
    /// House matter: the one line that is printed in the place of a sheet.
    fn fmt(&self, f: &mut fmt::Formatter) -> fmt::Result {
        write!(f, "NO SHEET ")?;
        match self {
            NoSheet::Mode => write!(f, "MODE"),
            NoSheet::Count => write!(f, "COUNT"),
            NoSheet::LongList => write!(f, "LONG LIST"),
            NoSheet::List => write!(f, "LIST"),
            NoSheet::Short(bytes) => write!(f, "SHORT {bytes}"),
            NoSheet::Long(bytes) => write!(f, "LONG {bytes}"),
            NoSheet::Frame(frame, refusal) => write!(
                f,
                "FRAME {frame} NUMBER {} PLACE {}",
                refusal.number, refusal.place
            ),
        }
    }
}

/// House matter: a line without what ends it, LF or CR LF.
fn without_end(line: &[u8]) -> &[u8] {
    let line = line.strip_suffix(b"\n").unwrap_or(line);
    line.strip_suffix(b"\r").unwrap_or(line)
}

/// House matter: the cell list before its empty line, and what follows that.
pub fn take_list(input: &[u8]) -> Result<(&[u8], &[u8]), NoSheet> {
    let mut at = 0;
    for line in input.split_inclusive(|&byte| byte == b'\n') {
        if line == b"\n" || line == b"\r\n" {
            let behind = &input[at + line.len()..];
            return match at < LIST_BYTES {
                true => Ok((&input[..at], behind)),
                false => Err(NoSheet::LongList),
            };
        }
        at += line.len();
    }
    Err(match at < LIST_BYTES {
        true => NoSheet::List,
        false => NoSheet::LongList,
    })
}

/// House matter: the first line of a sheet.
pub fn head(mode: &Mode, count: u64, without: Without, work: bool) -> String {
    let channels = match (without.p3, without.p4) {
        (false, false) => "",
        (true, false) => " without P3",
        (false, true) => " without P4",
        (true, true) => " without P3 P4",
    };
    let work = if work { " work" } else { "" };
    format!("MP{} {count}{channels}{work}\n", mode.number)
}

/// The transfer frames of a run's L1 frames as they were handed over, for workings.
pub struct Handed<'a> {
    /// The L1 frames end to end, each behind its reserved number.
    pub bytes: &'a [u8],
    /// Of P1, PIDS, P2, P3 and P4 in an L1 frame.
    pub lengths: [usize; 5],
}

impl Handed<'_> {
    /// The transfer frames of a channel, by its place in NAMES, in an L1 frame.
    fn frames(&self, frame: u64, channel: usize) -> &[u8] {
        let place = [0, 1, 3, 4][channel];
        let each = 1 + self.lengths.iter().sum::<usize>();
        let before = 1 + self.lengths[..place].iter().sum::<usize>();
        &self.bytes[frame as usize * each + before..][..self.lengths[place]]
    }
}

/// A coded bit: of the L1 frame in which its transfer frame was handed over, by its channel's place
/// in NAMES, its transfer frame and its number there.
#[derive(Clone, Copy)]
struct Coded {
    from: u64,
    channel: usize,
    frame: usize,
    bit: usize,
}

/// What a line asks for.
enum What {
    /// A cell by the place of its matrix in MATRICES and its number there, row by row, the eight
    /// matrices of PX end to end.
    Cell { matrix: usize, cell: usize },
    /// A coded bit of P1 or PIDS, and its cell of PM.
    InPm { coded: Coded, cell: usize },
    /// A coded bit of P3 (0) or P4 (1), and its number among its L1 frame's.
    InPx {
        coded: Coded,
        px: usize,
        number: usize,
    },
}

/// A line that can be answered.
struct Asked {
    frame: u64,
    what: What,
    /// The line with its numbers without leading zeros.
    line: String,
}

impl Asked {
    /// House matter: what a line asks for; none if it cannot be answered.
    fn of_line(mode: &Mode, count: u64, line: &[u8]) -> Option<Asked> {
        let words: Vec<&[u8]> = line.split(|&byte| byte == b' ').collect();
        let [frame, name, numbers @ ..] = &words[..] else {
            return None;
        };
        let frame = decimal(frame)? as u64;
        let name = std::str::from_utf8(name).ok()?;
        let numbers: Vec<usize> = numbers
            .iter()
            .map(|word| decimal(word))
            .collect::<Option<_>>()?;
        let what = match NAMES.iter().position(|known| *known == name) {
            Some(channel) => bit_asked(mode, frame, channel, &numbers)?,
            None => cell_asked(mode, name, &numbers)?,
        };
        if frame >= count {
            return None;
        }
        let mut line = format!("{frame} {name}");
        for number in numbers {
            line += &format!(" {number}");
        }
        Some(Asked { frame, what, line })
    }
}

/// A cell by the name of its matrix and its numbers.
fn cell_asked(mode: &Mode, name: &str, numbers: &[usize]) -> Option<What> {
    let matrix = MATRICES.iter().position(|known| *known == name)?;
    let limits = limits(mode, matrix)?;
    let within = numbers.iter().zip(&limits).all(|(n, limit)| n < limit);
    if numbers.len() != limits.len() || !within {
        return None;
    }
    let cell = numbers
        .iter()
        .zip(&limits)
        .fold(0, |cell, (n, limit)| cell * limit + n);
    Some(What::Cell { matrix, cell })
}

/// A coded bit by its L1 frame, its channel's place in NAMES, its transfer frame and its number there.
fn bit_asked(mode: &Mode, from: u64, channel: usize, numbers: &[usize]) -> Option<What> {
    let &[frame, bit] = numbers else {
        return None;
    };
    let coded = Coded {
        from,
        channel,
        frame,
        bit,
    };
    if channel < 2 {
        let cell = locate(channel as u64 + 1, frame, bit).ok()?;
        return Some(What::InPm { coded, cell });
    }
    let px = channel - 2;
    let row = [&mode.p3, &mode.p4][px].row?;
    let inside = frame < 8 && bit < row.frame_bits;
    let number = frame * row.frame_bits + bit;
    inside.then_some(What::InPx { coded, px, number })
}

/// Sections 10.2.2 and 10.4.2: what the numbers of a cell are below: row and column in PM; block
/// pair, row and column in PX; none for a matrix that the mode does not send.
fn limits(mode: &Mode, matrix: usize) -> Option<Vec<usize>> {
    let px = |channel: &Extended| channel.row.map(|row| vec![8, 64, row.width()]);
    match matrix {
        0 => Some(vec![PM_ROWS, PM_COLUMNS]),
        1 => px(&mode.p3),
        _ => px(&mode.p4),
    }
}

/// The L1 frame in which a bit was coded, and its number among that L1 frame's coded bits; none
/// for the zero fill.
type Tag = Option<(u64, usize)>;

/// Interleaver IV of one channel, with tags in its internal matrix in the place of bits.
struct Tagged {
    row: &'static PxRow,
    internal: Vec<Tag>,
}

impl Tagged {
    /// Document 01, PX: a fresh start, nothing but fill in the internal matrix.
    fn fresh(channel: &Extended) -> Option<Tagged> {
        channel.row.map(|row| Tagged {
            row,
            internal: vec![None; row.bits],
        })
    }

    /// Section 10.4.2: the tags in the eight output matrices of the next L1 frame.
    fn next(&mut self, frame: u64) -> Vec<Tag> {
        let tags: Vec<Tag> = (0..self.row.half_bits())
            .map(|bit| Some((frame, bit)))
            .collect();
        let half = (frame % 2) as usize;
        self.row.process(half, &tags, &mut self.internal)
    }
}

/// The sheet of a run: its list, interleaver IV of P3 and of P4, and, where workings are asked for,
/// the run's transfer frames.
pub struct Sheet<'a> {
    mode: &'a Mode,
    asked: Vec<Asked>,
    refused: Vec<usize>,
    tagged: [Option<Tagged>; 2],
    handed: Option<Handed<'a>>,
    answered: usize,
}

/// The tags in PX1 and in PX2 of an L1 frame.
type Tags = [Vec<Tag>; 2];

/// What is said behind a line, and the coded bit that it is about; none of the zero fill.
type Answer = (String, Option<Coded>);

impl<'a> Sheet<'a> {
    /// House matter: the sheet of a list, without its empty line.
    pub fn new(mode: &'a Mode, count: u64, list: &[u8], handed: Option<Handed<'a>>) -> Sheet<'a> {
        let mut sheet = Sheet {
            mode,
            asked: Vec::new(),
            refused: Vec::new(),
            tagged: [&mode.p3, &mode.p4].map(Tagged::fresh),
            handed,
            answered: 0,
        };
        let lines = list.split_inclusive(|&byte| byte == b'\n');
        for (n, line) in lines.enumerate() {
            match Asked::of_line(mode, count, without_end(line)) {
                Some(asked) => sheet.asked.push(asked),
                None => sheet.refused.push(n + 1),
            }
        }
        sheet
    }

    /// House matter: a line for each line of the list that cannot be answered.
    pub fn refusals(&self) -> String {
        let line = |n| format!("REFUSED {n}\n");
        self.refused.iter().map(line).collect()
    }

    /// Section 10.4.2: the tags in the matrices of the next L1 frame.
    fn next_tags(&mut self, frame: u64) -> Tags {
        self.tagged.each_mut().map(|tagged| match tagged {
            Some(tagged) => tagged.next(frame),
            None => Vec::new(),
        })
    }

    /// House matter: the answers for the next L1 frame, of which the matrices are given.
    pub fn answers(&mut self, frame: u64, matrices: &[Vec<u8>; 4]) -> String {
        let matrices = matrices.each_ref().map(|matrix| unpack(matrix));
        let tags = self.next_tags(frame);
        let mut answers = String::new();
        let mut left = Vec::new();
        for asked in std::mem::take(&mut self.asked) {
            match self.answer(frame, &matrices, &tags, &asked) {
                Some((answer, coded)) => {
                    answers += &format!("{}{answer}\n{}", asked.line, self.work_line(coded));
                    self.answered += 1;
                }
                None => left.push(asked),
            }
        }
        self.asked = left;
        answers
    }

    /// House matter: the line of the working of a coded bit, where workings are asked for.
    fn work_line(&self, coded: Option<Coded>) -> String {
        let (Some(handed), Some(coded)) = (&self.handed, coded) else {
            return String::new();
        };
        let frames = handed.frames(coded.from, coded.channel);
        let half = (coded.from % 2) as usize;
        let channel = coded.channel as u64 + 1;
        let worked = working(self.mode, half, channel, frames, coded.frame, coded.bit)
            .expect("a coded bit that the run has");
        format!("{worked}\n")
    }

    /// House matter: what is said behind a line in an L1 frame; none if it is answered in another.
    fn answer(
        &self,
        frame: u64,
        matrices: &[Vec<bool>; 4],
        tags: &Tags,
        asked: &Asked,
    ) -> Option<Answer> {
        let value = |matrix: usize, cell: usize| u8::from(matrices[matrix][cell]);
        match asked.what {
            What::InPx { coded, px, number } => {
                let place = self.place(px, frame, tags, asked.frame, number)?;
                let cell = tag_of(tags, px, asked.frame, number)?;
                Some((format!("{place} {}", value(px + 1, cell)), Some(coded)))
            }
            _ if asked.frame != frame => None,
            What::InPm { coded, cell } => {
                let (row, column) = (cell / PM_COLUMNS, cell % PM_COLUMNS);
                let answer = format!(" PM {frame} {row} {column} {}", value(0, cell));
                Some((answer, Some(coded)))
            }
            What::Cell { matrix: 0, cell } => Some(pm_answer(frame, cell, value(0, cell))),
            What::Cell { matrix, cell } => {
                let value = value(matrix, cell);
                Some(self.px_answer(matrix - 1, tags[matrix - 1][cell], value))
            }
        }
    }

    /// Section 10.4.2: the cell of PX1 (0) or PX2 (1) of an L1 frame that shows this coded bit of
    /// that L1 frame, by searching its tags.
    fn place(
        &self,
        px: usize,
        frame: u64,
        tags: &Tags,
        from: u64,
        number: usize,
    ) -> Option<String> {
        let cell = tag_of(tags, px, from, number)?;
        let width = self.tagged[px].as_ref()?.row.width();
        let (line, column) = (cell / width, cell % width);
        let (pair, row) = (line / 64, line % 64);
        Some(format!(
            " {} {frame} {pair} {row} {column}",
            MATRICES[px + 1]
        ))
    }

    /// House matter: what is left, each in an L1 frame after the run's last, and the last line
    /// with the number of answers.
    pub fn end(&mut self, count: u64) -> String {
        let after = [count, count + 1].map(|frame| (frame, self.next_tags(frame)));
        let mut text = String::new();
        for asked in std::mem::take(&mut self.asked) {
            let What::InPx { coded, px, number } = asked.what else {
                unreachable!("every other line asks for something of an L1 frame of the run")
            };
            let place =
                |(frame, tags): &(u64, Tags)| self.place(px, *frame, tags, asked.frame, number);
            let place = after
                .iter()
                .find_map(place)
                .expect("a bit is sent at most two L1 frames later");
            text += &format!(
                "{}{place} LATER\n{}",
                asked.line,
                self.work_line(Some(coded))
            );
            self.answered += 1;
        }
        text + &format!("END {}\n", self.answered)
    }

    /// Section 10.4.2: whose bit a cell of PX1 (0) or PX2 (1) shows, and the bit.
    fn px_answer(&self, px: usize, tag: Tag, value: u8) -> Answer {
        let (Some(tagged), Some((from, bit))) = (&self.tagged[px], tag) else {
            return (" FILL".to_string(), None);
        };
        let frame_bits = tagged.row.frame_bits;
        let coded = Coded {
            from,
            channel: px + 2,
            frame: bit / frame_bits,
            bit: bit % frame_bits,
        };
        let (name, Coded { frame, bit, .. }) = (NAMES[coded.channel], coded);
        (format!(" {name} {from} {frame} {bit} {value}"), Some(coded))
    }
}

/// Section 10.4.1.1: whose bit a cell of PM shows, and the bit.
fn pm_answer(from: u64, cell: usize, value: u8) -> Answer {
    let found = find(cell / PM_COLUMNS, cell % PM_COLUMNS);
    let coded = Coded {
        from,
        channel: usize::from(matches!(found.channel, Some(Channel::Pids))),
        frame: found.frame,
        bit: found.bit,
    };
    let (name, Coded { frame, bit, .. }) = (NAMES[coded.channel], coded);
    (format!(" {name} {frame} {bit} {value}"), Some(coded))
}

/// The cell of PX1 (0) or PX2 (1) with this tag.
fn tag_of(tags: &Tags, px: usize, from: u64, number: usize) -> Option<usize> {
    tags[px].iter().position(|tag| *tag == Some((from, number)))
}
