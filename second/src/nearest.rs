//! Document 02, S-12: the PIDS frame that is nearest to mis-copied cells, with a margin.

use std::io::{self, BufRead, Write};

use crate::coding::{encode, output, Rate};
use crate::draw::Draw;
use crate::packing::{pack, unpack};
use crate::scrambling::scramble;

/// The coded bits and the bytes of a PIDS frame.
const CELLS: usize = 200;
const FRAME: usize = 10;

/// S-12: the number and place of the answer, and what is told with it; zeros when refused.
#[derive(Clone, Copy, Debug, PartialEq, Eq)]
pub struct Answer {
    pub number: u32,
    pub place: usize,
    pub distance: u32,
    pub margin: u32,
}

/// A path from one or more starts to a state: its distance, and the bits that entered as a number.
/// The lesser of two is the one that S-12 prefers.
type Path = (u32, u128);

/// S-12: the least path to each state over all cells, from the least to each state before them.
/// One of several to a state that is not the least can never be again: what follows is the same.
fn forward(cells: &[u8], mut paths: [Option<Path>; 64]) -> [Option<Path>; 64] {
    let mut rest = cells;
    for i in 0.. {
        if rest.is_empty() {
            break;
        }
        let kept = Rate::TwoFifths.kept(i);
        let (step, later) = rest.split_at(kept.len());
        let mut next = [None; 64];
        for (state, path) in (0u8..).zip(paths) {
            let Some((distance, number)) = path else {
                continue;
            };
            for bit in 0..2u8 {
                let window = (bit << 6) | state;
                let wrong = kept
                    .iter()
                    .zip(step)
                    .filter(|(&generator, &cell)| cell == u8::from(!output(generator, window)))
                    .count();
                let path = (distance + wrong as u32, (number << 1) | u128::from(bit));
                let to: &mut Option<Path> = &mut next[usize::from(window >> 1)];
                if to.is_none_or(|other| path < other) {
                    *to = Some(path);
                }
            }
        }
        paths = next;
        rest = later;
    }
    paths
}

/// S-12: the state that a start stands for: the last of its six bits is the newest.
fn state_of(start: usize) -> usize {
    (0..6).fold(0, |state, bit| state | ((start >> bit) & 1) << (5 - bit))
}

/// S-12: the nearest scrambled frame of these cells among the first starts, the lower start winning.
pub fn closed(cells: &[u8], budget: usize) -> Path {
    (0..budget.min(64))
        .map(|start| {
            let mut paths = [None; 64];
            paths[state_of(start)] = Some((0, 0));
            forward(cells, paths)[state_of(start)].expect("every state is reached")
        })
        .reduce(|best, path| if path.0 < best.0 { path } else { best })
        .expect("a budget is not 0")
}

/// S-12: the least distance over paths from any start to any end.
pub fn open(cells: &[u8]) -> u32 {
    let paths = forward(cells, [Some((0, 0)); 64]);
    paths.iter().flatten().map(|path| path.0).min().unwrap_or(0)
}

/// S-12: leaves the nearest frame in the buffer.
pub fn nearest(cells: &[u8], frame: &mut [u8], budget: usize) -> Answer {
    let refused = |number, place| Answer {
        number,
        place,
        distance: 0,
        margin: 0,
    };
    if cells.len() != CELLS {
        return refused(3, 0);
    }
    if frame.len() != FRAME {
        return refused(3, 1);
    }
    if budget == 0 || budget > 64 {
        return refused(16, 0);
    }
    let (distance, number) = closed(cells, budget);
    let scrambled = unpack(&number.to_be_bytes()[16 - FRAME..]);
    frame.copy_from_slice(&pack(&scramble(&scrambled)));
    let margin = match budget {
        64 => 0,
        _ => distance - open(cells),
    };
    Answer {
        number: 0,
        place: 0,
        distance,
        margin,
    }
}

/// House matter: the cells of a line of 200 characters `0`, `1` and `?`; none if it is another line.
pub fn cells_of(line: &[u8]) -> Option<Vec<u8>> {
    let cells: Option<Vec<u8>> = line
        .iter()
        .map(|character| b"01?".iter().position(|known| known == character))
        .map(|cell| cell.map(|cell| cell as u8))
        .collect();
    cells.filter(|cells| cells.len() == CELLS)
}

/// House matter: what the program `nearest` prints for each line; false if the budget is refused.
pub fn lines(budget: u64, input: &mut impl BufRead, output: &mut impl Write) -> io::Result<bool> {
    let budget = usize::try_from(budget).unwrap_or(usize::MAX);
    if nearest(&[0; CELLS], &mut [0; FRAME], budget).number != 0 {
        return Ok(false);
    }
    for (number, line) in (1..).zip(input.split(b'\n')) {
        match cells_of(&line?) {
            None => writeln!(output, "REFUSED {number}")?,
            Some(cells) => {
                let mut frame = [0; FRAME];
                let answer = nearest(&cells, &mut frame, budget);
                for byte in frame {
                    write!(output, "{byte:02X}")?;
                }
                writeln!(output, " {} {}", answer.distance, answer.margin)?;
            }
        }
    }
    Ok(true)
}

/// Drawn cells: those of a drawn frame, up to 40 turned over and up to 40 unread; or all unread, or all drawn.
/// An unread cell is marked with any byte but 0 and 1.
pub fn drawn_cells(draw: &mut Draw) -> Vec<u8> {
    let mark = |draw: &mut Draw| 2 + draw.below(254) as u8;
    match draw.below(16) {
        0 => (0..CELLS).map(|_| mark(draw)).collect(),
        1 => draw.bytes(CELLS).iter().map(|byte| byte % 4).collect(),
        _ => {
            let frame = unpack(&draw.bytes(FRAME));
            let mut cells: Vec<u8> = encode(Rate::TwoFifths, &scramble(&frame))
                .into_iter()
                .map(u8::from)
                .collect();
            for _ in 0..draw.below(41) {
                let n = draw.below(CELLS as u64) as usize;
                cells[n] ^= 1;
            }
            for _ in 0..draw.below(41) {
                let n = draw.below(CELLS as u64) as usize;
                cells[n] = mark(draw);
            }
            cells
        }
    }
}

/// Drawn cells: lines for the program `nearest`, of which now and then one is bad.
pub fn drawn_lines(seed: u64, count: u64, output: &mut impl Write) -> io::Result<()> {
    let mut draw = Draw::new(seed);
    for _ in 0..count {
        let mut line: Vec<u8> = drawn_cells(&mut draw)
            .iter()
            .map(|&cell| b"01?"[usize::from(cell.min(2))])
            .collect();
        match draw.below(24) {
            0 => line.truncate(draw.below(CELLS as u64) as usize),
            1 => line.extend(std::iter::repeat_n(b'1', 1 + draw.below(300) as usize)),
            2 => line[draw.below(CELLS as u64) as usize] = b'2' + draw.below(13) as u8,
            _ => {}
        }
        line.push(b'\n');
        output.write_all(&line)?;
    }
    Ok(())
}
