//! Document 02, S-11: the PIDS frame that fits the cells that were read, as linear equations modulo 2.

use std::io::{self, BufRead, Write};

use crate::coding::{encode, Rate};
use crate::draw::Draw;
use crate::nearest::cells_of;
use crate::packing::{pack, unpack};
use crate::run::Refusal;
use crate::scrambling::scramble;

/// The bits, the coded bits and the bytes of a PIDS frame.
const BITS: usize = 80;
pub const CELLS: usize = 200;
pub const FRAME: usize = 10;

/// An equation: the modulo 2 sum of the scrambled bits at the ones of `bits` is `sum`.
#[derive(Clone, Copy)]
struct Equation {
    bits: u128,
    sum: bool,
}

/// Equations that have been brought into steps: the one at n has n as its highest bit.
pub struct Steps([Option<Equation>; BITS]);

/// What an equation says beside the ones before it.
#[derive(Clone, Copy, Debug, PartialEq, Eq)]
pub enum Says {
    More,
    Nothing,
    Contradiction,
}

impl Steps {
    /// S-11: no cell read.
    pub fn none() -> Steps {
        Steps([None; BITS])
    }

    /// S-11: one equation more. Those that are there are added to it until its highest bit is a new one, or none is left.
    fn add(&mut self, mut equation: Equation) -> Says {
        while equation.bits != 0 {
            let highest = equation.bits.ilog2() as usize;
            match self.0[highest] {
                None => {
                    self.0[highest] = Some(equation);
                    return Says::More;
                }
                Some(step) => {
                    equation.bits ^= step.bits;
                    equation.sum ^= step.sum;
                }
            }
        }
        match equation.sum {
            true => Says::Contradiction,
            false => Says::Nothing,
        }
    }

    /// S-11: a cell that was read.
    pub fn read(&mut self, code: &Code, cell: usize, bit: bool) -> Says {
        let equation = Equation {
            bits: code.0[cell],
            sum: bit,
        };
        self.add(equation)
    }

    /// S-11: the scrambled bits, lowest first; none if more than one choice is left.
    fn solved(&self) -> Option<u128> {
        let mut bits = 0u128;
        for (n, step) in self.0.iter().enumerate() {
            let Equation { bits: of, sum } = (*step)?;
            let rest = (of & bits).count_ones() % 2 == 1;
            bits |= u128::from(sum ^ rest) << n;
        }
        Some(bits)
    }
}

/// The scrambled bits whose sum each coded bit is.
pub struct Code([u128; CELLS]);

impl Code {
    /// Section 9.3: the coding of a frame is the sum of the codings of its ones.
    pub fn of_pids() -> Code {
        let mut code = [0; CELLS];
        for n in 0..BITS {
            let frame: Vec<bool> = (0..BITS).map(|bit| bit == n).collect();
            for (cell, bit) in encode(Rate::TwoFifths, &frame).into_iter().enumerate() {
                code[cell] |= u128::from(bit) << n;
            }
        }
        Code(code)
    }
}

/// S-11: the whole call; the buffer is left alone when it is refused.
pub fn restore(code: &Code, cells: &[u8], frame: &mut [u8]) -> Result<(), Refusal> {
    let refused = |number, place| Err(Refusal { number, place });
    if cells.len() != CELLS {
        return refused(3, 0);
    }
    if frame.len() != FRAME {
        return refused(3, 1);
    }
    let mut steps = Steps::none();
    for (n, &cell) in cells.iter().enumerate().filter(|(_, &cell)| cell < 2) {
        if steps.read(code, n, cell == 1) == Says::Contradiction {
            return refused(14, 0);
        }
    }
    let Some(bits) = steps.solved() else {
        return refused(15, 0);
    };
    let scrambled: Vec<bool> = (0..BITS).map(|n| bits >> n & 1 == 1).collect();
    frame.copy_from_slice(&pack(&scramble(&scrambled)));
    Ok(())
}

/// House matter: what the program `restore` prints for each line.
pub fn lines(input: &mut impl BufRead, output: &mut impl Write) -> io::Result<()> {
    let code = Code::of_pids();
    for (number, line) in (1..).zip(input.split(b'\n')) {
        let Some(cells) = cells_of(&line?) else {
            writeln!(output, "REFUSED {number}")?;
            continue;
        };
        let mut frame = [0; FRAME];
        match restore(&code, &cells, &mut frame) {
            Ok(()) => {
                let digits: String = frame.iter().map(|byte| format!("{byte:02X}")).collect();
                writeln!(output, "{digits}")?;
            }
            Err(Refusal { number: 14, .. }) => writeln!(output, "NO FRAME FITS")?,
            Err(_) => writeln!(output, "SEVERAL FRAMES FIT")?,
        }
    }
    Ok(())
}

/// Drawn cells: a mark of an unread cell, any byte but 0 and 1.
fn mark(draw: &mut Draw) -> u8 {
    2 + draw.below(254) as u8
}

/// Drawn cells: the numbers of the cells in a drawn order.
fn order(draw: &mut Draw) -> Vec<usize> {
    let mut order: Vec<usize> = (0..CELLS).collect();
    for last in (1..CELLS).rev() {
        order.swap(last, draw.below(last as u64 + 1) as usize);
    }
    order
}

/// Drawn cells: those of a drawn frame, all read.
pub fn drawn_frame(draw: &mut Draw) -> Vec<u8> {
    let frame = unpack(&draw.bytes(FRAME));
    let coded = encode(Rate::TwoFifths, &scramble(&frame));
    coded.into_iter().map(u8::from).collect()
}

/// Drawn cells: these, with so many of them unread: scattered, or a gap.
pub fn unread(draw: &mut Draw, cells: &[u8], count: usize) -> Vec<u8> {
    let gone = match draw.below(2) {
        0 => order(draw),
        _ => {
            let first = draw.below(CELLS as u64) as usize;
            (first..first + CELLS).map(|n| n % CELLS).collect()
        }
    };
    let mut cells = cells.to_vec();
    for n in gone.into_iter().take(count) {
        cells[n] = mark(draw);
    }
    cells
}

/// Drawn cells: these, with one of the read ones turned over, if there is one.
pub fn one_wrong(draw: &mut Draw, cells: &[u8]) -> Vec<u8> {
    let read: Vec<usize> = (0..CELLS).filter(|&n| cells[n] < 2).collect();
    let mut cells = cells.to_vec();
    if !read.is_empty() {
        cells[read[draw.below(read.len() as u64) as usize]] ^= 1;
    }
    cells
}

/// Drawn cells at the border of one frame and several: 80 drawn bits that fit one frame whatever they are, and the same with one of them unread.
pub fn border(draw: &mut Draw, code: &Code) -> [Vec<u8>; 2] {
    let mut steps = Steps::none();
    let mut cells: Vec<u8> = (0..CELLS).map(|_| mark(draw)).collect();
    let mut last = 0;
    for n in order(draw) {
        let bit = draw.below(2) == 1;
        if steps.read(code, n, bit) == Says::More {
            cells[n] = u8::from(bit);
            last = n;
        }
    }
    let mut fewer = cells.clone();
    fewer[last] = mark(draw);
    [cells, fewer]
}

/// Drawn cells: lines for the program `restore`. Every count of unread cells, right and with one cell wrong; the border; bad lines.
pub fn drawn_lines(seed: u64, output: &mut impl Write) -> io::Result<()> {
    let mut draw = Draw::new(seed);
    let code = Code::of_pids();
    let mut all = Vec::new();
    for count in 0..=CELLS {
        let cells = drawn_frame(&mut draw);
        let cells = unread(&mut draw, &cells, count);
        all.push(one_wrong(&mut draw, &cells));
        all.push(cells);
    }
    for _ in 0..100 {
        all.extend(border(&mut draw, &code));
    }
    for cells in all {
        let mut line: Vec<u8> = cells
            .iter()
            .map(|&cell| b"01?"[usize::from(cell.min(2))])
            .collect();
        match draw.below(40) {
            0 => line.truncate(draw.below(CELLS as u64) as usize),
            1 => line.extend(std::iter::repeat_n(b'?', 1 + draw.below(300) as usize)),
            2 => line[draw.below(CELLS as u64) as usize] = b'2' + draw.below(13) as u8,
            _ => {}
        }
        line.push(b'\n');
        output.write_all(&line)?;
    }
    Ok(())
}
