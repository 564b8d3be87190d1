//! Document 02, S-7: from the cells of a symbol to the subcarriers, section 12.

use std::io::{self, Write};

use crate::draw::Draw;
use crate::modes::Mode;
use crate::packing::unpack;
use crate::run::Refusal;
use Matrix::{Pm, Px1, Px2};

/// The points of a vector, the subcarrier of the first, and the symbols of an L1 frame.
pub const POINTS: usize = 1_093;
const FIRST: i32 = -546;
const SYMBOLS: u64 = 512;

/// An interleaver matrix.
#[derive(Clone, Copy, Debug, PartialEq, Eq)]
enum Matrix {
    Pm,
    Px1,
    Px2,
}

/// A row of a table of data subcarriers: starting and ending subcarrier, matrix, partition, starting and ending column.
type Row = (i32, i32, Matrix, usize, usize, usize);

/// Tables 12-3 to 12-6, the rows of PM, which are the same in all four.
const MAIN: [Row; 20] = [
    (-545, -528, Pm, 0, 0, 35),
    (-526, -509, Pm, 1, 36, 71),
    (-507, -490, Pm, 2, 72, 107),
    (-488, -471, Pm, 3, 108, 143),
    (-469, -452, Pm, 4, 144, 179),
    (-450, -433, Pm, 5, 180, 215),
    (-431, -414, Pm, 6, 216, 251),
    (-412, -395, Pm, 7, 252, 287),
    (-393, -376, Pm, 8, 288, 323),
    (-374, -357, Pm, 9, 324, 359),
    (357, 374, Pm, 10, 360, 395),
    (376, 393, Pm, 11, 396, 431),
    (395, 412, Pm, 12, 432, 467),
    (414, 431, Pm, 13, 468, 503),
    (433, 450, Pm, 14, 504, 539),
    (452, 469, Pm, 15, 540, 575),
    (471, 488, Pm, 16, 576, 611),
    (490, 507, Pm, 17, 612, 647),
    (509, 526, Pm, 18, 648, 683),
    (528, 545, Pm, 19, 684, 719),
];

/// Table 12-4, the rows of PX.
const EXTENDED_MP2: [Row; 2] = [(-355, -338, Px1, 0, 0, 35), (338, 355, Px1, 1, 36, 71)];

/// Table 12-5, the rows of PX.
const EXTENDED_MP3: [Row; 4] = [
    (-355, -338, Px1, 0, 0, 35),
    (-336, -319, Px1, 1, 36, 71),
    (319, 336, Px1, 2, 72, 107),
    (338, 355, Px1, 3, 108, 143),
];

/// Table 12-6, the rows of PX.
const EXTENDED_MP11: [Row; 8] = [
    (-355, -338, Px1, 0, 0, 35),
    (-336, -319, Px1, 1, 36, 71),
    (-317, -300, Px2, 0, 0, 35),
    (-298, -281, Px2, 1, 36, 71),
    (281, 298, Px2, 2, 72, 107),
    (300, 317, Px2, 3, 108, 143),
    (319, 336, Px1, 2, 72, 107),
    (338, 355, Px1, 3, 108, 143),
];

/// Table 12-12: the subcarrier, and the column of R in MP1, MP2, MP3 and MP11.
const REFERENCE: [(i32, [Option<usize>; 4]); 30] = [
    (-546, [Some(0), Some(0), Some(0), Some(0)]),
    (-527, [Some(1), Some(1), Some(1), Some(1)]),
    (-508, [Some(2), Some(2), Some(2), Some(2)]),
    (-489, [Some(3), Some(3), Some(3), Some(3)]),
    (-470, [Some(4), Some(4), Some(4), Some(4)]),
    (-451, [Some(5), Some(5), Some(5), Some(5)]),
    (-432, [Some(6), Some(6), Some(6), Some(6)]),
    (-413, [Some(7), Some(7), Some(7), Some(7)]),
    (-394, [Some(8), Some(8), Some(8), Some(8)]),
    (-375, [Some(9), Some(9), Some(9), Some(9)]),
    (-356, [Some(10), Some(10), Some(10), Some(10)]),
    (-337, [None, Some(11), Some(11), Some(11)]),
    (-318, [None, None, Some(12), Some(12)]),
    (-299, [None, None, None, Some(13)]),
    (-280, [None, None, None, Some(14)]),
    (280, [None, None, None, Some(46)]),
    (299, [None, None, None, Some(47)]),
    (318, [None, None, Some(48), Some(48)]),
    (337, [None, Some(49), Some(49), Some(49)]),
    (356, [Some(50), Some(50), Some(50), Some(50)]),
    (375, [Some(51), Some(51), Some(51), Some(51)]),
    (394, [Some(52), Some(52), Some(52), Some(52)]),
    (413, [Some(53), Some(53), Some(53), Some(53)]),
    (432, [Some(54), Some(54), Some(54), Some(54)]),
    (451, [Some(55), Some(55), Some(55), Some(55)]),
    (470, [Some(56), Some(56), Some(56), Some(56)]),
    (489, [Some(57), Some(57), Some(57), Some(57)]),
    (508, [Some(58), Some(58), Some(58), Some(58)]),
    (527, [Some(59), Some(59), Some(59), Some(59)]),
    (546, [Some(60), Some(60), Some(60), Some(60)]),
];

/// What stands on a subcarrier: the columns of the I bit and the Q bit, a column of R, or nothing.
#[derive(Clone, Copy, Debug, PartialEq, Eq)]
enum Source {
    Pair(Matrix, usize, usize),
    Reference(usize),
    Unused,
}

/// Tables 12-3 to 12-6 and 12-12: what stands on each subcarrier from -546 to 546.
fn sources(mode: &Mode) -> [Source; POINTS] {
    let (extended, at): (&[Row], usize) = match mode.number {
        1 => (&[], 0),
        2 => (&EXTENDED_MP2, 1),
        3 => (&EXTENDED_MP3, 2),
        _ => (&EXTENDED_MP11, 3),
    };
    let mut sources = [Source::Unused; POINTS];
    for &(start, end, matrix, partition, from, to) in MAIN.iter().chain(extended) {
        assert_eq!((from, to), (36 * partition, 36 * partition + 35));
        for (subcarrier, column) in (start..=end).zip((from..=to).step_by(2)) {
            sources[(subcarrier - FIRST) as usize] = Source::Pair(matrix, column, column + 1);
        }
    }
    for (subcarrier, columns) in REFERENCE {
        if let Some(column) = columns[at] {
            sources[(subcarrier - FIRST) as usize] = Source::Reference(column);
        }
    }
    sources
}

/// Tables 12-1 and 12-2: a part of the constellation value of a bit, scaled.
fn part(bit: bool, scale: f32) -> f32 {
    match bit {
        true => scale,
        false => -scale,
    }
}

/// S-7: the L1 frame that is lent, with the symbol and the scales.
pub struct Mapping<'a> {
    pub mode: u64,
    pub symbol: u64,
    /// PM, PX1, PX2 and control.
    pub matrices: [&'a [u8]; 4],
    /// Of the lower and the upper sideband.
    pub scales: [f32; 2],
}

/// S-7: the first cause for which a vector is refused.
fn refusal(lent: &Mapping, parts: [usize; 2]) -> Option<Refusal> {
    let refused = |number, place| Some(Refusal { number, place });
    let Some(mode) = Mode::of_number(lent.mode).filter(|mode| [1, 2, 3, 11].contains(&mode.number))
    else {
        return refused(1, 0);
    };
    let given = lent.matrices.map(<[u8]>::len).into_iter().chain(parts);
    let asked = mode.matrix_lengths().into_iter().chain([POINTS; 2]);
    if let Some(place) = given.zip(asked).position(|(given, asked)| given != asked) {
        return refused(3, place);
    }
    if lent.symbol >= SYMBOLS {
        return refused(11, 0);
    }
    let bad = |scale: f32| !(scale.is_finite() && scale > 0.0);
    match lent.scales.into_iter().position(bad) {
        Some(place) => refused(12, place),
        None => None,
    }
}

/// Section 12.2: fills the vector of a symbol, unless it is refused.
pub fn fill(lent: &Mapping, re: &mut [f32], im: &mut [f32]) -> Result<(), Refusal> {
    if let Some(refusal) = refusal(lent, [re.len(), im.len()]) {
        return Err(refusal);
    }
    let mode = Mode::of_number(lent.mode).expect("a covered mode");
    let symbol = lent.symbol as usize;
    let rows = lent.matrices.map(|matrix| {
        let width = matrix.len() / SYMBOLS as usize;
        unpack(&matrix[symbol * width..][..width])
    });
    for (k, source) in sources(mode).into_iter().enumerate() {
        let scale = match (k as i32) + FIRST < 0 {
            true => lent.scales[0],
            false => lent.scales[1],
        };
        (re[k], im[k]) = match source {
            Source::Pair(matrix, i, q) => {
                let row = &rows[matrix as usize];
                (part(row[i], scale), part(row[q], scale))
            }
            Source::Reference(column) => {
                let bit = rows[3][column];
                (part(bit, scale), part(bit, scale))
            }
            Source::Unused => (0.0, 0.0),
        };
    }
    Ok(())
}

/// House matter: the single-precision number that a word gives exactly: one to three digits, then perhaps a point and one to sixteen.
pub fn scale_of(word: &str) -> Option<f32> {
    let (whole, fraction) = word.split_once('.').unwrap_or((word, "0"));
    let digits = |part: &str, most| {
        (1..=most).contains(&part.len()) && part.bytes().all(|byte| byte.is_ascii_digit())
    };
    if !digits(whole, 3) || !digits(fraction, 16) {
        return None;
    }
    let scale: f32 = word.parse().ok()?;
    // Printed with this many digits a number of single precision is exact if no digit is lost: it is then the word, but for zeros at either end.
    let back = format!("{:.160}", scale);
    let typed = format!("{whole}.{fraction}");
    (back.trim_matches('0') == typed.trim_matches('0')).then_some(scale)
}

/// House matter: a part of the vector in decimal digits, exactly.
fn written(part: f32) -> String {
    let digits = format!("{:.160}", part);
    digits
        .trim_end_matches('0')
        .trim_end_matches('.')
        .to_string()
}

/// House matter: the line of each subcarrier: its number, its parts, and what they come from.
pub fn lines(lent: &Mapping, output: &mut impl Write) -> io::Result<Result<(), Refusal>> {
    let (mut re, mut im) = ([0.0; POINTS], [0.0; POINTS]);
    if let Err(refusal) = fill(lent, &mut re, &mut im) {
        return Ok(Err(refusal));
    }
    let mode = Mode::of_number(lent.mode).expect("a covered mode");
    for ((source, subcarrier), (re, im)) in sources(mode).iter().zip(FIRST..).zip(re.iter().zip(im))
    {
        let source = match source {
            Source::Pair(matrix, i, _) => format!("{} {i}", ["PM", "PX1", "PX2"][*matrix as usize]),
            Source::Reference(column) => format!("R {column}"),
            Source::Unused => "-".to_string(),
        };
        writeln!(
            output,
            "{subcarrier} {} {} {source}",
            written(*re),
            written(im)
        )?;
    }
    Ok(Ok(()))
}

/// Words for a scale that are at the edge of what is taken, and of each sort that is not.
const EDGES: [&str; 40] = [
    "1",
    "0",
    "0.0",
    "000",
    "000.0000000000000000",
    "001",
    "1.0",
    "0.5",
    "0.50",
    "0.0000152587890625",
    "0.0000152587890624",
    "0.00001525878906250",
    "999.9999389648437500",
    "999",
    "1000",
    "0001",
    "511.9999847412109375",
    "255.9999847412109375",
    "256.0000152587890625",
    "255.99998474121093750",
    "0.1",
    "0.3",
    "0.005126953125",
    "1.",
    ".5",
    ".",
    "",
    "-1",
    "+1",
    "-0",
    "1e0",
    "NaN",
    "inf",
    "infinity",
    "0x1",
    "1 ",
    " 1",
    "1,5",
    "1.5.5",
    "1.5f",
];

/// Drawn scales: a number of single precision as it can be typed, with a zero or two at its ends, or a word of the edge.
pub fn drawn_scale(draw: &mut Draw) -> String {
    if draw.below(6) == 0 {
        return EDGES[draw.below(EDGES.len() as u64) as usize].to_string();
    }
    let below = 1u64 << (1 + draw.below(26));
    let scale = draw.below(below) as f64 / f64::from(1u32 << draw.below(17));
    let mut word = format!("{:.16}", scale);
    for _ in 0..draw.below(18) {
        if word.ends_with('0') && !word.ends_with(".0") {
            word.pop();
        }
    }
    word
}

/// Drawn scales: those of the edge, then drawn ones.
pub fn drawn_scales(seed: u64, count: u64, output: &mut impl Write) -> io::Result<()> {
    let mut draw = Draw::new(seed);
    for word in EDGES {
        writeln!(output, "{word}")?;
    }
    for _ in 0..count {
        writeln!(output, "{}", drawn_scale(&mut draw))?;
    }
    Ok(())
}
