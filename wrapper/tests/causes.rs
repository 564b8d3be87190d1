//! The table of causes of documents 01 and 02, 4 to 8: readings of a run with bits turned over, and the number and place that the table
//! gives. Cause 9 is a sending's and stands in refusals.rs.

mod common;

use std::ops::{Range, RangeInclusive};

use common::{done, drawn, refused, seed, sent, started, turn_over, Bit, Call};
use common::{CONTROL, MATRICES, MODES, PM, PX1, PX2};
use layer1::Side;
use second::draw::Draw;

/// The bits that are turned over, the ages, and the number and place that the reading gives.
type Cause = (Vec<Bit>, RangeInclusive<u8>, u8, u32);

/// A cell of PM.
const fn pm(row: usize, column: usize) -> Bit {
    (PM, row * 720 + column)
}

/// The first bit of U, which is P1's, and its last, PIDS frame 0 bit 0 and frame 15 bit 199, where document 01's probe points have them.
const U_FIRST: Bit = pm(192, 360);
const U_LAST: Bit = pm(71, 206);
const PIDS_0: Bit = pm(18, 361);
const PIDS_15: Bit = pm(501, 208);

/// By hand, Table 11-1 and section 11.3: a bit of the sequence and the parity bit that follows it turned over turn the rows of the block from
/// the first on to before the second. Sequence bit 31 is row 0, so bits 7 and 0 are rows 24 and 31, 16 and 11 rows 15 and 20, 24 and 23 rows
/// 7 and 8: for the reserved number's weights 1, 2 and 4.
const WEIGHTS: [Range<usize>; 3] = [24..31, 15..20, 7..8];

/// These rows of a control block.
fn rows(block: usize, rows: Range<usize>) -> Vec<Bit> {
    rows.flat_map(|row| (0..61).map(move |column| (CONTROL, 2_048 * block + 64 * row + column)))
        .collect()
}

/// The number of these blocks changed by one weight.
fn other_number(weight: usize, blocks: &[usize]) -> Vec<Bit> {
    let changed = |&block: &usize| rows(block, WEIGHTS[weight].clone());
    blocks.iter().flat_map(changed).collect()
}

/// Document 02, S-2, in every mode at every age: blocks of another number than block 0's, and one whose parity does not follow.
fn numbers() -> Vec<Cause> {
    vec![
        (other_number(0, &[1]), 0..=3, 4, 1),
        (other_number(1, &[8]), 0..=3, 4, 8),
        (other_number(2, &[15]), 0..=3, 4, 15),
        (other_number(0, &[12, 4]), 0..=3, 4, 4),
        (other_number(1, &[0]), 0..=3, 4, 1),
        (other_number(2, &[0, 1]), 0..=3, 4, 2),
        (other_number(0, &[0, 1, 2, 4]), 0..=3, 4, 3),
        (
            [other_number(0, &[9]), vec![(CONTROL, 32_767)]].concat(),
            0..=3,
            4,
            9,
        ),
        ([other_number(1, &[2]), vec![U_FIRST]].concat(), 0..=3, 4, 2),
        (rows(0, 24..32), 0..=3, 4, 0),
        (rows(7, 15..32), 0..=3, 4, 7),
        (rows(11, 7..32), 0..=3, 4, 11),
    ]
}

/// In every mode at every age; U's last bit is P1's, or P2's.
fn every(last: u32) -> Vec<Cause> {
    vec![
        (vec![(CONTROL, 0)], 0..=3, 4, 0),
        (vec![(CONTROL, 32_767)], 0..=3, 4, 15),
        (vec![(CONTROL, 0), (CONTROL, 32_767)], 0..=3, 4, 0),
        (vec![(CONTROL, 32_767), U_FIRST], 0..=3, 4, 15),
        (vec![U_FIRST], 0..=3, 5, 0),
        (vec![U_FIRST, U_LAST], 0..=3, 5, 0),
        (vec![U_FIRST, PIDS_0], 0..=3, 5, 0),
        (vec![U_LAST], 0..=3, 5, last),
        (vec![U_LAST, PIDS_0], 0..=3, 5, last),
        (vec![PIDS_0], 0..=3, 6, 0),
        (vec![PIDS_15], 0..=3, 6, 15),
        (vec![PIDS_0, PIDS_15], 0..=3, 6, 0),
    ]
}

/// In a mode with P3 (PX1) or P4 (PX2): how many cells are counted before the matrix, and the place of frame 0. By hand, section 10.2.6: cell n
/// of the first row is partition 0's entry e of block 0, in half 0, with 11 e = n modulo 1,152; half 1 is the same, 16 blocks on. Cell 1 has
/// e = 33,827, of the other half. Cells 6 and 21 have 16,338 and 1,887, of this half and frames 7 and 0, written after the cell is read: it
/// shows the L1 frame two earlier.
fn extended(matrix: usize, before: u32, frames: u32) -> Vec<Cause> {
    let (px_1, px_6, px_21) = ((matrix, 1), (matrix, 6), (matrix, 21));
    vec![
        (vec![px_1], 0..=0, 7, before + 1),
        (vec![px_6], 0..=1, 7, before + 6),
        (vec![px_21], 0..=1, 7, before + 21),
        (vec![px_21, px_6], 0..=1, 7, before + 6),
        (vec![px_6], 2..=3, 8, frames + 7),
        (vec![px_21], 2..=3, 8, frames),
        (vec![px_21, px_6], 2..=3, 8, frames),
        (vec![px_6, PIDS_15], 0..=3, 6, 15),
    ]
}

/// P3 comes before P4.
fn mp11() -> Vec<Cause> {
    vec![
        (vec![(PX1, 21), (PX2, 1)], 0..=0, 7, 21),
        (vec![(PX1, 21), (PX2, 6)], 0..=1, 7, 21),
        (vec![(PX1, 6), (PX2, 21)], 2..=2, 8, 7),
    ]
}

/// A mode with P1 on two paths: the first coded bits of P1 frames 1 and 7 and of P2 in PM, the cells of a P1' frame in PX2, and how many
/// cells are counted before PX2's.
struct TwoPaths {
    p1_1: Bit,
    p1_7: Bit,
    p2: Bit,
    frame: usize,
    before: u32,
}

/// By hand, Table 10-12: U's bits 11,520, 80,640 and 92,160 are in partition 10, block 6; k is 36, 252 and 288.
const MP5: TwoPaths = TwoPaths {
    p1_1: pm(204, 360),
    p1_7: pm(212, 360),
    p2: pm(192, 361),
    frame: 9_216,
    before: 442_368,
};

/// Likewise 23,040, 161,280 and 184,320; k is 72, 504 and 576.
const MP6: TwoPaths = TwoPaths {
    p1_1: pm(216, 360),
    p1_7: pm(200, 361),
    p2: pm(192, 362),
    frame: 18_432,
    before: 368_640,
};

impl TwoPaths {
    fn causes(&self) -> Vec<Cause> {
        let (p1_1, p1_7, p2) = (self.p1_1, self.p1_7, self.p2);
        let [first, second, last] = [0, self.frame, 8 * self.frame - 1].map(|cell| (PX2, cell));
        vec![
            (vec![p1_1], 0..=3, 5, 1),
            (vec![p1_7], 0..=3, 5, 7),
            (vec![p2], 0..=3, 5, 8),
            (vec![p2, p1_7], 0..=3, 5, 7),
            (vec![p1_7, p1_1], 0..=3, 5, 1),
            (vec![first], 0..=2, 7, self.before),
            (vec![second], 0..=2, 7, self.before + self.frame as u32),
            (vec![last], 0..=2, 7, 516_095),
            (vec![last, first], 0..=2, 7, self.before),
            (vec![last, PIDS_0], 0..=2, 6, 0),
            (vec![last, p2], 0..=2, 5, 8),
            (vec![second, p1_7], 0..=2, 5, 7),
            (vec![first], 3..=3, 5, 0),
            (vec![second], 3..=3, 5, 1),
            (vec![last], 3..=3, 5, 7),
            (vec![last, second], 3..=3, 5, 1),
            (vec![last, PIDS_0], 3..=3, 5, 7),
            (vec![last, p2], 3..=3, 5, 7),
            (vec![second, p1_7], 3..=3, 5, 1),
            (vec![last, p1_1], 0..=3, 5, 1),
            (vec![first, (CONTROL, 32_767)], 0..=3, 4, 15),
        ]
    }
}

/// P3 beside PX2's second path.
fn mp5() -> Vec<Cause> {
    vec![
        (vec![(PX1, 6), (PX2, 0)], 0..=1, 7, 368_646),
        (vec![(PX1, 6), (PX2, 0)], 2..=2, 7, 442_368),
        (vec![(PX1, 6), (PX2, 73_727)], 3..=3, 5, 7),
    ]
}

fn causes(mode: u8) -> Vec<Cause> {
    let all = match mode {
        1 => vec![every(0), numbers()],
        2 | 3 => vec![every(0), numbers(), extended(PX1, 0, 0)],
        5 => vec![
            every(8),
            numbers(),
            MP5.causes(),
            extended(PX1, 368_640, 0),
            mp5(),
        ],
        6 => vec![every(8), numbers(), MP6.causes()],
        _ => vec![
            every(0),
            numbers(),
            extended(PX1, 0, 0),
            extended(PX2, 73_728, 8),
            mp11(),
        ],
    };
    all.concat()
}

/// Each cause with its place at each age, refused readings between accepted ones.
#[test]
fn table() {
    for mode in MODES {
        let mut draw = Draw::new(seed() + u64::from(mode));
        let sent = sent(&mut draw, mode, 5);
        let mut reader = drawn(&mut draw, Side::Reader, mode);
        let mut state = started(Side::Reader, mode, &mut reader);
        for (t, frame) in sent.iter().enumerate() {
            reader[MATRICES].clone_from_slice(&frame[MATRICES]);
            for (bits, ages, number, place) in causes(mode) {
                if ages.contains(&state.age) {
                    turn_over(&mut reader, &bits);
                    let given = refused(Call::Read, state, &mut reader);
                    let what = format!("{bits:?} in L1 frame {t} of MP{mode}");
                    assert_eq!(given, (number, place), "{what}");
                    turn_over(&mut reader, &bits);
                }
            }
            state = done(Call::Read, state, &mut reader);
        }
    }
}

/// Control of one other number is another L1 frame and no cause: each weight alone and all three, changed in all sixteen blocks, change the
/// number that the reading returns by as much, and nothing else.
#[test]
fn other_numbers() {
    for mode in MODES {
        let mut draw = Draw::new(seed() + u64::from(mode));
        let sent = sent(&mut draw, mode, 4);
        let mut reader = drawn(&mut draw, Side::Reader, mode);
        let mut state = started(Side::Reader, mode, &mut reader);
        for (frame, change) in sent.iter().zip([1, 2, 4, 7]) {
            reader[MATRICES].clone_from_slice(&frame[MATRICES]);
            let (mut undisturbed, before) = (reader.clone(), state);
            let all: Vec<usize> = (0..16).collect();
            for weight in (0..3).filter(|weight| change >> weight & 1 == 1) {
                turn_over(&mut reader, &other_number(weight, &all));
            }
            state = done(Call::Read, before, &mut reader);
            assert_eq!(state.reserved, frame.reserved ^ change, "MP{mode}");
            done(Call::Read, before, &mut undisturbed);
            undisturbed[CONTROL].clone_from(&reader[CONTROL]);
            assert!(reader == undisturbed, "MP{mode}");
        }
    }
}

/// The first bit of P3 or P4 frame 0 of L1 frame 0 or 1, turned over, is judged when the second one after it has come.
#[test]
fn judged_late() {
    for (mode, matrix, place) in [
        (2, PX1, 0),
        (3, PX1, 0),
        (5, PX1, 0),
        (11, PX1, 0),
        (11, PX2, 8),
    ] {
        let mut draw = Draw::new(seed());
        let sent = sent(&mut draw, mode, 4);
        for hit in 0..2 {
            let mut reader = drawn(&mut draw, Side::Reader, mode);
            let mut state = started(Side::Reader, mode, &mut reader);
            for (t, frame) in sent.iter().enumerate().take(hit + 3) {
                reader[MATRICES].clone_from_slice(&frame[MATRICES]);
                if t == hit {
                    turn_over(&mut reader, &[(matrix, 0)]);
                }
                if t == hit + 2 {
                    let given = refused(Call::Read, state, &mut reader);
                    assert_eq!(given, (8, place), "L1 frame {t} of MP{mode}");
                } else {
                    state = done(Call::Read, state, &mut reader);
                }
            }
        }
    }
}
