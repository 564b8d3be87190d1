//! Document 02, S-9: the two paths of P1 in MP5 and MP6.

mod common;

use common::{done, drawn, refused, seed, sent, sent_of, started, turn_over, Buffers, Call};
use common::{DELAY, MATRICES, P1, P2, PM, PX2, TWO_PATHS};
use layer1::{Side, State};
use second::draw::Draw;

/// The places of the bits in which two buffers differ.
fn differences(a: &[u8], b: &[u8]) -> Vec<usize> {
    (0..8 * a.len())
        .filter(|n| (a[n / 8] ^ b[n / 8]) & (128 >> (n % 8)) != 0)
        .collect()
}

/// By hand: a frame that differs in its first bit differs at rate 2/5 in coded bits 0, 1, 2, 4 to 9, 12, 13 and 15 to 17, which go to these
/// partitions by Table 10-12. The first bit of U that is the frame's is in its partition's block 7 v modulo 16, and so are they all, with the
/// row and column of one k.
const PARTITIONS: [usize; 14] = [10, 2, 18, 14, 8, 16, 0, 12, 4, 19, 7, 9, 17, 1];

fn pm_cells(row: usize, column: usize) -> Vec<usize> {
    let cell = |v| (32 * (7 * v % 16) + row) * 720 + 36 * v + column;
    let mut cells = PARTITIONS.map(cell).to_vec();
    cells.sort();
    cells
}

/// By hand: at rate 1/2 it differs in coded bits 0, 1, 3, 4, 5, 6, 9, 10, 12 and 13, which go to these rows and columns of the frame's matrix
/// by Table 10-17 (MP5) and Table 10-19 (MP6).
#[rustfmt::skip]
const MP5_PX2: [(usize, usize); 10] =
    [(0, 0), (32, 0), (32, 36), (0, 72), (32, 72), (0, 108), (11, 11), (43, 47), (43, 83), (11, 83)];
#[rustfmt::skip]
const MP6_PX2: [(usize, usize); 10] =
    [(0, 0), (32, 36), (0, 72), (0, 144), (32, 180), (32, 252), (0, 36), (0, 108), (32, 144), (0, 180)];

/// The cells of P1' frame 5, of eight matrices of 64 rows.
fn px2_cells(columns: usize, points: [(usize, usize); 10]) -> Vec<usize> {
    let cell = |(row, column)| (64 * 5 + row) * columns + column;
    let mut cells = points.map(cell).to_vec();
    cells.sort();
    cells
}

/// Two runs that differ in the first bit of P1 frame 5, or of P2, of L1 frame 1: PM differs in L1 frame 1 alone, and for P1 PX2 in L1 frame 4
/// alone. Till then it waits in the delay memory, whose last third is the newest. By hand, k is 180 and 360 for P1 frame 5, 288 and 576 for P2.
#[test]
fn one_bit() {
    for (mode, bit, pm, px2) in [
        (5, (P1, 5 * 4_608), (28, 0), px2_cells(144, MP5_PX2)),
        (5, (P2, 0), (0, 1), vec![]),
        (6, (P1, 5 * 9_216), (24, 1), px2_cells(288, MP6_PX2)),
        (6, (P2, 0), (0, 2), vec![]),
    ] {
        let mut draw = Draw::new(seed() + u64::from(mode));
        let run = sent(&mut draw, mode, 6);
        let mut frames = run.clone();
        turn_over(&mut frames[1], &[bit]);
        let other = sent_of(&mut draw, mode, &frames);
        for (t, (one, other)) in run.iter().zip(&other).enumerate() {
            for place in PM..=DELAY {
                let expected = match (place, t) {
                    (PM, 1) => pm_cells(pm.0, pm.1),
                    (PX2, 4) => px2.clone(),
                    (DELAY, 1..=3) if bit.0 == P1 => vec![(3 - t) * 8 * one[P1].len() + bit.1],
                    _ => vec![],
                };
                let found = differences(&one[place], &other[place]);
                assert_eq!(found, expected, "place {place}, L1 frame {t} of MP{mode}");
            }
        }
    }
}

/// A reader that has read these L1 frames, and its state.
fn reader_after(draw: &mut Draw, mode: u8, run: &[Buffers]) -> (Buffers, State) {
    let mut reader = drawn(draw, Side::Reader, mode);
    let mut state = started(Side::Reader, mode, &mut reader);
    for frame in run {
        reader[MATRICES].clone_from_slice(&frame[MATRICES]);
        state = done(Call::Read, state, &mut reader);
    }
    (reader, state)
}

/// Another P1 frame in PM of L1 frame t, in one bit or in many, is accepted there and refused as 5 in L1 frame t + 3, where the paths disagree.
/// With the same one in PX2 they agree, and it is returned.
#[test]
fn other_frame() {
    for mode in TWO_PATHS {
        let mut draw = Draw::new(seed() + u64::from(mode));
        let run = sent(&mut draw, mode, 9);
        for (t, frame) in [(0, 7), (1, 0), (2, 4), (3, 1), (4, 6), (5, 3)] {
            let mut frames = run.clone();
            let bytes = frames[t][P1].len() / 8;
            let changed = &mut frames[t][P1][frame * bytes..][..bytes];
            match t % 2 {
                0 => changed[bytes - 1] ^= 1,
                _ => changed.copy_from_slice(&draw.bytes(bytes)),
            }
            let other = sent_of(&mut draw, mode, &frames);
            let mut disturbed = run[..t + 3].to_vec();
            disturbed[t][PM].clone_from(&other[t][PM]);

            let (mut reader, state) = reader_after(&mut draw, mode, &disturbed);
            reader[MATRICES].clone_from_slice(&run[t + 3][MATRICES]);
            let given = refused(Call::Read, state, &mut reader);
            assert_eq!(given, (5, frame as u32), "L1 frame {t} of MP{mode}");

            reader[PX2].clone_from(&other[t + 3][PX2]);
            done(Call::Read, state, &mut reader);
            assert!(reader[P1] == other[t][P1], "L1 frame {t} of MP{mode}");
        }
    }
}

/// Before age 3 a 1 in PX2 is refused as 7, even in coded frames that the delay memory would agree with; and with zeros in PX2 the delay
/// memory may hold anything.
#[test]
fn zeros_of_the_delay() {
    for mode in TWO_PATHS {
        let mut draw = Draw::new(seed() + u64::from(mode));
        let run = sent(&mut draw, mode, 4);
        let coded = &run[3][PX2];
        let cell = differences(coded, &vec![0; coded.len()])[0] as u32;
        let before = if mode == 5 { 442_368 } else { 368_640 };
        for t in 0..3 {
            let (mut reader, state) = reader_after(&mut draw, mode, &run[..t]);
            reader[MATRICES].clone_from_slice(&run[t][MATRICES]);
            reader[PX2].clone_from(coded);
            reader[DELAY].clone_from(&run[2][DELAY]);
            let given = refused(Call::Read, state, &mut reader);
            assert_eq!(given, (7, before + cell), "L1 frame {t} of MP{mode}");

            reader[PX2].fill(0);
            done(Call::Read, state, &mut reader);
        }
    }
}
