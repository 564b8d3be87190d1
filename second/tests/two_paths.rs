//! Document 02, S-9: MP5 and MP6, their sizes, probe points and refusals, worked out by hand from
//! the tables of SY_IDD_1011s.

mod common;

use common::{reader_after, refused_reading, sent_run, Buffers, NEWER};
use common::{CONTROL, DELAY, P1, P2, P3, PM, PX1, PX2};
use second::coding::{encode, Rate};
use second::interleaving::{interleaver_one, interleaver_two, Partitions};
use second::interleaving::{PX2_MP5, PX2_MP6, PX_MP3_MP11};
use second::modes::Mode;
use second::packing::{flip, pack, unpack};
use second::run::{Side, State};
use second::scrambling::scramble;

/// Cells of PM, 512 rows of 720.
const PM_CELLS: usize = 368_640;

/// What the tests need of a mode, from Tables 7-7, 7-8, 10-5 and 10-6.
struct Sizes {
    mode: u64,
    /// Bits of a P1 frame, and its coded bits in PM and in PX2.
    p1: usize,
    coded: usize,
    delayed: usize,
    /// Cells of PX1 and columns of PX2.
    px1: usize,
    columns: usize,
    px2: &'static Partitions,
}

static SIZES: [Sizes; 2] = [
    Sizes {
        mode: 5,
        p1: 4_608,
        coded: 11_520,
        delayed: 9_216,
        px1: 73_728,
        columns: 144,
        px2: &PX2_MP5,
    },
    Sizes {
        mode: 6,
        p1: 9_216,
        coded: 23_040,
        delayed: 18_432,
        px1: 0,
        columns: 288,
        px2: &PX2_MP6,
    },
];

impl Sizes {
    /// The place in PX2 of coded bit i of a P1' frame.
    fn px2_cell(&self, frame: usize, i: usize) -> usize {
        frame * self.delayed + self.px2.interleaver_one(i)
    }

    /// The place in PM of coded bit i of a P1 frame.
    fn pm_cell(&self, frame: usize, i: usize) -> usize {
        interleaver_one(frame * self.coded + i)
    }

    /// Puts another coded P1 frame into PM: the scrambled frame differs in these bits.
    fn turn_in_pm(&self, buffers: &mut Buffers, frame: usize, difference: &[bool]) {
        for (i, turned) in encode(Rate::TwoFifths, difference).into_iter().enumerate() {
            if turned {
                flip(&mut buffers.0[PM], self.pm_cell(frame, i));
            }
        }
    }

    /// Puts another coded P1' frame into PX2: the scrambled frame differs in these bits.
    fn turn_in_px2(&self, buffers: &mut Buffers, frame: usize, difference: &[bool]) {
        for (i, turned) in encode(Rate::OneHalf, difference).into_iter().enumerate() {
            if turned {
                flip(&mut buffers.0[PX2], self.px2_cell(frame, i));
            }
        }
    }

    /// A scrambled frame's difference of one bit.
    fn one_bit(&self, bit: usize) -> Vec<bool> {
        (0..self.p1).map(|n| n == bit).collect()
    }
}

/// The lengths of P1, PIDS, P2, P3, P4, PM, PX1, PX2 and control, by mode.
const LENT: [(u64, [usize; 9]); 6] = [
    (1, [18_272, 160, 0, 0, 0, 46_080, 0, 0, 4_096]),
    (2, [18_272, 160, 0, 2_304, 0, 46_080, 4_608, 0, 4_096]),
    (3, [18_272, 160, 0, 4_608, 0, 46_080, 9_216, 0, 4_096]),
    (
        5,
        [4_608, 160, 13_664, 4_608, 0, 46_080, 9_216, 9_216, 4_096],
    ),
    (6, [9_216, 160, 9_056, 0, 0, 46_080, 0, 18_432, 4_096]),
    (
        11,
        [18_272, 160, 0, 4_608, 4_608, 46_080, 9_216, 9_216, 4_096],
    ),
];

/// The sender's and the reader's memory for P3 and for P4, and the delay memory, by mode.
const MEMORIES: [([usize; 3], [usize; 3]); 6] = [
    ([0, 0, 0], [0, 0, 0]),
    ([9_216, 0, 0], [13_824, 0, 0]),
    ([18_432, 0, 0], [27_648, 0, 0]),
    ([18_432, 0, 13_824], [27_648, 0, 13_824]),
    ([0, 0, 27_648], [0, 0, 27_648]),
    ([18_432, 18_432, 0], [27_648, 27_648, 0]),
];

/// Documents 01 and 02, lent lengths: all twelve of both sides, in six modes.
#[test]
fn lengths() {
    for ((number, lent), (sender, reader)) in LENT.into_iter().zip(MEMORIES) {
        let mode = Mode::of_number(number).unwrap();
        for (side, memories) in [(Side::Sender, sender), (Side::Reader, reader)] {
            let expected = [&lent[..], &memories[..]].concat();
            assert_eq!(side.lengths(mode), expected, "MP{number}");
        }
    }
}

/// Figure 10-5 and Table 10-12, by hand: U has P1 frame 1 from bit 11,520 (MP5) or 23,040 (MP6) on
/// and P2 from 92,160 or 184,320 on. Bit 92,160 goes to partition v[0] = 10, block
/// (4,608 + 70) mod 16 = 6, k = 288, row 0 and column 0 + 1; the others likewise.
#[test]
fn pm_cells_by_hand() {
    for (i, row, column) in [
        (11_520, 204, 360),
        (92_159, 85, 205),
        (92_160, 192, 361),
        (23_041, 472, 72),
        (184_320, 192, 362),
        (365_439, 71, 206),
    ] {
        assert_eq!(interleaver_one(i), row * 720 + column);
    }
}

/// Tables 10-17 and 10-19, by hand: coded bit i of a P1' frame, row and column of its matrix. In MP5
/// bit 8 has partition 0, block (8 + 1) mod 2 = 1 and k = 1; in MP6 bit 2 has partition v[2] = 3,
/// block (0 + 21) mod 2 = 1 and k = 0. The last bits have k = 1,151: row 21, column 25 + 3.
#[test]
fn px2_cells_by_hand() {
    let mp5 = [
        (0, 0, 0),
        (1, 32, 0),
        (2, 0, 36),
        (8, 43, 11),
        (9, 11, 11),
        (2_304, 0, 1),
        (9_215, 21, 136),
    ];
    let mp6 = [
        (0, 0, 0),
        (1, 32, 36),
        (2, 32, 108),
        (3, 0, 72),
        (6, 32, 252),
        (8, 32, 0),
        (16, 11, 11),
        (18_431, 53, 244),
    ];
    for (sizes, points) in SIZES.iter().zip([&mp5[..], &mp6[..]]) {
        for &(i, row, column) in points {
            let cell = row * sizes.columns + column;
            assert_eq!(sizes.px2.interleaver_one(i), cell, "MP{} {i}", sizes.mode);
        }
    }
}

/// Section 10.2.3: each cell of PX2 is written once.
#[test]
fn every_px2_cell_once() {
    for sizes in &SIZES {
        assert_eq!(sizes.px2.bits(), sizes.delayed);
        let mut written = vec![0; sizes.delayed];
        for cell in (0..sizes.delayed).map(|i| sizes.px2.interleaver_one(i)) {
            written[cell] += 1;
        }
        assert!(written.iter().all(|&times| times == 1));
    }
}

/// Frames that scramble to zeros, which code to zeros: the buffers of a sender that send nothing
/// but zero cells.
fn silent_sender(mode: u64) -> Buffers {
    let mut sender = Buffers::new(Side::Sender, mode, 0);
    for (place, frames) in [(P1, 8), (P2, 1), (common::PIDS, 16), (P3, 8)] {
        let bits = 8 * sender.0[place].len() / frames;
        let silent: Vec<bool> = (0..frames)
            .flat_map(|_| scramble(&vec![false; bits]))
            .collect();
        sender.0[place] = pack(&silent);
    }
    sender
}

/// The places of the ones in packed bits.
fn ones(bytes: &[u8]) -> Vec<usize> {
    let bits = unpack(bytes);
    (0..bits.len()).filter(|&n| bits[n]).collect()
}

/// Sections 9.3 and 10.2.3, by hand: a 1 at the first bit of a scrambled P1' frame, alone, codes at
/// rate 1/2 to ones at coded bits 0, 1, 3, 4, 5, 6, 9, 10, 12 and 13, which stand in these rows and
/// columns of its matrix, in MP5 and in MP6.
const FIRST_BIT: [[(usize, usize); 10]; 2] = [
    [
        (0, 0),
        (0, 72),
        (0, 108),
        (11, 11),
        (11, 83),
        (32, 0),
        (32, 36),
        (32, 72),
        (43, 47),
        (43, 83),
    ],
    [
        (0, 0),
        (0, 36),
        (0, 72),
        (0, 108),
        (0, 144),
        (0, 180),
        (32, 36),
        (32, 144),
        (32, 180),
        (32, 252),
    ],
];

/// Section 9.2: the first bit of scrambled P1 frame 5 of L1 frame 1 is 1, and no other bit of the
/// run. It waits in the delay memory, oldest third first, and shows in PX2 of L1 frame 4 alone.
#[test]
fn delay_of_three() {
    for (sizes, cells) in SIZES.iter().zip(FIRST_BIT) {
        let bit = 5 * sizes.p1;
        let cells = cells.map(|(row, column)| (64 * 5 + row) * sizes.columns + column);
        let mut sender = silent_sender(sizes.mode);
        let mut state = sender.start(Side::Sender, sizes.mode).state;
        for t in 0..7 {
            if t == 1 || t == 2 {
                flip(&mut sender.0[P1], bit);
            }
            state = sender.send(state).state;
            let shown = if t == 4 { &cells[..] } else { &[] };
            assert_eq!(ones(&sender.0[PX2]), shown, "MP{} {t}", sizes.mode);
            assert_eq!(ones(&sender.0[PX1]), []);
            let waiting = match t {
                1..=3 => vec![(3 - t) * 8 * sizes.p1 + bit],
                _ => Vec::new(),
            };
            assert_eq!(ones(&sender.0[DELAY]), waiting, "MP{} {t}", sizes.mode);
        }
    }
}

/// Figure 10-5, by hand: a 1 at the first bit of scrambled P1 frame 1, or of P2, alone: its first
/// three coded bits are ones, of fourteen. In MP5 they stand at U's bits 11,520 to 11,522 or 92,160
/// to 92,162: partitions 10, 2 and 18, blocks 6, 14 and 14, k = 36 or 288. In MP6 k = 72 or 576.
#[test]
fn pm_bits_by_hand() {
    let points = [
        (5, P1, 4_608, [(204, 360), (460, 72), (460, 648)]),
        (5, P2, 0, [(192, 361), (448, 73), (448, 649)]),
        (6, P1, 9_216, [(216, 360), (472, 72), (472, 648)]),
        (6, P2, 0, [(192, 362), (448, 74), (448, 650)]),
    ];
    for (mode, channel, bit, cells) in points {
        let mut sender = silent_sender(mode);
        let state = sender.start(Side::Sender, mode).state;
        flip(&mut sender.0[channel], bit);
        assert_eq!(sender.send(state).number, 0);
        let shown = ones(&sender.0[PM]);
        assert_eq!(shown.len(), 14);
        for (row, column) in cells {
            assert!(
                shown.contains(&(row * 720 + column)),
                "MP{mode} {row} {column}"
            );
        }
    }
}

/// A reader before each of six L1 frames of a run, ages 0, 1, 2, 3, 3 and 3, holding that L1 frame.
fn readers(mode: u64, sent: &[Buffers]) -> Vec<(usize, Buffers, State)> {
    let before = |t: usize| {
        let (mut reader, state) = reader_after(mode, &sent[..t]);
        assert_eq!(state.age, t.min(3) as u64);
        reader.take_matrices(&sent[t]);
        (t, reader, state)
    };
    (0..6).map(before).collect()
}

/// Refusals 5 and 6 in PM at every age: P1 frames 0 to 7, then P2 as 8, then PIDS.
#[test]
fn damage_in_pm() {
    for sizes in &SIZES {
        let sent = sent_run(sizes.mode, 40 + sizes.mode, 6);
        for (t, reader, state) in readers(sizes.mode, &sent) {
            let refused = |cells: &[usize]| {
                let mut reader = reader.clone();
                cells.iter().for_each(|&cell| flip(&mut reader.0[PM], cell));
                refused_reading(&mut reader, state)
            };
            let p2 = interleaver_one(8 * sizes.coded + 77 * t);
            let pids = interleaver_two(2_000 + 33 * t);
            for frame in 0..8 {
                let cell = sizes.pm_cell(frame, 1_000 * t);
                assert_eq!(refused(&[pids, p2, cell]), (5, frame));
                assert_eq!(refused(&[sizes.pm_cell(7, 5), cell]), (5, frame));
            }
            assert_eq!(refused(&[interleaver_one(365_439)]), (5, 8));
            assert_eq!(refused(&[pids, p2]), (5, 8));
            assert_eq!(refused(&[pids]), (6, 10));
        }
    }
}

/// Damage in PX2 by hand: coded bit 8 of frame 3 in MP5 stands at 3 * 9,216 + 43 * 144 + 11, behind
/// PM's 368,640 cells and PX1's 73,728; coded bit 2 of frame 3 in MP6 at 3 * 18,432 + 32 * 288 + 108.
/// A 1 there is refused as 7 at ages 0 to 2, and the frame as 5 at age 3.
#[test]
fn damage_in_px2() {
    for (sizes, bit, place) in [(&SIZES[0], 8, 476_219), (&SIZES[1], 2, 433_260)] {
        let sent = sent_run(sizes.mode, 50 + sizes.mode, 6);
        for (t, mut reader, state) in readers(sizes.mode, &sent) {
            let pids = interleaver_two(199);
            flip(&mut reader.0[PX2], sizes.px2_cell(3, bit));
            let early = t < 3;
            let alone = if early { (7, place) } else { (5, 3) };
            assert_eq!(refused_reading(&mut reader, state), alone);
            flip(&mut reader.0[PM], pids);
            let with_pids = if early { (6, 0) } else { (5, 3) };
            assert_eq!(refused_reading(&mut reader, state), with_pids);
            flip(&mut reader.0[PM], interleaver_one(300_000));
            let with_p2 = if early { (5, 8) } else { (5, 3) };
            assert_eq!(refused_reading(&mut reader, state), with_p2);
            flip(&mut reader.0[PM], sizes.pm_cell(5, 0));
            let with_p1 = if early { (5, 5) } else { (5, 3) };
            assert_eq!(refused_reading(&mut reader, state), with_p1);
            flip(&mut reader.0[PM], sizes.pm_cell(1, 0));
            assert_eq!(refused_reading(&mut reader, state), (5, 1));
            flip(&mut reader.0[CONTROL], 2_048 * 7);
            assert_eq!(refused_reading(&mut reader, state), (4, 7));
        }
    }
}

/// A whole coded frame in PX2: before the delay is over the lowest of its ones is refused as 7,
/// whatever the delay memory holds; then the frame disagrees.
#[test]
fn another_frame_in_px2() {
    for sizes in &SIZES {
        let sent = sent_run(sizes.mode, 60 + sizes.mode, 6);
        for (t, mut reader, state) in readers(sizes.mode, &sent) {
            sizes.turn_in_px2(&mut reader, 2, &sizes.one_bit(0));
            if t < 3 {
                // Coded bit 0 stands in row 0 and column 0 of its matrix.
                let place = PM_CELLS + sizes.px1 + 2 * sizes.delayed;
                assert_eq!(refused_reading(&mut reader, state), (7, place));
                let scrambled = 2 * sizes.p1;
                reader.0[DELAY].fill(0);
                flip(&mut reader.0[DELAY], scrambled);
                assert_eq!(refused_reading(&mut reader, state), (7, place));
            } else {
                assert_eq!(refused_reading(&mut reader, state), (5, 2));
            }
        }
    }
}

/// Another coded frame in PM of L1 frame t is accepted, whatever the age, and refused as 5 with the
/// frame's number in L1 frame t + 3, where the paths disagree; a difference of one bit too.
#[test]
fn paths_disagree() {
    for sizes in &SIZES {
        let sent = sent_run(sizes.mode, 70 + sizes.mode, 8);
        for (t, frame) in [(0, 7), (1, 0), (2, 4), (3, 1), (4, 6)] {
            let mut run = sent.clone();
            let difference = match t % 2 {
                0 => sizes.one_bit(sizes.p1 - 1 - 100 * t),
                _ => (0..sizes.p1).map(|n| n % 3 == 1 || n % 7 == 2).collect(),
            };
            sizes.turn_in_pm(&mut run[t], frame, &difference);
            let (mut reader, state) = reader_after(sizes.mode, &run[..t + 3]);
            reader.take_matrices(&run[t + 3]);
            assert_eq!(refused_reading(&mut reader, state), (5, frame));
            // The same difference on the second path: the paths agree, and that frame is returned.
            sizes.turn_in_px2(&mut reader, frame, &difference);
            assert_eq!(reader.read(state).number, 0);
            let mut expected = unpack(&sent[t].0[P1]);
            for (n, turned) in difference.iter().enumerate() {
                expected[frame * sizes.p1 + n] ^= turned;
            }
            assert_eq!(reader.0[P1], pack(&expected));
        }
    }
}

/// Refusal 5 takes the lowest frame of either path, P2 last.
#[test]
fn lowest_frame_of_both_paths() {
    for sizes in &SIZES {
        let sent = sent_run(sizes.mode, 80 + sizes.mode, 5);
        for t in [3, 4] {
            for (main, delayed) in [(6, 2), (2, 6), (4, 4), (0, 7), (7, 0)] {
                let (mut reader, state) = reader_after(sizes.mode, &sent[..t]);
                reader.take_matrices(&sent[t]);
                flip(&mut reader.0[PX2], sizes.px2_cell(delayed, 17));
                flip(&mut reader.0[PM], interleaver_one(365_000));
                assert_eq!(refused_reading(&mut reader, state), (5, delayed));
                flip(&mut reader.0[PM], sizes.pm_cell(main, 17));
                let lowest = main.min(delayed);
                assert_eq!(refused_reading(&mut reader, state), (5, lowest));
            }
        }
    }
}

/// Refusal 7 in MP5: the fill of PX1 at ages 0 and 1 comes behind PM's cells and before PX2's. By
/// hand: step 36 reads row 0, column 36, where partition 1 has no bit before the second L1 frame.
#[test]
fn fill_of_px1() {
    let sent = sent_run(5, 90, 2);
    for age in 0..2 {
        let (mut reader, state) = reader_after(5, &sent[..age]);
        reader.take_matrices(&sent[age]);
        let fill = &PX_MP3_MP11.fill()[age * 73_728..][..73_728];
        let first = fill.iter().position(|&fill| fill).unwrap();
        assert!(age == 1 || fill[36]);
        flip(&mut reader.0[PX2], 0);
        assert_eq!(refused_reading(&mut reader, state), (7, PM_CELLS + 73_728));
        if age == 0 {
            flip(&mut reader.0[PX1], 36);
            assert_eq!(refused_reading(&mut reader, state), (7, PM_CELLS + 36));
        }
        flip(&mut reader.0[PX1], first);
        assert_eq!(refused_reading(&mut reader, state), (7, PM_CELLS + first));
    }
}

/// Refusal 8 in MP5, at ages 2 and 3: P3 of the L1 frame two earlier. A 1 in PX2 wins over it, as 7
/// at age 2 and as 5 at age 3.
#[test]
fn extended_frames() {
    let sent = sent_run(5, 91, 6);
    for now in 2..6 {
        for frame in 0..8 {
            let (later, cell) = PX_MP3_MP11.shown()[now % 2][9_216 * frame + 111 * now];
            let mut run = sent[..=now].to_vec();
            flip(&mut run[now - 2 + later].0[PX1], cell);
            let (mut reader, state) = reader_after(5, &run[..now]);
            reader.take_matrices(&run[now]);
            assert_eq!(refused_reading(&mut reader, state), (8, frame));
            flip(&mut reader.0[PX2], 73_727);
            let place = PM_CELLS + 73_728 + 73_727;
            let expected = if now == 2 { (7, place) } else { (5, 7) };
            assert_eq!(refused_reading(&mut reader, state), expected);
        }
    }
}

/// Document 02, S-9: the delay memory is not judged before age 3, and at age 3 it is what P1' is held
/// against: zeros there agree with zero cells.
#[test]
fn delay_memory_of_any_content() {
    for sizes in &SIZES {
        let sent = sent_run(sizes.mode, 92 + sizes.mode, 6);
        for (t, mut reader, state) in readers(sizes.mode, &sent) {
            if t < 3 {
                reader.0[DELAY].fill(0x3C);
                assert_eq!(reader.read(state).number, 0);
                assert_eq!(reader.0[DELAY][..2 * sizes.p1], vec![0x3C; 2 * sizes.p1]);
                assert_eq!(reader.0[P1], vec![0x5A; sizes.p1]);
            } else {
                reader.0[DELAY][..sizes.p1].fill(0);
                assert_eq!(refused_reading(&mut reader, state), (5, 0));
                reader.0[PX2].fill(0);
                assert_eq!(reader.read(state).number, 0);
                assert_eq!(reader.0[P1], silent_sender(sizes.mode).0[P1]);
            }
        }
    }
}

/// Refusal 1: modes 5 and 6 are covered.
#[test]
fn starts() {
    for mode in NEWER {
        for side in [Side::Sender, Side::Reader] {
            let mut buffers = Buffers::new(side, mode, 0xFF);
            let answer = buffers.start(side, mode);
            assert_eq!((answer.number, answer.place), (0, 0));
            let state = answer.state;
            assert_eq!((state.mode, state.half, state.age), (mode, 0, 0));
            assert!(buffers.0[DELAY].iter().all(|&byte| byte == 0));
        }
    }
}
