//! Document 01, probe points.

mod common;

use common::{Buffers, MODES};
use second::cells::{find, list, place_of, Channel, Placed};
use second::coding::{decode, encode, Rate};
use second::control::{block, control, differential, lookup, sequence, COLUMNS};
use second::draw::Draw;
use second::interleaving::{interleaver_one, interleaver_two, PX_MP2, PX_MP3_MP11};
use second::packing::{pack, unpack};
use second::run::Side;
use second::scrambling::{scramble, Register};

/// Probe points: the cell finder's channel, frame and bit.
fn found(row: usize, column: usize) -> (Channel, usize, usize) {
    let found = find(row, column);
    assert_eq!((found.number, found.place), (0, 0));
    (found.channel.unwrap(), found.frame, found.bit)
}

/// Probe points: P1 coded bits.
#[test]
fn p1_cells() {
    let points = [
        (0, 192, 360),
        (1, 448, 72),
        (20, 224, 360),
        (320, 203, 371),
        (365_439, 71, 206),
    ];
    for (bit, row, column) in points {
        assert_eq!(interleaver_one(bit), row * 720 + column);
        assert_eq!(found(row, column), (Channel::P1, 0, bit));
    }
}

/// Probe points: PIDS coded bits.
#[test]
fn pids_cells() {
    for (frame, bit, row, column) in [(0, 0, 18, 361), (15, 199, 501, 208)] {
        assert_eq!(interleaver_two(200 * frame + bit), row * 720 + column);
        assert_eq!(found(row, column), (Channel::Pids, frame, bit));
    }
}

/// Document 01, PM: every cell is written once by exactly one of the two.
#[test]
fn every_pm_cell_once() {
    let mut written = vec![0; 512 * 720];
    for cell in (0..365_440).map(interleaver_one) {
        written[cell] += 1;
    }
    for cell in (0..3_200).map(interleaver_two) {
        written[cell] += 1;
    }
    assert!(written.iter().all(|&times| times == 1));
}

/// Document 02, S-3: blocks of 32 rows below each other, partitions of 36 columns side by side.
#[test]
fn positions_of_pm() {
    for cell in 0..16 * 32 * 20 * 36 {
        let (block, row) = (cell / 36 / 20 / 32, cell / 36 / 20 % 32);
        let (partition, column) = (cell / 36 % 20, cell % 36);
        let expected = Placed {
            number: 0,
            place: 0,
            block,
            row,
            partition,
            column,
        };
        assert_eq!(
            place_of(32 * block + row, 36 * partition + column),
            expected
        );
    }
    for (row, column, place) in [(512, 720, 0), (0, 720, 1), (usize::MAX, 0, 0)] {
        let expected = Placed {
            number: 3,
            place,
            ..Placed::default()
        };
        assert_eq!(place_of(row, column), expected, "row {row} column {column}");
    }
}

/// Probe points: entries of the MP3 partitions.
#[test]
fn px_entries() {
    for p in 0..4 {
        assert_eq!(PX_MP3_MP11.place(p, 0), (7 * p % 32, 0, 0));
        assert_eq!(PX_MP3_MP11.place(p, 4), ((7 * p + 4) % 32, 1, 8));
        assert_eq!(PX_MP3_MP11.place(p, 1_152), ((7 * p + 1) % 32, 0, 0));
    }
}

/// Document 01, PX: each coded bit is shown once within three L1 frames, in either half.
#[test]
fn every_px_bit_once() {
    for row in [&PX_MP2, &PX_MP3_MP11] {
        let mut shown = [vec![0; row.half_bits()], vec![0; row.half_bits()]];
        for half in 0..2 {
            for &(later, cell) in &row.shown()[half] {
                assert!(later <= 2);
                shown[(half + later) % 2][cell] += 1;
            }
        }
        assert!(shown.concat().iter().all(|&times| times == 1));
    }
}

/// Document 01, PX: a cell shows the fill exactly when no bit of the first L1 frames comes there.
#[test]
fn fill_and_shown_agree() {
    for row in [&PX_MP2, &PX_MP3_MP11] {
        let mut fill = vec![true; row.bits];
        for sent in 0..2 {
            for &(later, cell) in &row.shown()[sent] {
                if sent + later < 2 {
                    fill[(sent + later) * row.half_bits() + cell] = false;
                }
            }
        }
        assert_eq!(fill, row.fill());
    }
}

/// Probe points: the weights of coded PIDS frames.
#[test]
fn coded_weights() {
    let weight = |bits: &[bool]| bits.iter().filter(|&&bit| bit).count();
    let ones = encode(Rate::TwoFifths, &[true; 80]);
    assert_eq!((ones.len(), weight(&ones)), (200, 200));
    for place in 0..80 {
        let mut frame = [false; 80];
        frame[place] = true;
        let expected = if place % 2 == 0 { 14 } else { 11 };
        assert_eq!(weight(&encode(Rate::TwoFifths, &frame)), expected);
    }
}

/// Section 9.3.4: coded lengths, and decoding what was coded.
#[test]
fn coded_lengths_and_back() {
    let mut draw = Draw::new(9);
    let cases = [
        (Rate::TwoFifths, 146_176, 365_440),
        (Rate::TwoFifths, 80, 200),
        (Rate::OneHalf, 2_304, 4_608),
        (Rate::OneHalf, 4_608, 9_216),
        (Rate::TwoFifths, 4_608, 11_520),
        (Rate::TwoFifths, 109_312, 273_280),
        (Rate::TwoFifths, 9_216, 23_040),
        (Rate::TwoFifths, 72_448, 181_120),
        (Rate::OneHalf, 9_216, 18_432),
    ];
    for (rate, bits, coded_bits) in cases {
        let frame = unpack(&draw.bytes(bits / 8));
        let mut coded = encode(rate, &frame);
        assert_eq!(coded.len(), coded_bits);
        assert_eq!(decode(rate, &coded), Some(frame));
        for place in [0, 1, 2, 7, coded_bits / 2, coded_bits - 1] {
            coded[place] ^= true;
            assert_eq!(decode(rate, &coded), None);
            coded[place] ^= true;
        }
    }
}

/// Section 9.3.4: the coder by its equations, bit by bit around the frame's end.
#[test]
fn coder_equations() {
    let frame = unpack(&Draw::new(4).bytes(10));
    let sum = |j: usize, delays: &[usize]| {
        let bits = delays.iter().map(|d| frame[(j + 80 - d) % 80]);
        bits.fold(false, |sum, bit| sum ^ bit)
    };
    let first = |j| sum(j, &[0, 2, 3, 5, 6]);
    let second = |j| sum(j, &[0, 1, 2, 3, 6]);
    let third = |j| sum(j, &[0, 1, 2, 4, 6]);
    let mut two_fifths = Vec::new();
    let mut one_half = Vec::new();
    for j in 0..80 {
        two_fifths.extend([first(j), second(j)]);
        if j % 2 == 0 {
            two_fifths.push(third(j));
        }
        one_half.extend([first(j), third(j)]);
    }
    assert_eq!(encode(Rate::TwoFifths, &frame), two_fifths);
    assert_eq!(encode(Rate::OneHalf, &frame), one_half);
}

/// Section 8.2: a maximal-length sequence that obeys the polynomial, reset for each frame.
#[test]
fn scrambling_sequence() {
    let mut register = Register::reset();
    let sequence: Vec<bool> = (0..4_100).map(|_| register.scrambling_bit()).collect();
    // By hand: stage 11 is 1 for the first ten shifts, stage 2 is 1, 0, 0, 1, 1, 0, 0, 1.
    let first = [0, 1, 1, 0, 0, 1, 1, 0].map(|bit| bit == 1);
    assert_eq!(sequence[..8], first);
    for n in 11..sequence.len() {
        assert_eq!(sequence[n], sequence[n - 2] ^ sequence[n - 11]);
    }
    assert_eq!(sequence[..2_000], sequence[2_047..4_047]);
    assert_eq!(sequence[..2_047].iter().filter(|&&bit| bit).count(), 1_024);
    let zeros = [false; 100];
    assert_eq!(scramble(&zeros), sequence[..100]);
    assert_eq!(scramble(&scramble(&zeros)), zeros);
}

/// Probe points: the control sequence of MP1, block 0, column 0. By hand, that of MP5 and MP6: the
/// mode's two ones and bit 8 make the last parity bit 1.
#[test]
fn control_sequence() {
    assert_eq!(sequence(1, 0, 0, 0), 0x6464_0702);
    assert_eq!(sequence(5, 0, 0, 0), 0x6464_070B);
    assert_eq!(sequence(6, 0, 0, 0), 0x6464_070D);
    // Document 02, S-2: each bit of the number with the parity bit that follows it.
    for (number, expected) in [
        (1, 0x6464_0783),
        (2, 0x6465_0F02),
        (4, 0x65E4_0702),
        (7, 0x65E5_0F83),
    ] {
        assert_eq!(sequence(1, 0, number, 0), expected);
    }
    assert_eq!(differential(0x6464_0702), 0x47B8_05FC);
    let column: Vec<bool> = block(1, 0, 0).chunks(8).map(|row| row[0] >= 128).collect();
    assert_eq!(pack(&column), [0x47, 0xB8, 0x05, 0xFC]);
}

/// Probe points: row 31 of an encoded control block is zero; so are the last three bits of a row.
#[test]
fn control_rows() {
    for (mode, number) in MODES.into_iter().zip([0, 7, 2, 5, 1, 4]) {
        assert_eq!(control(mode, number).len(), 4_096);
        for count in 0..16 {
            let block = block(mode, count, number);
            assert_eq!(block[31 * 8..], [0; 8]);
            assert!(block.chunks(8).all(|row| row[7] % 8 == 0));
        }
    }
}

/// Document 01, control: the rule for bits 21 and 20, and the sums of the parity groups.
#[test]
fn control_fields() {
    for column in 0..COLUMNS {
        let rsid = if column < 31 {
            [2, 1, 0, 3][column % 4]
        } else {
            [2, 3, 0, 1][column % 4]
        };
        let r = sequence(11, 13, 6, column);
        assert_eq!((r >> 24 & 1, r >> 16 & 1, r >> 7 & 1), (1, 1, 0));
        assert_eq!((r >> 20) & 3, rsid);
        assert_eq!((r >> 12) & 15, 13);
        assert_eq!((r >> 1) & 63, 11);
        for group in [0x0180_0000, 0x003C_0000, 0x0001_F800, 0x0000_01FF] {
            assert_eq!((r & group).count_ones() % 2, 0);
        }
    }
}

/// Document 01, operations: looking up a control block alone.
#[test]
fn control_lookup() {
    for mode in MODES {
        for count in 0..16 {
            let number = (mode + 5 * count) % 8;
            let found = lookup(&block(mode, count, number));
            assert_eq!((found.number, found.mode, found.count), (0, mode, count));
            assert_eq!(found.reserved, number);
        }
    }
    for mode in [0, 4, 7, 12, 37] {
        let refused = lookup(&block(mode, 3, 1));
        assert_eq!((refused.number, refused.mode, refused.count), (4, 0, 0));
        assert_eq!(refused.reserved, 0);
    }
    let mut damaged = block(3, 5, 7);
    damaged[255] = 1;
    let refused = lookup(&damaged);
    assert_eq!((refused.number, refused.mode, refused.count), (4, 0, 0));
    let refused = lookup(&damaged[..255]);
    assert_eq!((refused.number, refused.mode, refused.count), (3, 0, 0));
}

/// Probe points: mode 4 and mode 12 are refused.
#[test]
fn modes_not_covered() {
    for mode in [4, 12] {
        for side in [Side::Sender, Side::Reader] {
            let mut buffers = Buffers::new(side, 11, 0xFF);
            let before = buffers.clone();
            let answer = buffers.start(side, mode);
            assert_eq!((answer.number, answer.place), (1, 0));
            let state = answer.state;
            assert_eq!((state.mode, state.half, state.age), (1, 0, 0));
            assert_eq!(buffers, before);
        }
    }
}

/// Probe points: row 511, column 719 is found, row 512 refused.
#[test]
fn finder_limits() {
    assert_eq!(find(511, 719).number, 0);
    for (row, column, place) in [(512, 0, 0), (512, 720, 0), (511, 720, 1)] {
        let refused = find(row, column);
        assert_eq!((refused.number, refused.place), (3, place));
        assert_eq!((refused.channel, refused.frame, refused.bit), (None, 0, 0));
    }
}

/// Document 01, cell list: what the program prints for an input.
fn listed(input: &[u8]) -> String {
    let mut output = Vec::new();
    list(&mut &input[..], &mut output).unwrap();
    let printed = String::from_utf8(output).unwrap();
    printed
        .strip_prefix("ROW COL CHANNEL FRAME BIT\n")
        .unwrap()
        .to_string()
}

/// Probe points: the cell list printed in full.
#[test]
fn cell_list() {
    let expected = "192 360 P1 0 0\n18 361 PIDS 0 0\n501 208 PIDS 15 199\n";
    assert_eq!(listed(b"192 360\n18 361\n501 208\n"), expected);
    assert_eq!(listed(b"192 360\n18 361\n501 208"), expected);
    assert_eq!(listed(b""), "");
}

/// Document 01, cell list: lines that are not two such numbers in range.
#[test]
fn cell_list_refusals() {
    let lines: [&[u8]; 20] = [
        b"",
        b" ",
        b"1",
        b"1 ",
        b" 1 2",
        b"1 2 ",
        b"1  2",
        b"1\t2",
        b"1 2\r",
        b"+1 2",
        b"-1 2",
        b"1 -2",
        b"1 2 3",
        b"512 0",
        b"0 720",
        b"1,2",
        b"a 1",
        b"\xFF 1",
        b"1 0x2",
        b"18446744073709551808 360",
    ];
    for line in lines {
        let input = [b"0 0\n", line, b"\n000192 0360"].concat();
        let printed = listed(&input);
        let printed: Vec<&str> = printed.lines().collect();
        assert_eq!(printed.len(), 3);
        assert_eq!(printed[1..], ["REFUSED 2", "192 360 P1 0 0"]);
    }
    let long = [
        vec![b'9'; 100_000],
        b" 1\n".to_vec(),
        vec![b'0'; 100_000],
        b" 0".to_vec(),
    ];
    let printed = listed(&long.concat());
    assert!(printed.starts_with("REFUSED 1\n0 0 "));
    assert_eq!(listed(b"\n\n"), "REFUSED 1\nREFUSED 2\n");
}
