//! Document 02, S-7, beside the second program.

mod common;

use common::seed;
use layer1::{Answer, L1Frame, Scales, Side, POINTS};
use second::draw::Draw;
use second::modes::Without;
use second::vector::{self, Mapping};

/// The modes whose vectors are given: the others stay refused, also where they are covered.
const MAPPED: [u8; 4] = [1, 2, 3, 11];

/// PM, PX1, PX2 and control.
type Lent = [Vec<u8>; 4];

/// What the vector held before: NaNs of several patterns among others.
fn before(length: usize) -> Vec<f32> {
    let patterns = [0x7FC0_0001, 0xFFFF_FFFF, 0x8000_0000, 0x3F80_0000];
    (0..length)
        .map(|k| f32::from_bits(patterns[k % 4]))
        .collect()
}

fn bits(parts: &[f32]) -> Vec<u32> {
    parts.iter().map(|part| part.to_bits()).collect()
}

/// Both on equal buffers: the same answer, and the same bits left.
fn both(mode: u8, symbol: usize, scales: [f32; 2], lent: &Lent, lengths: [usize; 2]) -> Answer {
    let [mut re, mut im] = lengths.map(before);
    let [mut other_re, mut other_im] = lengths.map(before);
    let [pm, px1, px2, control] = lent;
    let frame = L1Frame {
        pm,
        px1,
        px2,
        control,
    };
    let [lower, upper] = scales;
    let scales_lent = Scales { lower, upper };
    let answer = layer1::fill_vector(mode, symbol, scales_lent, frame, &mut re, &mut im);
    let mapping = Mapping {
        mode: mode.into(),
        symbol: symbol as u64,
        matrices: [pm, px1, px2, control],
        scales,
    };
    let other = match vector::fill(&mapping, &mut other_re, &mut other_im) {
        Ok(()) => Answer {
            number: 0,
            place: 0,
        },
        Err(refusal) => Answer {
            number: refusal.number as u8,
            place: refusal.place as u32,
        },
    };
    assert_eq!(
        (answer, bits(&re), bits(&im)),
        (other, bits(&other_re), bits(&other_im)),
        "mode {mode} symbol {symbol} scales {scales:?}"
    );
    if answer.number != 0 {
        assert_eq!(
            [bits(&re), bits(&im)],
            lengths.map(|length| bits(&before(length)))
        );
    }
    answer
}

fn matrices(mode: u8) -> [usize; 4] {
    std::array::from_fn(|n| layer1::length(Side::Sender, mode, common::MATRICES.start + n))
}

/// A drawn number that is finite and above zero.
fn scale(draw: &mut Draw) -> f32 {
    f32::from_bits(1 + draw.below(0x7F7F_FFFF) as u32)
}

const DONE: Answer = Answer {
    number: 0,
    place: 0,
};

/// Drawn matrices, every symbol.
#[test]
fn drawn() {
    let mut draw = Draw::new(seed());
    for mode in MAPPED {
        let lent = matrices(mode).map(|length| draw.bytes(length));
        for symbol in 0..512 {
            let scales = [scale(&mut draw), scale(&mut draw)];
            assert_eq!(both(mode, symbol, scales, &lent, [POINTS; 2]), DONE);
        }
    }
}

/// Every symbol of every L1 frame of the sample.
#[test]
fn sample() {
    let sample = concat!(env!("CARGO_MANIFEST_DIR"), "/../sheets/sample");
    let arguments = std::fs::read_to_string(format!("{sample}/arguments")).unwrap();
    let mut arguments = arguments
        .split_whitespace()
        .map(|n| n.parse::<u64>().unwrap());
    let (mode, count) = (arguments.next().unwrap(), arguments.next().unwrap());
    let frames = std::fs::read(format!("{sample}/frames")).unwrap();
    let mut sent = Vec::new();
    second::commands::send(mode, count, Without::default(), &mut &frames[..], &mut sent).unwrap();
    let mode = mode as u8;
    let lengths = matrices(mode);
    for frame in sent.chunks(lengths.iter().sum()) {
        let mut rest = frame;
        let lent = lengths.map(|length| {
            let (part, left) = rest.split_at(length);
            rest = left;
            part.to_vec()
        });
        for symbol in 0..512 {
            assert_eq!(both(mode, symbol, [0.5, 0.25], &lent, [POINTS; 2]), DONE);
        }
    }
}

/// Scales at the edge of what is taken.
#[test]
fn scales() {
    let least = f32::from_bits(1);
    let good = [least, f32::MIN_POSITIVE, 1.0, f32::MAX];
    let bad = [
        f32::NAN,
        f32::from_bits(0x7F80_0001),
        f32::from_bits(0xFFFF_FFFF),
        f32::INFINITY,
        f32::NEG_INFINITY,
        0.0,
        -0.0,
        -least,
        -1.0,
        f32::MIN,
    ];
    for mode in MAPPED {
        let lent = matrices(mode).map(|length| vec![0x5A; length]);
        for (n, &lower) in good.iter().chain(&bad).enumerate() {
            for (m, &upper) in good.iter().chain(&bad).enumerate() {
                let answer = both(mode, 511, [lower, upper], &lent, [POINTS; 2]);
                let expected = match (n < good.len(), m < good.len()) {
                    (true, true) => (0, 0),
                    (false, _) => (12, 0),
                    (true, false) => (12, 1),
                };
                assert_eq!((answer.number, answer.place), expected);
                let answer = both(mode, 512, [lower, upper], &lent, [POINTS; 2]);
                assert_eq!((answer.number, answer.place), (11, 0));
            }
        }
    }
}

/// Symbols: the last, and no great one is a small one.
#[test]
fn symbols() {
    let lent = matrices(3).map(|length| vec![0xC3; length]);
    for symbol in [0, 511, 512, 1023, 1 << 16, 1 << 32, usize::MAX] {
        let answer = both(3, symbol, [1.0, 1.0], &lent, [POINTS; 2]);
        let number = if symbol < 512 { 0 } else { 11 };
        assert_eq!((answer.number, answer.place), (number, 0));
    }
}

/// Lengths, each a number short and a number long, before the symbol and the scales; and every mode.
#[test]
fn lengths() {
    for mode in MAPPED {
        let asked = matrices(mode);
        for place in 0..6 {
            for more in [false, true] {
                let wrong = |length: usize, at: usize| match (at == place, more, length) {
                    (false, ..) => length,
                    (true, true, _) => length + 1,
                    (true, false, 0) => 2,
                    (true, false, _) => length - 1,
                };
                let mut at = 0;
                let lent = asked.map(|length| {
                    at += 1;
                    vec![0; wrong(length, at - 1)]
                });
                let parts = [wrong(POINTS, 4), wrong(POINTS, 5)];
                let answer = both(mode, 600, [0.0, 1.0], &lent, parts);
                assert_eq!((answer.number, answer.place), (3, place as u32));
            }
        }
    }
    let lent = matrices(1).map(|length| vec![0; length]);
    for mode in 0..=255 {
        let answer = both(mode, 512, [0.0, 0.0], &lent, [POINTS; 2]);
        let expected = match mode {
            1 => (11, 0),
            2 | 3 | 11 => (3, 1),
            _ => (1, 0),
        };
        assert_eq!((answer.number, answer.place), expected, "mode {mode}");
    }
}
