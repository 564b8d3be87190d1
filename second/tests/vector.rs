//! Document 02, S-7: points of the tables by hand, the cells that come back, scales as typed.

use second::draw::Draw;
use second::modes::Mode;
use second::packing::{flip, unpack};
use second::vector::{fill, scale_of, Mapping, POINTS};

type Vectors = ([f32; POINTS], [f32; POINTS]);

fn filled(
    mode: u64,
    symbol: u64,
    matrices: &[Vec<u8>; 4],
    scales: [f32; 2],
) -> Result<Vectors, (u32, usize)> {
    let (mut re, mut im) = ([7.0; POINTS], [9.0; POINTS]);
    let lent = Mapping {
        mode,
        symbol,
        matrices: [0, 1, 2, 3].map(|n| &matrices[n][..]),
        scales,
    };
    match fill(&lent, &mut re, &mut im) {
        Ok(()) => Ok((re, im)),
        Err(refusal) => {
            assert!(re == [7.0; POINTS] && im == [9.0; POINTS]);
            Err((refusal.number, refusal.place))
        }
    }
}

fn matrices(mode: u64, byte: u8) -> [Vec<u8>; 4] {
    Mode::of_number(mode)
        .unwrap()
        .matrix_lengths()
        .map(|length| vec![byte; length])
}

/// Tables 12-3 to 12-6 and 12-12: one cell turned over among zeros turns one part of one subcarrier.
#[test]
fn points() {
    // mode, matrix (PM, PX1, PX2, control), column, subcarrier, whether it is an I bit
    let cases = [
        (1, 0, 0, -545, true),
        (1, 0, 1, -545, false),
        (1, 0, 35, -528, false),
        (1, 0, 36, -526, true),
        (1, 0, 359, -357, false),
        (1, 0, 360, 357, true),
        (11, 0, 719, 545, false),
        (2, 1, 35, -338, false),
        (2, 1, 36, 338, true),
        (3, 1, 36, -336, true),
        (3, 1, 72, 319, true),
        (3, 1, 143, 355, false),
        (11, 2, 0, -317, true),
        (11, 2, 71, -281, false),
        (11, 2, 72, 281, true),
        (11, 2, 143, 317, false),
    ];
    let bits = [720, 144, 144, 64];
    for (mode, matrix, column, subcarrier, i) in cases {
        for symbol in [0, 63, 64, 511] {
            let mut lent = matrices(mode, 0);
            let width = if mode == 2 && matrix == 1 {
                72
            } else {
                bits[matrix]
            };
            flip(&mut lent[matrix], width * symbol as usize + column);
            let (re, im) = filled(mode, symbol, &lent, [2.0, 3.0]).unwrap();
            for k in 0..POINTS {
                let at = k as i32 - 546 == subcarrier;
                assert_eq!(re[k] > 0.0, at && i, "real {k}");
                assert_eq!(im[k] > 0.0, at && !i, "imaginary {k}");
            }
        }
    }
    for (mode, column, subcarrier) in [
        (1, 0, -546),
        (1, 10, -356),
        (1, 50, 356),
        (3, 12, -318),
        (11, 14, -280),
        (11, 46, 280),
        (2, 49, 337),
        (1, 60, 546),
    ] {
        let mut lent = matrices(mode, 0);
        flip(&mut lent[3], 64 * 100 + column);
        let (re, im) = filled(mode, 100, &lent, [2.0, 3.0]).unwrap();
        for k in 0..POINTS {
            let at = k as i32 - 546 == subcarrier;
            assert_eq!((re[k] > 0.0, im[k] > 0.0), (at, at), "{k}");
        }
    }
}

/// S-7: how many subcarriers are used, each part the scale of its side or its negation, the others positive zero.
#[test]
fn parts() {
    let mut draw = Draw::new(7);
    for (mode, used) in [(1, 382), (2, 420), (3, 458), (11, 534)] {
        let lent = matrices(mode, 0).map(|matrix| draw.bytes(matrix.len()));
        let (re, im) = filled(mode, draw.below(512), &lent, [2.5, 0.375]).unwrap();
        let mut count = 0;
        for k in 0..POINTS {
            let scale: f32 = if k < 546 { 2.5 } else { 0.375 };
            if re[k].to_bits() == 0 {
                assert_eq!(im[k].to_bits(), 0);
            } else {
                count += 1;
                assert_eq!((re[k].abs(), im[k].abs()), (scale, scale));
            }
        }
        assert_eq!(count, used);
    }
}

/// S-7: the cells of the symbol's rows are on the vector, each once.
#[test]
fn cells_come_back() {
    let mut draw = Draw::new(8);
    for mode in [1, 2, 3, 11] {
        let lent = matrices(mode, 0).map(|matrix| draw.bytes(matrix.len()));
        let symbol = draw.below(512);
        let (re, im) = filled(mode, symbol, &lent, [1.0, 1.0]).unwrap();
        let on_air: usize = (re.iter().zip(&im))
            .map(|(re, im)| usize::from(*re > 0.0) + usize::from(*im > 0.0))
            .sum();
        let mut ones = 0;
        for (n, matrix) in lent.iter().enumerate() {
            let width = matrix.len() / 512;
            let row = unpack(&matrix[symbol as usize * width..][..width]);
            for (column, bit) in row.into_iter().enumerate() {
                let mapped = match (n, mode) {
                    (3, 1) => column <= 10 || (50..=60).contains(&column),
                    (3, 2) => column <= 11 || (49..=60).contains(&column),
                    (3, 3) => column <= 12 || (48..=60).contains(&column),
                    (3, _) => column <= 14 || (46..=60).contains(&column),
                    _ => true,
                };
                let each = if n == 3 { 2 } else { 1 };
                ones += usize::from(bit && mapped) * each;
            }
        }
        assert_eq!(on_air, ones);
    }
}

/// S-7: the refusals and their order.
#[test]
fn refusals() {
    let bad = [
        f32::NAN,
        f32::INFINITY,
        f32::NEG_INFINITY,
        0.0,
        -0.0,
        -1.0,
        -f32::from_bits(1),
    ];
    let lent = matrices(1, 0);
    for scale in bad {
        assert_eq!(filled(1, 511, &lent, [scale, 1.0]).unwrap_err(), (12, 0));
        assert_eq!(filled(1, 511, &lent, [1.0, scale]).unwrap_err(), (12, 1));
        assert_eq!(filled(1, 512, &lent, [scale, scale]).unwrap_err(), (11, 0));
        assert_eq!(filled(2, 512, &lent, [scale, scale]).unwrap_err(), (3, 1));
        for mode in [0, 4, 5, 6, 12, 257] {
            assert_eq!(
                filled(mode, 512, &lent, [scale, scale]).unwrap_err(),
                (1, 0)
            );
        }
    }
    for scale in [f32::from_bits(1), f32::MAX] {
        assert!(filled(1, 511, &lent, [scale, scale]).is_ok());
    }
}

/// House matter: scales as typed.
#[test]
fn scales() {
    for (word, value) in [
        ("1", 1.0),
        ("0.5", 0.5),
        ("0", 0.0),
        ("012.250", 12.25),
        ("0.0000152587890625", 1.0 / 65536.0),
        ("999", 999.0),
    ] {
        assert_eq!(scale_of(word), Some(value), "{word}");
    }
    for word in [
        "",
        ".",
        "1.",
        ".5",
        "0.1",
        "1000",
        "0001",
        "-1",
        "+1",
        "1e0",
        "NaN",
        "inf",
        "0.00000000000000001",
        "511.9999847412109375",
    ] {
        assert_eq!(scale_of(word), None, "{word}");
    }
}
