//! Document 02, S-11, beside the coder.

use second::coding::{encode, Rate};
use second::draw::Draw;
use second::packing::unpack;
use second::restoring::{border, drawn_frame, restore, Code};
use second::run::Refusal;
use second::scrambling::scramble;

fn refused(number: u32, place: usize) -> Result<(), Refusal> {
    Err(Refusal { number, place })
}

/// S-11: all cells of a frame read, then one of them wrong: no two frames differ in a single coded bit.
#[test]
fn all_read() {
    let (mut draw, code) = (Draw::new(11), Code::of_pids());
    let drawn = draw.bytes(10);
    let mut cells: Vec<u8> = encode(Rate::TwoFifths, &scramble(&unpack(&drawn)))
        .into_iter()
        .map(u8::from)
        .collect();
    let mut frame = [0x5A; 10];
    assert_eq!(restore(&code, &cells, &mut frame), Ok(()));
    assert_eq!(frame, drawn[..]);
    for n in 0..200 {
        cells[n] ^= 1;
        let mut frame = [0x5A; 10];
        assert_eq!(restore(&code, &cells, &mut frame), refused(14, 0));
        assert_eq!(frame, [0x5A; 10]);
        cells[n] ^= 1;
    }
}

/// S-11: no cell read fits every frame; lengths come first.
#[test]
fn nothing_read() {
    let code = Code::of_pids();
    for mark in 2..=255 {
        assert_eq!(restore(&code, &[mark; 200], &mut [0; 10]), refused(15, 0));
    }
    assert_eq!(restore(&code, &[2; 199], &mut [0; 9]), refused(3, 0));
    assert_eq!(restore(&code, &[2; 200], &mut [0; 9]), refused(3, 1));
}

/// S-11: what is restored fits, and none that differs in one scrambled bit does; where several fit, some unread cell can be either.
#[test]
fn fits_alone() {
    let (mut draw, code) = (Draw::new(12), Code::of_pids());
    let (mut alone, mut several) = (0, 0);
    for round in 0..2000 {
        let mut cells = drawn_frame(&mut draw);
        for n in 0..200 {
            if draw.below(200) < round / 10 {
                cells[n] = 2;
            }
        }
        let mut frame = [0; 10];
        match restore(&code, &cells, &mut frame) {
            Ok(()) => {
                alone += 1;
                let coded = encode(Rate::TwoFifths, &scramble(&unpack(&frame)));
                let fits = |coded: &[bool]| {
                    cells
                        .iter()
                        .zip(coded)
                        .all(|(&c, &b)| c > 1 || c == u8::from(b))
                };
                assert!(fits(&coded));
                let scrambled = scramble(&unpack(&frame));
                for n in 0..80 {
                    let mut other = scrambled.clone();
                    other[n] ^= true;
                    assert!(!fits(&encode(Rate::TwoFifths, &other)));
                }
            }
            answer => {
                several += 1;
                assert_eq!(answer, refused(15, 0), "the frame itself fits");
                let unread: Vec<usize> = (0..200).filter(|&n| cells[n] == 2).collect();
                let mut with = |n: usize, bit| {
                    cells[n] = bit;
                    let answer = restore(&code, &cells, &mut frame);
                    cells[n] = 2;
                    answer
                };
                let both = unread
                    .iter()
                    .any(|&n| (0..2).all(|bit| with(n, bit) != refused(14, 0)));
                assert!(both);
            }
        }
    }
    assert!(alone > 500 && several > 500, "{alone} {several}");
}

/// S-11: 80 cells that fit one frame whatever they say, and one fewer.
#[test]
fn at_the_border() {
    let (mut draw, code) = (Draw::new(13), Code::of_pids());
    for _ in 0..100 {
        let [cells, fewer] = border(&mut draw, &code);
        assert_eq!(cells.iter().filter(|&&cell| cell < 2).count(), 80);
        let mut frame = [0; 10];
        assert_eq!(restore(&code, &cells, &mut frame), Ok(()));
        let coded = encode(Rate::TwoFifths, &scramble(&unpack(&frame)));
        assert!(cells
            .iter()
            .zip(coded)
            .all(|(&c, b)| c > 1 || c == u8::from(b)));
        assert_eq!(restore(&code, &fewer, &mut [0; 10]), refused(15, 0));
    }
}
