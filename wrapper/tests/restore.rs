//! Document 02, S-11, beside the second program.

mod common;

use common::seed;
use layer1::Answer;
use second::draw::Draw;
use second::restoring::{border, drawn_frame, one_wrong, unread, Code};

/// Both on equal buffers: the same answer, and the same bytes left.
fn both(code: &Code, cells: &[u8], frame: &[u8]) -> Answer {
    let (mut ours, mut theirs) = (frame.to_vec(), frame.to_vec());
    let answer = layer1::restore(cells, &mut ours);
    let (number, place) = match second::restoring::restore(code, cells, &mut theirs) {
        Ok(()) => (0, 0),
        Err(refusal) => (refusal.number as u8, refusal.place as u32),
    };
    assert_eq!(
        (answer, ours),
        (Answer { number, place }, theirs),
        "{cells:?}"
    );
    answer
}

/// Every count of unread cells, right and with one read cell wrong.
#[test]
fn drawn() {
    let (mut draw, code) = (Draw::new(seed()), Code::of_pids());
    let mut met = [0; 16];
    for count in (0..=200).chain(60..140) {
        let cells = drawn_frame(&mut draw);
        let cells = unread(&mut draw, &cells, count);
        let wrong = one_wrong(&mut draw, &cells);
        let frame = draw.bytes(10);
        assert_ne!(both(&code, &cells, &frame).number, 14);
        met[usize::from(both(&code, &cells, &frame).number)] += 1;
        met[usize::from(both(&code, &wrong, &frame).number)] += 1;
    }
    assert!(met[0] > 0 && met[14] > 0 && met[15] > 0, "{met:?}");
}

/// Exactly as many read cells as fix a frame, whatever they say, and one fewer.
#[test]
fn one_and_several() {
    let (mut draw, code) = (Draw::new(seed()), Code::of_pids());
    for _ in 0..100 {
        let [cells, fewer] = border(&mut draw, &code);
        let frame = draw.bytes(10);
        assert_eq!(both(&code, &cells, &frame).number, 0);
        assert_eq!(both(&code, &fewer, &frame).number, 15);
    }
}

/// Which byte marks an unread cell makes no difference.
#[test]
fn marks() {
    let (mut draw, code) = (Draw::new(seed()), Code::of_pids());
    for cells in border(&mut draw, &code) {
        let mut expected = [0x5A; 10];
        let answer = layer1::restore(&cells, &mut expected);
        for mark in 2..=255 {
            let marked: Vec<u8> = cells
                .iter()
                .map(|&c| if c < 2 { c } else { mark })
                .collect();
            let mut frame = [0x5A; 10];
            assert_eq!(layer1::restore(&marked, &mut frame), answer);
            assert_eq!(frame, expected);
        }
    }
}

/// The lengths come first, the cells before the frame.
#[test]
fn lengths() {
    let code = Code::of_pids();
    for cells in [0, 1, 199, 200, 201, 400] {
        for frame in [0, 9, 10, 11] {
            let answer = both(&code, &vec![7; cells], &vec![0x5A; frame]);
            let expected = match (cells, frame) {
                (200, 10) => (15, 0),
                (200, _) => (3, 1),
                _ => (3, 0),
            };
            assert_eq!((answer.number, answer.place), expected);
        }
    }
}
