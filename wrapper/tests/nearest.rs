//! Document 02, S-12, beside the second program.

mod common;

use common::seed;
use layer1::Nearest;
use second::draw::Draw;
use second::nearest::drawn_cells;

/// Both searches on equal buffers: the same answer, and the same bytes left.
fn both(cells: &[u8], frame: &[u8], budget: usize) -> Nearest {
    let (mut ours, mut theirs) = (frame.to_vec(), frame.to_vec());
    let answer = layer1::nearest(cells, &mut ours, budget);
    let other = second::nearest::nearest(cells, &mut theirs, budget);
    let other = Nearest {
        number: other.number as u8,
        place: other.place as u32,
        distance: other.distance as u8,
        margin: other.margin as u8,
    };
    assert_eq!((answer, ours), (other, theirs), "budget {budget} {cells:?}");
    answer
}

/// Drawn cells, every budget.
#[test]
fn drawn() {
    let mut draw = Draw::new(seed());
    for budget in 1..=64 {
        for _ in 0..8 {
            let cells = drawn_cells(&mut draw);
            let frame = draw.bytes(10);
            assert_eq!(both(&cells, &frame, budget).number, 0);
        }
    }
}

/// No cell read, or few: many frames are equally near.
#[test]
fn ties() {
    let mut draw = Draw::new(seed());
    for read in 0..32 {
        let mut cells = [0xFF; 200];
        for _ in 0..read {
            cells[draw.below(200) as usize] = draw.below(2) as u8;
        }
        for budget in [1, 2, 17, 63, 64] {
            assert_eq!(both(&cells, &[0x5A; 10], budget).number, 0);
        }
    }
}

/// Which byte marks an unread cell makes no difference.
#[test]
fn marks() {
    let mut draw = Draw::new(seed());
    let cells = drawn_cells(&mut draw);
    let mut expected = [0; 10];
    let answer = layer1::nearest(&cells, &mut expected, 40);
    for mark in 2..=255 {
        let marked: Vec<u8> = cells
            .iter()
            .map(|&c| if c < 2 { c } else { mark })
            .collect();
        let mut frame = [0; 10];
        assert_eq!(layer1::nearest(&marked, &mut frame, 40), answer);
        assert_eq!(frame, expected);
    }
}

/// Lengths, then the budget: 320 is not 64, and no great one is a small one.
#[test]
fn refused() {
    let budgets = [
        0,
        65,
        255,
        256,
        257,
        320,
        1 << 16,
        (1 << 32) + 1,
        usize::MAX,
    ];
    for cells in [0, 1, 199, 200, 201, 400] {
        for frame in [0, 9, 10, 11] {
            for budget in budgets.into_iter().chain([1, 64]) {
                let answer = both(&vec![1; cells], &vec![0x5A; frame], budget);
                let expected = match (cells, frame, budget) {
                    (200, 10, 1..=64) => (0, 0),
                    (200, 10, _) => (16, 0),
                    (200, _, _) => (3, 1),
                    _ => (3, 0),
                };
                assert_eq!((answer.number, answer.place), expected);
            }
        }
    }
}
