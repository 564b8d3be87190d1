//! Document 02, S-4: the sharing of PIDS places against the second program's.

mod common;

use common::seed;
use layer1::{share_places, Answer};
use second::draw::Draw;
use second::places;

/// Shares and counts through both, on lists of this length that held the same bytes before.
fn agree(shares: [u8; 8], waiting: [u8; 8], length: usize) -> u8 {
    let mut ours = vec![0xA5; length];
    let mut theirs = ours.clone();
    let expected = match places::share_places(shares, waiting, &mut theirs) {
        Ok(()) => Answer {
            number: 0,
            place: 0,
        },
        Err(refusal) => Answer {
            number: refusal.number as u8,
            place: refusal.place as u32,
        },
    };
    let answer = share_places(shares, waiting, &mut ours);
    assert_eq!(answer, expected, "{shares:?} {waiting:?} {length}");
    assert_eq!(ours, theirs, "{shares:?} {waiting:?} {length}");
    answer.number
}

/// The corners: no shares, one source with everything, all 255, sums of 16 and 17.
#[test]
fn corners() {
    let numbers: Vec<u8> = places::corners()
        .into_iter()
        .map(|(shares, waiting)| agree(shares, waiting, 16))
        .collect();
    assert!(numbers.contains(&0) && numbers.contains(&10));
}

/// Newly drawn shares and counts.
#[test]
fn drawn() {
    let mut draw = Draw::new(seed());
    for _ in 0..20_000 {
        let (shares, waiting) = places::drawn(&mut draw);
        agree(shares, waiting, 16);
    }
}

/// Other lengths than sixteen are refused before the shares are.
#[test]
fn lengths() {
    for length in [0, 1, 15, 17, 18, 4096] {
        for share in [0, 2, 3, 255] {
            assert_eq!(agree([share; 8], [9; 8], length), 3);
        }
    }
}

/// The list that a refusal leaves, and the order of the bytes that cross.
#[test]
fn by_hand() {
    let mut list = [7; 16];
    let refused = share_places([17, 0, 0, 0, 0, 0, 0, 0], [255; 8], &mut list);
    assert_eq!((refused.number, refused.place, list), (10, 0, [7; 16]));
    let done = share_places(
        [0, 0, 0, 0, 0, 0, 0, 16],
        [1, 0, 0, 0, 0, 0, 0, 15],
        &mut list,
    );
    let mut expected = [7; 16];
    expected[0] = 0;
    assert_eq!((done.number, done.place, list), (0, 0, expected));
}
