//! Document 02, S-12, against all frames and all paths of a shortened frame.

use second::coding::{encode, Rate};
use second::draw::Draw;
use second::nearest::{closed, nearest, open};

/// The bits of a shortened frame.
const BITS: usize = 10;

fn bits(number: u32, count: usize) -> Vec<bool> {
    (0..count).rev().map(|n| number >> n & 1 == 1).collect()
}

fn distance(cells: &[u8], coded: &[bool]) -> u32 {
    assert_eq!(cells.len(), coded.len());
    let differ = |(&cell, &bit): (&u8, &bool)| cell < 2 && cell != u8::from(bit);
    cells.iter().zip(coded).filter(|&pair| differ(pair)).count() as u32
}

/// Every frame whose start is tried, in the order of the request: distance, start, number.
#[test]
fn closed_paths() {
    let mut draw = Draw::new(12);
    for round in 0..200u64 {
        let cells: Vec<u8> = draw
            .bytes(BITS * 5 / 2)
            .iter()
            .map(|byte| byte % 3)
            .collect();
        let budget = 1 + (round % 64) as usize;
        let least = (0..1u32 << BITS)
            .filter(|number| (number % 64) < budget as u32)
            .map(|number| {
                (
                    distance(&cells, &encode(Rate::TwoFifths, &bits(number, BITS))),
                    number % 64,
                    number,
                )
            })
            .min()
            .unwrap();
        assert_eq!(
            closed(&cells, budget),
            (least.0, u128::from(least.2)),
            "round {round}"
        );
    }
}

/// Every path: the six bits in the register and the bits that enter are coded as one longer frame, whose first 15 coded bits are dropped.
#[test]
fn open_paths() {
    let mut draw = Draw::new(13);
    for round in 0..20 {
        let cells: Vec<u8> = draw
            .bytes(BITS * 5 / 2)
            .iter()
            .map(|byte| byte % 3)
            .collect();
        let least = (0..1u32 << (BITS + 6))
            .map(|number| {
                distance(
                    &cells,
                    &encode(Rate::TwoFifths, &bits(number, BITS + 6))[15..],
                )
            })
            .min();
        assert_eq!(Some(open(&cells)), least, "round {round}");
    }
}

/// All cells unread: the scrambled frame of zeros, for every budget.
#[test]
fn nothing_read() {
    for budget in 1..=64 {
        let mut frame = [0xA5; 10];
        let answer = nearest(&[7; 200], &mut frame, budget);
        assert_eq!((answer.number, answer.distance, answer.margin), (0, 0, 0));
        let scrambled = second::scrambling::scramble(&second::packing::unpack(&frame));
        assert!(scrambled.iter().all(|bit| !bit));
    }
}
