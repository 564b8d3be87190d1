//! Document 02, S-8: sets of sixteen control blocks, and what each is looked up as by hand.

use second::control::{block, control, lookup, BLOCK_BYTES, NUMBERS};
use second::draw::Draw;
use second::modes::MODES;
use second::sets::{drawn_set, Blocks, SetLookup};

/// The blocks of an L1 frame's control.
fn blocks_of(mode: u64, reserved: u64) -> Vec<Vec<u8>> {
    let bytes = control(mode, reserved);
    bytes.chunks(BLOCK_BYTES).map(<[u8]>::to_vec).collect()
}

/// A set is refused with this number and place, and zeros.
fn refused(all: &Blocks, blocks: &[Vec<u8>], number: u32, place: usize) {
    let expected = SetLookup {
        number,
        place,
        mode: 0,
        reserved: 0,
    };
    assert_eq!(all.look_up(&blocks.concat()), expected);
}

/// S-8: the control of every covered mode and number, and no other length.
#[test]
fn accepted() {
    let all = Blocks::all();
    for mode in MODES.iter().map(|mode| mode.number) {
        for reserved in 0..NUMBERS {
            let said = all.look_up(&control(mode, reserved));
            assert_eq!((said.number, said.mode, said.reserved), (0, mode, reserved));
        }
    }
    for length in [0, 1, 256, 4_095, 4_097, 8_192] {
        let said = all.look_up(&vec![0; length]);
        assert_eq!((said.number, said.place), (3, 0));
    }
}

/// S-8: each block passes by itself, and the set does not.
#[test]
fn one_by_one() {
    let (own, all) = (blocks_of(3, 5), Blocks::all());
    let mut cases = Vec::new();
    for (mode, reserved) in [(2, 5), (3, 4)] {
        for (place, refused_at) in [(0, 1), (1, 1), (8, 8), (15, 15)] {
            let mut set = own.clone();
            set[place] = block(mode, place as u64, reserved);
            cases.push((set, refused_at));
        }
    }
    for place in [1, 8, 15] {
        let mut exchanged = own.clone();
        exchanged.swap(0, place);
        cases.push((exchanged, 0));
        let mut repeated = own.clone();
        repeated[place] = own[place - 1].clone();
        cases.push((repeated, place));
        let mut moved = own.clone();
        moved.rotate_left(place);
        cases.push((moved, 0));
    }
    for (set, place) in cases {
        assert!(set.iter().all(|block| lookup(block).number == 0));
        refused(&all, &set, 13, place);
    }
}

/// S-8: a faulty block comes first, wherever the others do not fit.
#[test]
fn faulty_first() {
    let (mut set, all) = (blocks_of(11, 2), Blocks::all());
    set[1] = block(11, 1, 3);
    set[15][255] ^= 8;
    refused(&all, &set, 4, 15);
    set[9] = block(7, 9, 2);
    refused(&all, &set, 4, 9);
    set[0][0] ^= 128;
    refused(&all, &set, 4, 0);
}

/// Drawn sets give every answer, and what is accepted is a control.
#[test]
fn drawn() {
    let (mut draw, all) = (Draw::new(8), Blocks::all());
    let mut met = [0; 14];
    for _ in 0..500 {
        let set = drawn_set(&mut draw);
        let said = all.look_up(&set);
        met[said.number as usize] += 1;
        if said.number == 0 {
            assert_eq!(set, control(said.mode, said.reserved));
        } else {
            assert_eq!((said.mode, said.reserved), (0, 0));
        }
    }
    assert!([0, 4, 13].iter().all(|&number: &usize| met[number] > 50));
}
