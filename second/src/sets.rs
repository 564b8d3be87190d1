//! Document 02, S-8: the sixteen control blocks of an L1 frame as a set.

use std::collections::HashMap;

use crate::control::{block, control, BLOCKS, BLOCK_BYTES, NUMBERS};
use crate::draw::Draw;
use crate::modes::MODES;
use crate::packing::flip;

/// Document 01, lent lengths: the bytes of an L1 frame's control.
pub const CONTROL_BYTES: usize = BLOCKS as usize * BLOCK_BYTES;

/// What a block names.
#[derive(Clone, Copy, PartialEq, Eq)]
struct Name {
    mode: u64,
    reserved: u64,
    count: u64,
}

/// S-8: every block of a covered mode, with what it names.
pub struct Blocks(HashMap<Vec<u8>, Name>);

/// The answer of a lookup of a set; mode and reserved number are 0 when it is refused.
#[derive(Clone, Copy, Debug, PartialEq, Eq)]
pub struct SetLookup {
    pub number: u32,
    pub place: usize,
    pub mode: u64,
    pub reserved: u64,
}

/// S-8: a refusal of a set.
fn refused(number: u32, place: usize) -> SetLookup {
    SetLookup {
        number,
        place,
        mode: 0,
        reserved: 0,
    }
}

impl Blocks {
    /// Section 11 with S-2: lists the blocks of every covered mode, reserved number and count.
    pub fn all() -> Blocks {
        let mut names = HashMap::new();
        for mode in MODES.iter().map(|mode| mode.number) {
            for reserved in 0..NUMBERS {
                for count in 0..BLOCKS {
                    let name = Name {
                        mode,
                        reserved,
                        count,
                    };
                    names.insert(block(mode, count, reserved), name);
                }
            }
        }
        Blocks(names)
    }

    /// S-8: mode and reserved number of an L1 frame's control. A faulty block comes before one that
    /// does not fit, wherever it stands.
    pub fn look_up(&self, lent: &[u8]) -> SetLookup {
        if lent.len() != CONTROL_BYTES {
            return refused(3, 0);
        }
        let mut names = Vec::new();
        for (place, block) in lent.chunks(BLOCK_BYTES).enumerate() {
            match self.0.get(block) {
                Some(&name) => names.push(name),
                None => return refused(4, place),
            }
        }
        let Name { mode, reserved, .. } = names[0];
        let wanted = (0..BLOCKS).map(|count| Name {
            mode,
            reserved,
            count,
        });
        match names.iter().zip(wanted).position(|(&a, b)| a != b) {
            Some(place) => refused(13, place),
            None => SetLookup {
                number: 0,
                place: 0,
                mode,
                reserved,
            },
        }
    }
}

/// Drawn sets: a covered mode and a reserved number.
fn drawn_pair(draw: &mut Draw) -> (u64, u64) {
    let mode = MODES[draw.below(MODES.len() as u64) as usize].number;
    (mode, draw.below(NUMBERS))
}

/// Drawn sets: the control of an L1 frame, changed up to three times: two blocks exchanged, one
/// repeated, one of another L1 frame, one of a mode that is not covered, one damaged, or all moved
/// on by a few.
pub fn drawn_set(draw: &mut Draw) -> Vec<u8> {
    let (mode, reserved) = drawn_pair(draw);
    let mut blocks: Vec<Vec<u8>> = control(mode, reserved)
        .chunks(BLOCK_BYTES)
        .map(<[u8]>::to_vec)
        .collect();
    for _ in 0..draw.below(4) {
        let [a, b] = [0; 2].map(|_| draw.below(BLOCKS) as usize);
        let count = a as u64;
        match draw.below(8) {
            0 => blocks.swap(a, b),
            1 => blocks[a] = blocks[b].clone(),
            2 => blocks[a] = block(mode, count, draw.below(NUMBERS)),
            3 => blocks[a] = block(drawn_pair(draw).0, count, reserved),
            4 => {
                let (mode, reserved) = drawn_pair(draw);
                blocks[a] = block(mode, b as u64, reserved);
            }
            5 => blocks[a] = block(draw.below(64), count, reserved),
            6 => flip(&mut blocks[a], draw.below(8 * BLOCK_BYTES as u64) as usize),
            _ => blocks.rotate_left(b),
        }
    }
    blocks.concat()
}
