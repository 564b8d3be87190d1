//! Section 11: system control processing.

use crate::modes::MODES;

/// Section 11.1: reference subcarriers, the columns of a control block.
pub const COLUMNS: usize = 61;
/// Section 11.1: symbols, the rows of a control block.
pub const ROWS: usize = 32;
/// Document 01: the bytes of a packed control block, eight for each row.
pub const BLOCK_BYTES: usize = 8 * ROWS;
/// Section 11.2.5: L1 blocks of an L1 frame.
pub const BLOCKS: u64 = 16;

/// Table 11-3: bits 21 and 20 of each column.
const RSID: [u32; COLUMNS] = [
    0b10, 0b01, 0b00, 0b11, 0b10, 0b01, 0b00, 0b11, 0b10, 0b01, 0b00, 0b11, 0b10, 0b01, 0b00, 0b11,
    0b10, 0b01, 0b00, 0b11, 0b10, 0b01, 0b00, 0b11, 0b10, 0b01, 0b00, 0b11, 0b10, 0b01, 0b00, 0b01,
    0b10, 0b11, 0b00, 0b01, 0b10, 0b11, 0b00, 0b01, 0b10, 0b11, 0b00, 0b01, 0b10, 0b11, 0b00, 0b01,
    0b10, 0b11, 0b00, 0b01, 0b10, 0b11, 0b00, 0b01, 0b10, 0b11, 0b00, 0b01, 0b10,
];

/// Table 11-1: even parity over the bits from high down to low of a sequence.
fn parity(sequence: u32, high: u32, low: u32) -> u32 {
    (low..=high).fold(0, |sum, bit| sum ^ ((sequence >> bit) & 1))
}

/// Document 02, S-2: the bits of the sequence that carry the Configuration Administrator's number,
/// its lowest bit first.
const ADMINISTRATOR: [u32; 3] = [7, 16, 24];
/// Document 02, S-2: the administrator's numbers are those below this one.
pub const NUMBERS: u64 = 1 << ADMINISTRATOR.len();

/// Section 11.2, Table 11-1: the system control data sequence of one column.
pub fn sequence(mode: u64, count: u64, reserved: u64, column: usize) -> u32 {
    let mut r = 0b011_0010 << 25;
    for (weight, bit) in ADMINISTRATOR.into_iter().enumerate() {
        r |= ((reserved >> weight) as u32 & 1) << bit;
    }
    r |= 1 << 22;
    r |= RSID[column] << 20;
    r |= (count as u32 & 15) << 12;
    r |= 0b11 << 9;
    r |= 1 << 8;
    r |= (mode as u32 & 63) << 1;
    r |= parity(r, 24, 24) << 23;
    r |= parity(r, 21, 19) << 18;
    r |= parity(r, 16, 12) << 11;
    r |= parity(r, 8, 1);
    r
}

/// Section 11.3: the differential encoder of one column, from 0 at row 0.
pub fn differential(sequence: u32) -> u32 {
    let mut stored = 0;
    let mut encoded = 0;
    for bit in (0..32).rev() {
        stored ^= (sequence >> bit) & 1;
        encoded |= stored << bit;
    }
    encoded
}

/// Section 11.1: the matrix R of one L1 block, packed row by row.
pub fn block(mode: u64, count: u64, reserved: u64) -> Vec<u8> {
    let mut rows = [0u64; ROWS];
    for column in 0..COLUMNS {
        let encoded = differential(sequence(mode, count, reserved, column));
        for (row, cells) in rows.iter_mut().enumerate() {
            let bit = (encoded >> (31 - row)) & 1;
            *cells |= u64::from(bit) << (63 - column);
        }
    }
    rows.iter().flat_map(|cells| cells.to_be_bytes()).collect()
}

/// Sections 11.1 and 11.2.5: the sixteen control blocks of an L1 frame.
pub fn control(mode: u64, reserved: u64) -> Vec<u8> {
    (0..BLOCKS)
        .flat_map(|count| block(mode, count, reserved))
        .collect()
}

/// Document 02, S-2: the number for which this is the block of a mode and a count.
pub fn number_of(mode: u64, count: u64, lent: &[u8]) -> Option<u64> {
    (0..NUMBERS).find(|&reserved| block(mode, count, reserved) == lent)
}

/// The answer of a lookup; mode, count and reserved number are 0 when it is refused.
#[derive(Clone, Copy, Debug, PartialEq, Eq)]
pub struct Lookup {
    pub number: u32,
    pub mode: u64,
    pub count: u64,
    pub reserved: u64,
}

/// Documents 01 and 02, operations: mode, block count and reserved number of a control block alone.
pub fn lookup(lent: &[u8]) -> Lookup {
    let refused = |number| Lookup {
        number,
        mode: 0,
        count: 0,
        reserved: 0,
    };
    if lent.len() != BLOCK_BYTES {
        return refused(3);
    }
    for mode in MODES.iter().map(|mode| mode.number) {
        for count in 0..BLOCKS {
            if let Some(reserved) = number_of(mode, count, lent) {
                return Lookup {
                    number: 0,
                    mode,
                    count,
                    reserved,
                };
            }
        }
    }
    refused(4)
}
