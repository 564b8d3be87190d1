//! Document 01, what is covered and lent lengths per L1 frame, with MP5 and MP6 of document 02, S-9.

use crate::interleaving::{Partitions, PxRow, PX2_MP5, PX2_MP6, PX_MP2, PX_MP3_MP11};

/// Bits of a P1 transfer frame in the modes without P2.
pub const P1_BITS: usize = 146_176;
/// Bits of a PIDS transfer frame.
pub const PIDS_BITS: usize = 80;
/// P1' frames of an L1 frame, of a block pair each.
pub const BLOCK_PAIRS: usize = 8;
/// N_dd, the L1 frames of digital diversity delay.
pub const DIVERSITY_DELAY: u64 = 3;
/// The L1 frames that a P3 or P4 frame waits for on the way back.
pub const EXTENDED_WAIT: u64 = 2;

/// The transfer frames of a channel at rate 2/5 in an L1 frame: how many, and the bits of each.
#[derive(Clone, Copy)]
pub struct Frames {
    pub count: usize,
    pub bits: usize,
}

impl Frames {
    /// House packing: the bytes of all frames.
    pub fn bytes(self) -> usize {
        self.count * self.bits / 8
    }

    /// Tables 10-1 to 10-6: the coded bits of one frame.
    pub fn coded_bits(self) -> usize {
        self.bits * 5 / 2
    }

    /// Tables 10-1 to 10-6: the coded bits of all frames.
    pub fn all_coded_bits(self) -> usize {
        self.count * self.coded_bits()
    }
}

/// P1 of MP1, MP2, MP3 and MP11 (Tables 7-3 to 7-6).
const WHOLE_P1: Frames = Frames {
    count: 1,
    bits: P1_BITS,
};

/// The PIDS frames of every mode.
pub const PIDS: Frames = Frames {
    count: 16,
    bits: PIDS_BITS,
};

/// P2 of a mode without it; the size of no frame matters not.
const NO_P2: Frames = Frames { count: 0, bits: 8 };

/// An extended channel, P3 or P4, of a service mode: lengths in bytes.
#[derive(Clone, Copy)]
pub struct Extended {
    pub row: Option<&'static PxRow>,
    /// The eight transfer frames.
    pub frames: usize,
    /// The eight output matrices.
    pub matrices: usize,
    pub sender_memory: usize,
    pub reader_memory: usize,
}

/// A channel that the mode does not use.
const UNUSED: Extended = Extended {
    row: None,
    frames: 0,
    matrices: 0,
    sender_memory: 0,
    reader_memory: 0,
};

/// P3 of MP2.
const SMALL: Extended = Extended {
    row: Some(&PX_MP2),
    frames: 2_304,
    matrices: 4_608,
    sender_memory: 9_216,
    reader_memory: 13_824,
};

/// P3 of MP3 and MP5, P3 and P4 of MP11.
const LARGE: Extended = Extended {
    row: Some(&PX_MP3_MP11),
    frames: 4_608,
    matrices: 9_216,
    sender_memory: 18_432,
    reader_memory: 27_648,
};

/// Document 02, S-5: the extended channels for which a sender is handed nothing.
#[derive(Clone, Copy, Debug, Default, PartialEq, Eq)]
pub struct Without {
    pub p3: bool,
    pub p4: bool,
}

/// A covered service mode.
pub struct Mode {
    pub number: u64,
    pub p1: Frames,
    pub p2: Frames,
    pub p3: Extended,
    pub p4: Extended,
    /// The PX2 matrix of a frame of P1', the delayed path of P1, if the mode has one.
    pub delayed: Option<&'static Partitions>,
}

impl Mode {
    /// Document 01, what is covered: a mode without P2 and without a second path of P1.
    const fn older(number: u64, p3: Extended, p4: Extended) -> Mode {
        Mode {
            number,
            p1: WHOLE_P1,
            p2: NO_P2,
            p3,
            p4,
            delayed: None,
        }
    }

    /// Tables 7-7, 7-8, 10-5 and 10-6: a mode with eight P1 frames on two paths, and P2.
    const fn on_two_paths(
        number: u64,
        p1_bits: usize,
        p2_bits: usize,
        p3: Extended,
        delayed: &'static Partitions,
    ) -> Mode {
        let p1 = Frames {
            count: BLOCK_PAIRS,
            bits: p1_bits,
        };
        let p2 = Frames {
            count: 1,
            bits: p2_bits,
        };
        Mode {
            number,
            p1,
            p2,
            p3,
            p4: UNUSED,
            delayed: Some(delayed),
        }
    }
}

/// The covered service modes.
pub static MODES: [Mode; 6] = [
    Mode::older(1, UNUSED, UNUSED),
    Mode::older(2, SMALL, UNUSED),
    Mode::older(3, LARGE, UNUSED),
    Mode::on_two_paths(5, 4_608, 109_312, LARGE, &PX2_MP5),
    Mode::on_two_paths(6, 9_216, 72_448, UNUSED, &PX2_MP6),
    Mode::older(11, LARGE, LARGE),
];

impl Mode {
    /// Document 01, what is covered: the mode of this number, if it is a covered one.
    pub fn of_number(number: u64) -> Option<&'static Mode> {
        MODES.iter().find(|mode| mode.number == number)
    }

    /// Document 02, S-9: the L1 frames by which P1' is behind P1, 0 if there is no P1'.
    pub fn delay(&self) -> u64 {
        self.delayed.map_or(0, |_| DIVERSITY_DELAY)
    }

    /// Documents 01 and 02, run states: the age that stands for itself and every greater one.
    pub fn oldest_age(&self) -> u64 {
        EXTENDED_WAIT.max(self.delay())
    }

    /// Documents 01 and 02, lent lengths: P1, PIDS, P2, P3, P4.
    pub fn frame_lengths(&self) -> [usize; 5] {
        [
            self.p1.bytes(),
            PIDS.bytes(),
            self.p2.bytes(),
            self.p3.frames,
            self.p4.frames,
        ]
    }

    /// Document 02, S-5: the lengths of P1, PIDS, P2, P3, P4 of a sender that is handed nothing for
    /// some channels; none if the mode lacks one of these.
    pub fn handed_lengths(&self, without: Without) -> Option<[usize; 5]> {
        let mut lengths = self.frame_lengths();
        for (place, left_out) in [(3, without.p3), (4, without.p4)] {
            if left_out && lengths[place] == 0 {
                return None;
            }
            if left_out {
                lengths[place] = 0;
            }
        }
        Some(lengths)
    }

    /// Documents 01 and 02, lent lengths: PM, PX1, PX2 (of P4 or of P1'), control.
    pub fn matrix_lengths(&self) -> [usize; 4] {
        let delayed = self.delayed.map_or(0, |px2| BLOCK_PAIRS * px2.bits() / 8);
        let px2 = self.p4.matrices + delayed;
        [46_080, self.p3.matrices, px2, 4_096]
    }

    /// Documents 01 and 02, lent lengths: the sender's memories for P3 and P4, the delay memory.
    pub fn sender_memory_lengths(&self) -> [usize; 3] {
        self.memory_lengths(|channel| channel.sender_memory)
    }

    /// Documents 01 and 02, lent lengths: the reader's memories for P3 and P4, the delay memory.
    pub fn reader_memory_lengths(&self) -> [usize; 3] {
        self.memory_lengths(|channel| channel.reader_memory)
    }

    /// Documents 01 and 02, lent lengths: the memories of one side.
    fn memory_lengths(&self, of_side: impl Fn(&Extended) -> usize) -> [usize; 3] {
        let delay = self.delay() as usize * self.p1.bytes();
        [of_side(&self.p3), of_side(&self.p4), delay]
    }
}
