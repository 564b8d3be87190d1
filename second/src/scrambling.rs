//! Section 8: scrambling.

/// The shift register of section 8.2, stages 1 to 11 from the left.
pub struct Register {
    stages: [bool; 11],
}

impl Register {
    /// Section 8.2: the register reset to 0111 1111 111.
    pub fn reset() -> Register {
        let mut stages = [true; 11];
        stages[0] = false;
        Register { stages }
    }

    /// Section 8.2: one scrambling bit, stage 2 plus stage 11, which also enters stage 1.
    pub fn scrambling_bit(&mut self) -> bool {
        let bit = self.stages[1] ^ self.stages[10];
        self.stages.copy_within(0..10, 1);
        self.stages[0] = bit;
        bit
    }
}

/// Section 8.2: scrambles one transfer frame, or takes the scrambling off again.
pub fn scramble(frame: &[bool]) -> Vec<bool> {
    let mut register = Register::reset();
    frame
        .iter()
        .map(|&bit| bit ^ register.scrambling_bit())
        .collect()
}
