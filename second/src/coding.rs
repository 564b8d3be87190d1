//! Section 9.3: convolutional encoding, and the way back along the trellis.

/// Table 9-2: the generators; the leftmost of seven binary digits is for the newest bit.
const GENERATORS: [u8; 3] = [0o133, 0o171, 0o165];

/// The number of encoder states: the last six bits.
const STATES: u8 = 64;

/// The punctured code rates in use.
#[derive(Clone, Copy, Debug, PartialEq, Eq)]
pub enum Rate {
    TwoFifths,
    OneHalf,
}

impl Rate {
    /// Table 9-1: the generators that the puncture matrix keeps for input bit i.
    pub(crate) fn kept(self, i: usize) -> &'static [usize] {
        match (self, i % 2) {
            (Rate::TwoFifths, 0) => &[0, 1, 2],
            (Rate::TwoFifths, _) => &[0, 1],
            (Rate::OneHalf, _) => &[0, 2],
        }
    }
}

/// Section 9.3.1: the output of one generator; bit 6 of the window is the newest bit.
pub(crate) fn output(generator: usize, window: u8) -> bool {
    (GENERATORS[generator] & window).count_ones() % 2 == 1
}

/// Section 9.3.4: the state that the last six bits leave, the last one leftmost.
fn tail_state(frame: &[bool]) -> u8 {
    let tail = &frame[frame.len() - 6..];
    tail.iter()
        .fold(0, |state, &bit| (u8::from(bit) << 5) | (state >> 1))
}

/// Sections 9.3.1 to 9.3.4: codes one scrambled transfer frame (six bits at least).
pub fn encode(rate: Rate, frame: &[bool]) -> Vec<bool> {
    let mut state = tail_state(frame);
    let mut coded = Vec::with_capacity(frame.len() * 5 / 2);
    for (i, &bit) in frame.iter().enumerate() {
        let window = (u8::from(bit) << 6) | state;
        coded.extend(rate.kept(i).iter().map(|&g| output(g, window)));
        state = window >> 1;
    }
    coded
}

/// Section 9.3.4: the frame that these coded bits belong to; none if they are no coded frame.
pub fn decode(rate: Rate, coded: &[bool]) -> Option<Vec<bool>> {
    (0..STATES).find_map(|start| follow(rate, coded, start))
}

/// Section 9.3.4: follows the trellis from one start state as far as the coded bits agree.
fn follow(rate: Rate, coded: &[bool], start: u8) -> Option<Vec<bool>> {
    let mut state = start;
    let mut frame = Vec::new();
    let mut rest = coded;
    while !rest.is_empty() {
        let kept = rate.kept(frame.len());
        if rest.len() < kept.len() {
            return None;
        }
        let (step, later) = rest.split_at(kept.len());
        let newest = step[0] ^ output(kept[0], state);
        let window = (u8::from(newest) << 6) | state;
        if kept
            .iter()
            .zip(step)
            .any(|(&g, &bit)| output(g, window) != bit)
        {
            return None;
        }
        frame.push(newest);
        state = window >> 1;
        rest = later;
    }
    (state == start).then_some(frame)
}
