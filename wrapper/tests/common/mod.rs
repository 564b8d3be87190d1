//! Each call made twice on equal buffers, through the library and through the second program, and the two held against each other.
#![allow(dead_code)]

use std::ops::{Deref, DerefMut, Range};

use layer1::{Answer, Outcome, Side, State, Working};
use second::control::NUMBERS;
use second::draw::Draw;
use second::locating;
use second::run;

/// The covered modes.
pub const MODES: [u8; 6] = [1, 2, 3, 5, 6, 11];

/// Those with P2 and with P1 on two paths.
pub const TWO_PATHS: [u8; 2] = [5, 6];

/// The states that are valid in a covered mode: half and age.
pub fn valid(mode: u8) -> &'static [(u8, u8)] {
    match TWO_PATHS.contains(&mode) {
        true => &[(0, 0), (1, 1), (0, 2), (0, 3), (1, 3)],
        false => &[(0, 0), (1, 1), (0, 2), (1, 2)],
    }
}

pub const P1: usize = 0;
pub const PIDS: usize = 1;
pub const P2: usize = 2;
pub const P3: usize = 3;
pub const P4: usize = 4;
pub const PM: usize = 5;
pub const PX1: usize = 6;
pub const PX2: usize = 7;
pub const CONTROL: usize = 8;
pub const MEMORY3: usize = 9;
pub const MEMORY4: usize = 10;
pub const DELAY: usize = 11;

/// The places of the transfer frames, of the matrices with control, of the memories, of all.
pub const FRAMES: Range<usize> = P1..PM;
pub const MATRICES: Range<usize> = PM..MEMORY3;
pub const MEMORIES: Range<usize> = MEMORY3..12;
pub const PLACES: Range<usize> = P1..12;

/// The buffers of a sending or a reading, in the order of their places, and the reserved number that a sending is handed.
#[derive(Clone, PartialEq, Eq)]
pub struct Buffers {
    places: [Vec<u8>; 12],
    pub reserved: u8,
}

impl Deref for Buffers {
    type Target = [Vec<u8>; 12];

    fn deref(&self) -> &[Vec<u8>; 12] {
        &self.places
    }
}

impl DerefMut for Buffers {
    fn deref_mut(&mut self) -> &mut [Vec<u8>; 12] {
        &mut self.places
    }
}

impl Buffers {
    /// Takes over what another sending was handed: its transfer frames and its number.
    pub fn take_frames(&mut self, other: &Buffers) {
        self[FRAMES].clone_from_slice(&other[FRAMES]);
        self.reserved = other.reserved;
    }
}

/// Lends buffers to a call, by the names that its structure has for them; the memories for P3 and P4 have two.
macro_rules! lent {
    ($call:path, $buffers:expr, $memory3:ident, $memory4:ident) => {
        lent!(@ $call, $buffers, p1 pids p2 p3 p4 pm px1 px2 control $memory3 $memory4 delay)
    };
    (@ $call:path, $buffers:expr, $($name:ident)*) => {{
        let [$($name),*] = &mut $buffers.places;
        $call { $($name),* }
    }};
}

/// A sending or a reading.
#[derive(Clone, Copy, Debug)]
pub enum Call {
    Send,
    Read,
}

impl Call {
    pub fn side(self) -> Side {
        match self {
            Call::Send => Side::Sender,
            Call::Read => Side::Reader,
        }
    }
}

/// What the drawing starts from: SEED of the environment, or 1.
pub fn seed() -> u64 {
    std::env::var("SEED").map_or(1, |seed| seed.parse().expect("SEED is a number"))
}

/// A drawn reserved number.
pub fn drawn_number(draw: &mut Draw) -> u8 {
    draw.below(NUMBERS) as u8
}

/// Drawn buffers of the lengths that a mode asks, as the library gives them, and a drawn number.
pub fn drawn(draw: &mut Draw, side: Side, mode: u8) -> Buffers {
    Buffers {
        places: std::array::from_fn(|place| draw.bytes(layer1::length(side, mode, place))),
        reserved: drawn_number(draw),
    }
}

/// The second program's answer in the library's terms.
fn as_ours(answer: run::Answer) -> Outcome {
    Outcome {
        number: answer.number as u8,
        place: answer.place as u32,
        state: State {
            mode: answer.state.mode as u8,
            half: answer.state.half as u8,
            age: answer.state.age as u8,
            reserved: answer.state.reserved as u8,
        },
        reserved: answer.reserved as u8,
    }
}

fn as_theirs(state: State) -> run::State {
    run::State {
        mode: state.mode.into(),
        half: state.half.into(),
        age: state.age.into(),
        reserved: state.reserved.into(),
    }
}

fn ours(call: Call, state: State, buffers: &mut Buffers) -> Outcome {
    match call {
        Call::Send => layer1::send(
            state,
            buffers.reserved,
            &mut lent!(layer1::Sending, buffers, memory3, memory4),
        ),
        Call::Read => layer1::read(
            state,
            &mut lent!(layer1::Reading, buffers, memory3, memory4),
        ),
    }
}

fn theirs(call: Call, state: State, buffers: &mut Buffers) -> Outcome {
    let state = as_theirs(state);
    as_ours(match call {
        Call::Send => run::send(
            state,
            buffers.reserved.into(),
            &mut lent!(run::Sending, buffers, memory_p3, memory_p4),
        ),
        Call::Read => run::read(
            state,
            &mut lent!(run::Reading, buffers, memory_p3, memory_p4),
        ),
    })
}

/// Makes a call through both: they return the same and leave the same in every buffer.
pub fn both(call: Call, state: State, buffers: &mut Buffers) -> Outcome {
    let mut others = buffers.clone();
    let outcome = ours(call, state, buffers);
    assert_eq!(
        outcome,
        theirs(call, state, &mut others),
        "{call:?} of {state:?}, seed {}",
        seed()
    );
    let same = buffers.iter().zip(others.iter()).position(|(a, b)| a != b);
    assert_eq!(
        same,
        None,
        "the buffer that {call:?} of {state:?} leaves different, seed {}",
        seed()
    );
    outcome
}

/// Makes a call that is refused through both: its number and place. It leaves the state and every buffer, and returns no reserved number.
pub fn refused(call: Call, state: State, buffers: &mut Buffers) -> (u8, u32) {
    let before = buffers.clone();
    let outcome = both(call, state, buffers);
    assert_ne!(outcome.number, 0, "{call:?} of {state:?}, seed {}", seed());
    assert_eq!((outcome.state, outcome.reserved), (state, 0));
    assert!(*buffers == before, "{call:?} of {state:?}, seed {}", seed());
    (outcome.number, outcome.place)
}

/// Makes a call that succeeds through both: the state that it returns, which holds the number sent or read.
pub fn done(call: Call, state: State, buffers: &mut Buffers) -> State {
    let outcome = both(call, state, buffers);
    let answer = (outcome.number, outcome.place);
    assert_eq!(answer, (0, 0), "{call:?} of {state:?}, seed {}", seed());
    let number = match call {
        Call::Send => buffers.reserved,
        Call::Read => outcome.reserved,
    };
    assert_eq!(outcome.state.reserved, number);
    outcome.state
}

/// Starts a side through both, with the memories for P3 and P4 and the delay memory.
pub fn both_start(side: Side, mode: u8, memories: &mut [Vec<u8>; 3]) -> Outcome {
    let mut others = memories.clone();
    let other_side = match side {
        Side::Sender => run::Side::Sender,
        Side::Reader => run::Side::Reader,
    };
    let theirs = others.each_mut().map(|memory| &mut memory[..]);
    let answer = run::start(other_side, mode.into(), theirs);
    let [memory3, memory4, delay] = memories.each_mut();
    let outcome = layer1::start(side, mode, memory3, memory4, delay);
    assert_eq!(outcome, as_ours(answer), "start of {side:?} in mode {mode}");
    assert!(
        *memories == others,
        "memories after a start of {side:?} in mode {mode}"
    );
    outcome
}

/// Starts a side of a covered mode with its memories in `buffers`: the state.
pub fn started(side: Side, mode: u8, buffers: &mut Buffers) -> State {
    let mut memories: [Vec<u8>; 3] = buffers[MEMORIES].to_vec().try_into().unwrap();
    let outcome = both_start(side, mode, &mut memories);
    assert_eq!((outcome.number, outcome.place), (0, 0));
    buffers[MEMORIES].clone_from_slice(&memories);
    outcome.state
}

/// A sender's run of the transfer frames and numbers in these buffers: the buffers after each sending.
pub fn sent_of(draw: &mut Draw, mode: u8, frames: &[Buffers]) -> Vec<Buffers> {
    let mut buffers = drawn(draw, Side::Sender, mode);
    let mut state = started(Side::Sender, mode, &mut buffers);
    let send = |frames: &Buffers| {
        buffers.take_frames(frames);
        state = done(Call::Send, state, &mut buffers);
        buffers.clone()
    };
    frames.iter().map(send).collect()
}

/// Drawn buffers of a sending; now and then nothing is handed for P3 or P4 (document 02, S-5).
pub fn drawn_to_send(draw: &mut Draw, mode: u8) -> Buffers {
    let mut buffers = drawn(draw, Side::Sender, mode);
    for place in [P3, P4] {
        if draw.below(3) == 0 {
            buffers[place].clear();
        }
    }
    buffers
}

/// The transfer frames that a sending of these buffers means: zeros where it is handed nothing.
pub fn meant(mode: u8, buffers: &Buffers, place: usize) -> Vec<u8> {
    match buffers[place].is_empty() {
        true => vec![0; layer1::length(Side::Sender, mode, place)],
        false => buffers[place].clone(),
    }
}

/// A sender's run of drawn frames and numbers: the buffers after each sending.
pub fn sent(draw: &mut Draw, mode: u8, count: usize) -> Vec<Buffers> {
    let frames: Vec<Buffers> = (0..count).map(|_| drawn_to_send(draw, mode)).collect();
    sent_of(draw, mode, &frames)
}

/// A bit of a buffer: the buffer's place, and the bit counted from 0 through it.
pub type Bit = (usize, usize);

/// Turns bits over.
pub fn turn_over(buffers: &mut Buffers, bits: &[Bit]) {
    for &(place, n) in bits {
        buffers[place][n / 8] ^= 128 >> (n % 8);
    }
}

/// What the second program says of a working, in the library's terms.
pub fn expected_working(
    theirs: Result<locating::Working, run::Refusal>,
) -> Result<Working, Answer> {
    let worked = theirs.map_err(|refusal| Answer {
        number: refusal.number as u8,
        place: refusal.place as u32,
    })?;
    Ok(Working {
        bit: worked.number as u64,
        generator: worked.generator.into(),
        bits: worked.bits.map(u64::from),
        scrambling: worked.scrambling.map(u64::from),
        sum: worked.sum.into(),
        coded: (worked.sum % 2).into(),
        step: worked.step as u64,
        k: worked.k as u64,
        position: worked.position.map(|n| n as u64),
        cell: worked.cell as u64,
    })
}
