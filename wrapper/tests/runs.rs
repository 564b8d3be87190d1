//! Runs of drawn frames, sent and read back, with refused calls between them, and damaged ones.

mod common;

use common::{both, done, drawn, drawn_number, drawn_to_send, meant, refused, seed, sent, sent_of};
use common::{started, valid};
use common::{Buffers, Call, CONTROL, DELAY, FRAMES, MATRICES, MODES, P3, P4, PLACES, TWO_PATHS};
use layer1::{Side, State};
use second::draw::{Damage, Draw};
use second::modes::Mode;

/// How many L1 frames later the frames of P1, PIDS, P2, P3 and P4 are returned.
fn later(mode: u8) -> [usize; 5] {
    let p1 = if TWO_PATHS.contains(&mode) { 3 } else { 0 };
    [p1, 0, 0, 2, 2]
}

/// What was sent is read back, the number at once and each channel after its waiting time; before that its buffer keeps what it held. The
/// delay memories of both sides are the same.
#[test]
fn sent_and_read_back() {
    for mode in MODES {
        let mut draw = Draw::new(seed() + u64::from(mode));
        let run = sent(&mut draw, mode, 8);
        let mut reader = drawn(&mut draw, Side::Reader, mode);
        let mut state = started(Side::Reader, mode, &mut reader);
        for (t, buffers) in run.iter().enumerate() {
            let kept = drawn(&mut draw, Side::Reader, mode);
            reader[FRAMES].clone_from_slice(&kept[FRAMES]);
            reader[MATRICES].clone_from_slice(&buffers[MATRICES]);
            state = done(Call::Read, state, &mut reader);
            assert_eq!(state.reserved, buffers.reserved, "L1 frame {t} of MP{mode}");
            assert!(reader[DELAY] == buffers[DELAY], "L1 frame {t} of MP{mode}");
            for (place, later) in later(mode).into_iter().enumerate() {
                let expected = match t.checked_sub(later) {
                    Some(earlier) => meant(mode, &run[earlier], place),
                    None => kept[place].clone(),
                };
                assert!(
                    reader[place] == expected,
                    "place {place} of L1 frame {t} in MP{mode}"
                );
            }
        }
    }
}

/// Document 02, S-5: a run that is handed nothing for P3 or P4 in some L1 frames, and one that is handed the zeros there: the same in every
/// other buffer, memories too.
#[test]
fn nothing_or_zeros() {
    for mode in MODES {
        let mut draw = Draw::new(seed() + 500 + u64::from(mode));
        let run = sent(&mut draw, mode, 8);
        let mut full = run.clone();
        for buffers in &mut full {
            for place in [P3, P4] {
                buffers[place] = meant(mode, buffers, place);
            }
        }
        let other = sent_of(&mut draw, mode, &full);
        for (t, ((one, full), other)) in run.iter().zip(&full).zip(&other).enumerate() {
            for place in PLACES {
                let expected = if FRAMES.contains(&place) { full } else { one };
                assert!(
                    other[place] == expected[place],
                    "place {place} of L1 frame {t} in MP{mode}"
                );
            }
        }
    }
}

/// Two runs that differ in the number of one L1 frame alone: they have sent different control there, and the same everywhere else.
#[test]
fn one_number() {
    for mode in MODES {
        let mut draw = Draw::new(seed() + 400 + u64::from(mode));
        let run = sent(&mut draw, mode, 5);
        for change in 1..8 {
            let at = usize::from(change) % run.len();
            let mut frames = run.clone();
            frames[at].reserved ^= change;
            let other = sent_of(&mut draw, mode, &frames);
            for (t, (one, other)) in run.iter().zip(&other).enumerate() {
                let differing: Vec<usize> = PLACES.filter(|&n| one[n] != other[n]).collect();
                let expected = if t == at { vec![CONTROL] } else { vec![] };
                assert_eq!(differing, expected, "L1 frame {t} of MP{mode}");
            }
        }
    }
}

/// Calls in place of the next one of a run that are refused: states that are not valid, numbers of a sending that are too high, and each
/// length wrong.
fn refused_calls(call: Call, state: State, buffers: &mut Buffers) {
    for state in [
        State { mode: 4, ..state },
        State { half: 2, ..state },
        State { age: 4, ..state },
        State {
            reserved: 8,
            ..state
        },
    ] {
        assert_eq!(refused(call, state, buffers), (2, 0));
    }
    if let Call::Send = call {
        let handed = buffers.reserved;
        for reserved in [8, 255] {
            buffers.reserved = reserved;
            assert_eq!(refused(call, state, buffers), (9, 0));
        }
        buffers.reserved = handed;
    }
    for place in PLACES {
        buffers[place].push(0);
        assert_eq!(refused(call, state, buffers), (3, place as u32));
        buffers[place].pop();
    }
}

/// Refused calls before each good one: what is sent and what is returned stays the same, the memories too.
#[test]
fn between_refused_calls() {
    for mode in MODES {
        let mut draw = Draw::new(seed() + 300 + u64::from(mode));
        let run = sent(&mut draw, mode, 6);
        let mut sender = drawn(&mut draw, Side::Sender, mode);
        let mut reader = drawn(&mut draw, Side::Reader, mode);
        let mut undisturbed = reader.clone();
        let mut sending = started(Side::Sender, mode, &mut sender);
        let mut reading = started(Side::Reader, mode, &mut reader);
        started(Side::Reader, mode, &mut undisturbed);
        for buffers in &run {
            sender.take_frames(buffers);
            refused_calls(Call::Send, sending, &mut sender);
            sending = done(Call::Send, sending, &mut sender);
            assert!(sender == *buffers, "sent in MP{mode}");

            for reader in [&mut reader, &mut undisturbed] {
                reader[MATRICES].clone_from_slice(&buffers[MATRICES]);
            }
            refused_calls(Call::Read, reading, &mut reader);
            done(Call::Read, reading, &mut undisturbed);
            reading = done(Call::Read, reading, &mut reader);
            assert!(reader == undisturbed, "read in MP{mode}");
        }
    }
}

/// Damaged matrices: the same refusals, and the readings that go on after them the same. Every cause from 4 on is met.
#[test]
fn damaged() {
    const COUNT: u64 = 7;
    let mut met = [0; 9];
    for mode in MODES {
        let mut draw = Draw::new(seed() + 100 + u64::from(mode));
        let run = sent(&mut draw, mode, COUNT as usize);
        for n in 0..26 {
            let known = Mode::of_number(mode.into()).unwrap();
            let mut damage = Damage::new(seed() + n, known, COUNT);
            let mut reader = drawn(&mut draw, Side::Reader, mode);
            let mut state = started(Side::Reader, mode, &mut reader);
            for (t, buffers) in run.iter().enumerate() {
                let mut matrices: [Vec<u8>; 4] = buffers[MATRICES].to_vec().try_into().unwrap();
                damage.frame(t as u64, &mut matrices);
                reader[MATRICES].clone_from_slice(&matrices);
                let outcome = both(Call::Read, state, &mut reader);
                met[usize::from(outcome.number)] += 1;
                state = outcome.state;
            }
        }
    }
    for (number, times) in met.iter().enumerate().skip(4) {
        assert!(
            *times > 0,
            "no refusal {number} in {met:?}, seed {}",
            seed()
        );
    }
}

/// A run that begins in any valid state, on drawn memory: the library asks nothing more of its buffers. A reader is lent a delay memory of
/// its own, and then the sender's.
#[test]
fn from_any_state() {
    for mode in MODES {
        let mut draw = Draw::new(seed() + 200 + u64::from(mode));
        for &(half, age) in valid(mode) {
            let state = State {
                mode,
                half,
                age,
                reserved: drawn_number(&mut draw),
            };
            let mut sender = drawn_to_send(&mut draw, mode);
            let delay = sender[DELAY].clone();
            done(Call::Send, state, &mut sender);
            let mut reader = drawn(&mut draw, Side::Reader, mode);
            reader[MATRICES].clone_from_slice(&sender[MATRICES]);
            both(Call::Read, state, &mut reader);
            reader[DELAY].clone_from_slice(&delay);
            both(Call::Read, state, &mut reader);
        }
    }
}
