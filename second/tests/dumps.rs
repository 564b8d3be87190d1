//! Document 02, S-13: dumps, and what each is judged as by hand.

mod common;

use common::MODES;
use second::commands;
use second::dumps::{drawn, header, judge, Verdict};
use second::modes::{Mode, Without};

/// The verdict with these numbers.
fn verdict(number: u32, place: usize, frame: usize) -> Verdict {
    Verdict {
        number,
        place,
        frame,
    }
}

/// A drawn dump, and the bytes of an L1 frame in it.
fn dumped(mode: u64, count: u64) -> (Vec<u8>, usize) {
    let (mut frames, mut dump) = (Vec::new(), Vec::new());
    commands::draw(7, mode, count, Without::default(), &mut frames).unwrap();
    commands::dump(mode, count, Without::default(), &mut &frames[..], &mut dump).unwrap();
    let size = Mode::of_number(mode).unwrap().matrix_lengths().iter().sum();
    assert_eq!(dump.len(), 8 + count as usize * size);
    (dump, size)
}

/// S-13: the mark, version 1, the mode and the count, most significant byte first.
#[test]
fn headers() {
    let mp11 = Mode::of_number(11).unwrap();
    assert_eq!(header(mp11, 0x1234), b"HDM\x00\x01\x0b\x12\x34");
    for (bytes, number) in [
        (&b""[..], 17),
        (b"HDM\x00\x01\x01\x00", 17),
        (b"HDN\x00\x02\x00\x00\x00", 17),
        (b"HDM\x00\x00\x00\x00\x00", 18),
        (b"HDM\x01\x00\x01\x00\x00", 18),
        (b"HDM\x00\x01\x00\x00\x00", 1),
        (b"HDM\x00\x01\x04\xff\xff", 1),
        (b"HDM\x00\x01\x0c\x00\x00", 1),
    ] {
        assert_eq!(judge(bytes), verdict(number, 0, 0), "{bytes:?}");
    }
    assert_eq!(judge(b"HDM\x00\x01\x01\x00\x00"), Verdict::default());
    assert_eq!(judge(b"HDM\x00\x01\x01\x00\x00H"), verdict(19, 0, 0));
    assert_eq!(judge(b"HDM\x00\x01\x01\xff\xff"), verdict(19, 0, 0));
}

/// S-13: a sender's dump is accepted, and none that is cut or goes on.
#[test]
fn ends() {
    for mode in MODES {
        let (mut dump, size) = dumped(mode, 4);
        assert_eq!(judge(&dump), Verdict::default());
        for (cut, frame) in [(8, 0), (7 + size, 0), (8 + size, 1), (7 + 4 * size, 3)] {
            assert_eq!(judge(&dump[..cut]), verdict(19, 0, frame));
        }
        dump.push(0);
        assert_eq!(judge(&dump), verdict(19, 0, 4));
        dump[7] = 5;
        assert_eq!(judge(&dump), verdict(19, 0, 4));
        dump[6..8].fill(255);
        assert_eq!(judge(&dump), verdict(19, 0, 4));
    }
}

/// S-13: the reader's number and place with the frame's number, before a later cut.
#[test]
fn damage() {
    for mode in MODES {
        let (whole, size) = dumped(mode, 5);
        for frame in [0, 2, 4] {
            let mut dump = whole.clone();
            dump[8 + frame * size + size - 1] ^= 8;
            assert_eq!(judge(&dump), verdict(4, 15, frame));
            let cut = 8 + (frame + 1) * size;
            assert_eq!(judge(&dump[..cut]), verdict(4, 15, frame));
            assert_eq!(judge(&dump[..cut - 1]), verdict(19, 0, frame));
            dump[5] = if mode == 1 { 2 } else { 1 };
            assert_eq!(judge(&dump).number, 4);
            assert_eq!(judge(&dump).frame, 0);
        }
    }
}

/// A dump holds at most 65,535 L1 frames; of another mode there is none.
#[test]
fn counts() {
    let mut dump = Vec::new();
    let mut send =
        |mode, count| commands::dump(mode, count, Without::default(), &mut &[][..], &mut dump);
    assert!(matches!(send(1, 65_536), Err(commands::Stop::Usage)));
    assert!(matches!(send(4, 0), Err(commands::Stop::Refused { .. })));
    send(6, 0).unwrap();
    assert_eq!(dump, b"HDM\x00\x01\x06\x00\x00");
}

/// The drawn dumps reach every verdict of the header and the end, and the reader's refusals.
#[test]
fn drawn_dumps() {
    for mode in MODES {
        let dumps = drawn(mode, Mode::of_number(mode).unwrap()).unwrap();
        for number in [0, 1, 17, 18, 19] {
            assert!(dumps.iter().any(|dump| judge(dump).number == number));
        }
        let damaged = |dump: &&Vec<u8>| (4..9).contains(&judge(dump).number);
        assert!(dumps.iter().filter(damaged).count() >= 4);
    }
}
