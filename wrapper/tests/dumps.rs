//! Document 02, S-13, beside the second program.

mod common;

use common::{seed, MODES};
use layer1::Verdict;
use second::commands;
use second::dumps::drawn;
use second::modes::{Mode, Without};

/// A dump judged by the library and by the second program.
fn both(dump: &[u8]) -> Verdict {
    let theirs = second::dumps::judge(dump);
    let ours = layer1::judge(dump);
    let expected = Verdict {
        number: theirs.number as u8,
        place: theirs.place as u32,
        frame: theirs.frame as u16,
    };
    assert_eq!(ours, expected, "seed {}, {} bytes", seed(), dump.len());
    ours
}

/// Drawn dumps of every mode: whole, cut, too long, with wrong headers, damaged.
#[test]
fn drawn_dumps() {
    for mode in MODES {
        let mut met = [0; 20];
        for dump in drawn(seed(), Mode::of_number(mode.into()).unwrap()).unwrap() {
            met[usize::from(both(&dump).number)] += 1;
        }
        assert!([0, 1, 17, 18, 19].iter().all(|&n| met[n] > 0), "{met:?}");
        assert!(met[4..9].iter().sum::<usize>() > 3, "{met:?}");
    }
}

/// Every header of eight bytes that differs from a right one in one byte, and fewer bytes.
#[test]
fn headers() {
    let right = b"HDM\x00\x01\x01\x00\x00";
    assert_eq!(both(right), Verdict::default());
    for at in 0..right.len() {
        both(&right[..at]);
        for byte in 0..=255 {
            let mut header = *right;
            header[at] = byte;
            both(&header);
        }
    }
}

/// L1 frame numbers that a byte does not hold.
#[test]
fn three_hundred_frames() {
    let (mut frames, mut dump) = (Vec::new(), Vec::new());
    let (count, all) = (300, Without::default());
    commands::draw(seed(), 1, count, all, &mut frames).unwrap();
    commands::dump(1, count, all, &mut &frames[..], &mut dump).unwrap();
    assert_eq!(both(&dump), Verdict::default());
    dump.push(0);
    let too_long = Verdict {
        number: 19,
        place: 0,
        frame: 300,
    };
    assert_eq!(both(&dump), too_long);
    dump.pop();
    *dump.last_mut().unwrap() ^= 8;
    let damaged = Verdict {
        number: 4,
        place: 15,
        frame: 299,
    };
    assert_eq!(both(&dump), damaged);
}
