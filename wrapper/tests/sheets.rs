//! The answer sheet against the second program's, byte for byte.

mod common;

use common::seed;
use layer1::{sheet, Answer, SHEET_ROOM};
use second::commands;
use second::modes::Without;

/// The input of a sheet: a drawn list of cells and drawn L1 frames.
fn drawn(seed: u64, mode: u64, count: u64, without: Without) -> Vec<u8> {
    let mut input = Vec::new();
    commands::draw_cells(seed, mode, count, &mut input).unwrap();
    commands::draw(seed, mode, count, without, &mut input).unwrap();
    input
}

/// Both on an input: the text, and zeros behind it.
fn agree(mode: u8, count: u64, without: Without, work: bool, input: &[u8]) -> String {
    let mut theirs = Vec::new();
    let _ = if work {
        commands::worked_sheet(mode.into(), count, without, &mut &input[..], &mut theirs)
    } else {
        commands::sheet(mode.into(), count, without, &mut &input[..], &mut theirs)
    };
    let mut ours = vec![0xA5; SHEET_ROOM];
    let answer = sheet(mode, count, without.p3, without.p4, work, input, &mut ours);
    assert_eq!(
        answer,
        Answer {
            number: 0,
            place: 0
        }
    );
    let text = String::from_utf8(theirs).unwrap();
    theirs = text.clone().into_bytes();
    theirs.resize(SHEET_ROOM, 0);
    assert!(ours == theirs, "MP{mode}, {count} L1 frames: {text:.60}");
    text
}

/// Drawn sheets, whole and short, and with a refused L1 frame, with workings and without.
#[test]
fn drawn_sheets() {
    let seed = seed();
    for (mode, count, work) in [(1, 13, true), (2, 1, false), (3, 7, true), (11, 13, false)] {
        let agree = |mode, count, input: &[u8]| agree(mode, count, Without::default(), work, input);
        let input = drawn(seed, mode.into(), count, Without::default());
        let end = if work { " work\n" } else { "\n" };
        assert!(agree(mode, count, &input).starts_with(&format!("MP{mode} {count}{end}")));
        let short = agree(mode, count, &input[..input.len() - 1]);
        assert!(short.starts_with("NO SHEET SHORT "));
        let mut long = input.clone();
        long.push(0);
        assert!(agree(mode, count, &long).starts_with("NO SHEET LONG "));
        assert_eq!(agree(mode, 65, &input), "NO SHEET COUNT\n");
        assert_eq!(agree(5, count, &input), "NO SHEET MODE\n");
    }
}

/// A channel without data, in a mode that has it and in one that has it not.
#[test]
fn without_data() {
    let without = Without {
        p3: true,
        p4: false,
    };
    let input = drawn(seed(), 11, 3, without);
    assert!(agree(11, 3, without, false, &input).starts_with("MP11 3 without P3\n"));
    assert!(agree(11, 3, without, true, &input).starts_with("MP11 3 without P3 work\n"));
    let mut out = vec![0xA5; SHEET_ROOM];
    sheet(1, 3, true, false, false, &input, &mut out);
    assert!(out.starts_with(b"NO SHEET WITHOUT\n\0"));
}

/// A buffer that is too short is refused, and nothing is written.
#[test]
fn too_short() {
    for length in [0, 1, SHEET_ROOM - 1] {
        let mut out = vec![0xA5; length];
        let answer = sheet(1, 0, false, false, true, b"\n", &mut out);
        assert_eq!(
            answer,
            Answer {
                number: 3,
                place: 1
            }
        );
        assert!(out.iter().all(|&byte| byte == 0xA5));
    }
}
