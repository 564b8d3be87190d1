//! The commands of the program.

use second::commands::{self, Stop};
use second::control::control;
use second::modes::Without;
use second::words;

/// Every channel with its data.
const FULL: Without = Without {
    p3: false,
    p4: false,
};

/// The commands: the output of a drawn run's sending.
fn sent(seed: u64, mode: u64, count: u64) -> (Vec<u8>, Vec<u8>) {
    let mut frames = Vec::new();
    commands::draw(seed, mode, count, FULL, &mut frames).unwrap();
    let mut matrices = Vec::new();
    commands::send(mode, count, FULL, &mut &frames[..], &mut matrices).unwrap();
    (frames, matrices)
}

/// The commands: number, place and frame of a refusal.
fn refusal(result: Result<(), Stop>) -> (u32, usize, u64) {
    match result {
        Err(Stop::Refused { refusal, frame }) => (refusal.number, refusal.place, frame),
        other => panic!("not refused: {other:?}"),
    }
}

/// Reading: what was drawn comes back in the order of the L1 frames.
#[test]
fn reading_returns_the_frames() {
    let (frames, matrices) = sent(1, 2, 5);
    let mut returned = Vec::new();
    commands::read(2, 5, &mut &matrices[..], &mut returned).unwrap();
    let drawn: Vec<&[u8]> = frames.chunks(1 + 18_432 + 2_304).collect();
    let mut expected = Vec::new();
    for t in 0..5 {
        expected.extend(&drawn[t][..1 + 18_432]);
        if t >= 2 {
            expected.extend(&drawn[t - 2][1 + 18_432..]);
        }
    }
    assert!(returned == expected);
}

/// Reading in MP5 and MP6: P1 from the fourth L1 frame on, before that L1 frame's PIDS and P2; P3
/// from the third on, behind them.
#[test]
fn reading_returns_the_frames_of_two_paths() {
    for (mode, p1, p2, p3) in [(5, 4_608, 13_664, 4_608), (6, 9_216, 9_056, 0)] {
        let (frames, matrices) = sent(1, mode, 6);
        assert_eq!(frames.len(), 6 * (1 + p1 + 160 + p2 + p3));
        let mut returned = Vec::new();
        commands::read(mode, 6, &mut &matrices[..], &mut returned).unwrap();
        let drawn: Vec<&[u8]> = frames.chunks(1 + p1 + 160 + p2 + p3).collect();
        let mut expected = Vec::new();
        for t in 0..6 {
            expected.push(drawn[t][0]);
            if t >= 3 {
                expected.extend(&drawn[t - 3][1..1 + p1]);
            }
            expected.extend(&drawn[t][1 + p1..1 + p1 + 160 + p2]);
            if t >= 2 {
                expected.extend(&drawn[t - 2][1 + p1 + 160 + p2..]);
            }
        }
        assert!(returned == expected);
    }
}

/// Reading on: one line for each refused L1 frame, and the accepted ones returned.
#[test]
fn reading_on() {
    let (frames, mut matrices) = sent(1, 1, 4);
    let frame_length = 46_080 + 4_096;
    matrices[frame_length + 7] ^= 1;
    let mut returned = Vec::new();
    let mut report = Vec::new();
    commands::read_on(1, 4, &mut &matrices[..], &mut returned, &mut report).unwrap();
    let report = String::from_utf8(report).unwrap();
    let said: Vec<&str> = report.lines().collect();
    assert_eq!(said[0], "refused: number 5 place 0 frame 1");
    assert_eq!(said[1..], [words::of_cause(5)]);
    let drawn: Vec<&[u8]> = frames.chunks(1 + 18_432).collect();
    assert!(returned == [drawn[0], drawn[2], drawn[3]].concat());
}

/// Short input: number 3 and the first short buffer.
#[test]
fn short_input() {
    let (frames, matrices) = sent(1, 11, 2);
    let frame_length = 1 + 18_272 + 160 + 2 * 4_608;
    for (length, place) in [
        (0, 0),
        (1, 0),
        (18_273, 1),
        (18_433, 3),
        (18_433 + 4_608, 4),
    ] {
        let mut input = &frames[..frame_length + length];
        let mut output = Vec::new();
        let stop = commands::send(11, 2, FULL, &mut input, &mut output);
        assert_eq!(refusal(stop), (3, place, 1));
        assert!(output == matrices[..matrices.len() / 2]);
    }
    for (length, place) in [(46_079, 5), (46_080, 6), (55_297, 7), (65_000, 8)] {
        let stop = commands::read(11, 2, &mut &matrices[..length], &mut Vec::new());
        assert_eq!(refusal(stop), (3, place, 0));
    }
    let stop = commands::send(4, 0, FULL, &mut &frames[..], &mut Vec::new());
    assert_eq!(refusal(stop), (1, 0, 0));
}

/// Short input in MP5 and MP6: P2 is place 2, PX2 place 7.
#[test]
fn short_input_of_two_paths() {
    let mp5 = [(4_608, 0), (4_609, 1), (4_769, 2), (18_433, 3)];
    let mp6 = [(9_216, 0), (9_217, 1), (9_377, 2), (18_432, 2)];
    for (mode, ends) in [(5, mp5), (6, mp6)] {
        let (frames, matrices) = sent(1, mode, 1);
        for (length, place) in ends {
            let stop = commands::send(mode, 1, FULL, &mut &frames[..length], &mut Vec::new());
            assert_eq!(refusal(stop), (3, place, 0));
        }
        for (length, place) in [(46_079, 5), (64_511, 7), (64_512, 8)] {
            let stop = commands::read(mode, 1, &mut &matrices[..length], &mut Vec::new());
            assert_eq!(refusal(stop), (3, place, 0));
        }
    }
}

/// Document 02, S-2: a number above 7 is refused as 9, before a short input is, and the L1 frames
/// before it are sent.
#[test]
fn numbers_too_high() {
    let (mut frames, matrices) = sent(1, 1, 3);
    for number in [8, 255] {
        frames[1 + 18_432] = number;
        for length in [2 * (1 + 18_432), 1 + 18_432 + 1] {
            let mut output = Vec::new();
            let stop = commands::send(1, 3, FULL, &mut &frames[..length], &mut output);
            assert_eq!(refusal(stop), (9, 0, 1));
            assert!(output == matrices[..matrices.len() / 3]);
        }
    }
    let mut blocks = Vec::new();
    commands::control_blocks(3, 5, &mut blocks).unwrap();
    assert!(blocks == control(3, 5));
    let stop = commands::control_blocks(3, 8, &mut Vec::new());
    assert_eq!(refusal(stop), (9, 0, 0));
}

/// Damage: reproducible, now and then on one L1 frame only, never of other lengths.
#[test]
fn damage() {
    let (_, matrices) = sent(1, 3, 4);
    let frame_length = matrices.len() / 4;
    let mut one_only = 0;
    for seed in 0..60 {
        let mut damaged = Vec::new();
        commands::damage(seed, 3, 4, &mut &matrices[..], &mut damaged).unwrap();
        assert_eq!(damaged.len(), matrices.len());
        let pairs = damaged
            .chunks(frame_length)
            .zip(matrices.chunks(frame_length));
        let hit = pairs.filter(|(a, b)| a != b).count();
        one_only += usize::from(hit == 1);
    }
    assert!((25..50).contains(&one_only));
}

/// Damage in MP5 and MP6: every cause is met, and in 26 runs whose seeds follow each other there is
/// one in which L1 frame t alone is damaged and a reader finds it out only in L1 frame t + 3.
#[test]
fn damage_of_two_paths() {
    for (mode, causes) in [(5, &[4, 5, 6, 7, 8][..]), (6, &[4, 5, 6, 7])] {
        let (_, matrices) = sent(1, mode, 7);
        let frame_length = matrices.len() / 7;
        let mut met = Vec::new();
        for seeds in [104..130, 130..156, 156..182] {
            let mut late = 0;
            for seed in seeds {
                let mut damaged = Vec::new();
                commands::damage(seed, mode, 7, &mut &matrices[..], &mut damaged).unwrap();
                let frames = damaged.chunks(frame_length);
                let mut pairs = frames.zip(matrices.chunks(frame_length));
                let first = pairs.position(|(a, b)| a != b);
                let read = commands::read(mode, 7, &mut &damaged[..], &mut Vec::new());
                if let (Some(t), Err(Stop::Refused { refusal, frame })) = (first, read) {
                    met.push(refusal.number);
                    late += u32::from(refusal.number == 5 && frame == t as u64 + 3);
                }
            }
            assert!(late > 0);
        }
        met.sort_unstable();
        met.dedup();
        assert_eq!(met, causes);
    }
}

/// Damage before each L1 frame: every other one is refused, and the run is as if it had not been there.
#[test]
fn damage_before() {
    for mode in [1, 2, 3, 11, 5, 6] {
        let (_, matrices) = sent(1, mode, 4);
        let mut between = Vec::new();
        commands::damage_before(1, mode, 4, &mut &matrices[..], &mut between).unwrap();
        let (mut returned, mut report) = (Vec::new(), Vec::new());
        commands::read_on(mode, 8, &mut &between[..], &mut returned, &mut report).unwrap();
        let report = String::from_utf8(report).unwrap();
        let frames: Vec<&str> = report
            .lines()
            .filter(|line| line.starts_with("refused: "))
            .filter_map(|line| line.rsplit(' ').next())
            .collect();
        assert_eq!(frames, ["0", "2", "4", "6"]);
        let mut expected = Vec::new();
        commands::read(mode, 4, &mut &matrices[..], &mut expected).unwrap();
        assert!(returned == expected);
    }
}

/// Compare: the name of the first differing bit, or the lengths.
#[test]
fn compare() {
    let (_, matrices) = sent(1, 11, 3);
    let length = matrices.len();
    assert!(commands::compare(11, 3, &matrices, &matrices).is_ok());
    let frame_length = length / 3;
    for (byte, bit, name) in [
        (0, 0, "mode 11 frame 0 PM row 0 column 0"),
        (frame_length + 91, 3, "mode 11 frame 1 PM row 1 column 11"),
        (46_080 + 9_215, 7, "mode 11 frame 0 PX1 row 511 column 143"),
        (55_296 + 18, 2, "mode 11 frame 0 PX2 row 1 column 2"),
        (length - 8, 5, "mode 11 frame 2 control row 511 column 5"),
    ] {
        let mut other = matrices.clone();
        other[byte] ^= 128 >> bit;
        match commands::compare(11, 3, &matrices, &other) {
            Err(Stop::Different(text)) => assert_eq!(text, name),
            other => panic!("{other:?}"),
        }
    }
    let shorter = commands::compare(11, 3, &matrices, &matrices[..length - 1]);
    assert!(matches!(shorter, Err(Stop::Different(_))));
    let both_short = commands::compare(11, 4, &matrices, &matrices);
    assert!(matches!(both_short, Err(Stop::Different(_))));
}

/// Vectors: the lengths, and the frames returned at the end of each part.
#[test]
fn vectors() {
    let mut input = Vec::new();
    commands::draw_vectors(3, &mut input).unwrap();
    let mut output = Vec::new();
    commands::vectors(&mut &input[..], &mut output).unwrap();
    let mut rest = &output[..];
    let mut frames = &input[..];
    for (length, coded) in [(18_272, 45_680), (160, 400), (2_304, 4_608), (4_608, 9_216)] {
        let returned = &rest[length + coded..2 * length + coded];
        assert!(returned == &frames[..length]);
        rest = &rest[2 * length + coded..];
        frames = &frames[length..];
    }
    let control: Vec<u8> = [1, 2, 3, 11].map(|mode| control(mode, 0)).concat();
    assert!(rest == control);
    let stop = commands::vectors(&mut &input[..18_300], &mut Vec::new());
    assert_eq!(refusal(stop), (3, 1, 0));
}

/// Document 02, S-5: a run that is handed nothing for a channel sends the matrices of the run that
/// is handed the zeros, and these come back in full. The channel is refused where the mode has none.
#[test]
fn without_data() {
    let channels = [(true, false), (false, true), (true, true)];
    for (mode, p3, p4) in [
        (1, 0, 0),
        (2, 2_304, 0),
        (3, 4_608, 0),
        (5, 4_608, 0),
        (6, 0, 0),
        (11, 4_608, 4_608),
    ] {
        for (without3, without4) in channels {
            let without = Without {
                p3: without3,
                p4: without4,
            };
            let mut drawn = Vec::new();
            let done = commands::draw(1, mode, 5, without, &mut drawn);
            if without3 && p3 == 0 || without4 && p4 == 0 {
                assert!(matches!(done, Err(Stop::Usage)));
                let stop = commands::send(mode, 5, without, &mut &drawn[..], &mut Vec::new());
                assert!(matches!(stop, Err(Stop::Usage)));
                continue;
            }
            let left_out = p3 * usize::from(without3) + p4 * usize::from(without4);
            assert_eq!(drawn.len(), 5 * (1 + 18_432 + p3 + p4 - left_out));
            let mut filled = Vec::new();
            commands::fill(mode, 5, without, &mut &drawn[..], &mut filled).unwrap();
            assert_eq!(filled.len(), 5 * (1 + 18_432 + p3 + p4));
            let (mut sent, mut full) = (Vec::new(), Vec::new());
            commands::send(mode, 5, without, &mut &drawn[..], &mut sent).unwrap();
            commands::send(mode, 5, FULL, &mut &filled[..], &mut full).unwrap();
            assert!(sent == full);
        }
    }
}
