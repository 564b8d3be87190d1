//! The sheet: its answers, its refusals and its drawn lists.

use second::coding::Rate;
use second::commands::{self, Stop};
use second::modes::Without;
use second::modes::{Mode, P1_BITS, PIDS_BITS};
use second::packing::unpack;
use second::run::{code_frames, Refusal};
use second::scrambling::scramble;
use second::sheet::NoSheet;

/// The sheet: the drawn frames of a run.
fn drawn(mode: u64, count: u64) -> Vec<u8> {
    let mut frames = Vec::new();
    commands::draw(mode + 7, mode, count, Without::default(), &mut frames).unwrap();
    frames
}

/// The sheet: how the command ends, and what it prints.
fn sheet(mode: u64, count: u64, list: &[u8], frames: &[u8]) -> (Result<(), Stop>, String) {
    let input = [list, frames].concat();
    let mut output = Vec::new();
    let ended = commands::sheet(
        mode,
        count,
        Without::default(),
        &mut &input[..],
        &mut output,
    );
    (ended, String::from_utf8(output).unwrap())
}

/// The sheet: the answers without their values.
fn owners(mode: u64, count: u64, list: &str) -> Vec<String> {
    let (ended, output) = sheet(mode, count, list.as_bytes(), &drawn(mode, count));
    ended.unwrap();
    let without_value = |line: &str| match line.strip_suffix(" 0").or(line.strip_suffix(" 1")) {
        Some(owner) => owner.to_string(),
        None => line.to_string(),
    };
    let lines: Vec<&str> = output.lines().collect();
    let (head, rest) = lines.split_first().unwrap();
    let (end, answers) = rest.split_last().unwrap();
    assert_eq!(*head, format!("MP{mode} {count}"));
    assert_eq!(*end, format!("END {}", answers.len()));
    answers.iter().map(|line| without_value(line)).collect()
}

/// The sheet: the one line that is printed, and is said, where there is none.
fn none(mode: u64, count: u64, list: &[u8], frames: &[u8]) -> NoSheet {
    let (ended, output) = sheet(mode, count, list, frames);
    let Err(Stop::NoSheet(why)) = ended else {
        panic!("a sheet: {output}");
    };
    assert_eq!(output, format!("{why}\n"));
    why
}

/// Probe points: cells of PM, in the order of the L1 frames and then of the list.
#[test]
fn pm_cells() {
    let list = "1 PM 501 208\n0 PM 192 360\n1 PM 18 361\n0 PM 071 00206\n\n";
    let expected = [
        "0 PM 192 360 P1 0 0",
        "0 PM 71 206 P1 0 365439",
        "1 PM 501 208 PIDS 15 199",
        "1 PM 18 361 PIDS 0 0",
    ];
    assert_eq!(owners(1, 2, list), expected);
}

/// Section 10.2.6, by hand, in MP11. Step 0 writes the cell that it reads, and so does the first
/// step of the second L1 frame: partition 0 has block 16, row 0, column 0 at its count 16 * 1,152.
/// Partition 1 has block 0, row 0, column 0 at its count 25 * 1,152 = 28,800, step 4 * 28,800 + 2,
/// which is bit 41,474 of the second L1 frame; step 36 of the first has read there before.
#[test]
fn px_cells() {
    let list =
        "0 PX1 0 0 0\n1 PX2 0 0 0\n2 PX1 0 0 36\n2 PX2 0 0 36\n0 PX1 0 0 36\n0 PX2 0 0 36\n\n";
    let expected = [
        "0 PX1 0 0 0 P3 0 0 0",
        "0 PX1 0 0 36 FILL",
        "0 PX2 0 0 36 FILL",
        "1 PX2 0 0 0 P4 1 0 0",
        "2 PX1 0 0 36 P3 1 4 4610",
        "2 PX2 0 0 36 P4 1 4 4610",
    ];
    assert_eq!(owners(11, 3, list), expected);
    assert_eq!(owners(2, 1, "0 PX1 0 0 0\n\n"), ["0 PX1 0 0 0 P3 0 0 0"]);
}

/// The coded bits of P1, PIDS, P3 and P4 of each L1 frame.
fn coded(mode: &Mode, frames: &[u8]) -> Vec<[Vec<bool>; 4]> {
    let [p1, pids, _, p3, p4] = mode.frame_lengths();
    let lengths = [p1, pids, p3, p4];
    let rates = [
        Rate::TwoFifths,
        Rate::TwoFifths,
        Rate::OneHalf,
        Rate::OneHalf,
    ];
    let extended = |channel: Option<&second::interleaving::PxRow>| match channel {
        Some(row) => row.frame_bits / 2,
        None => 1,
    };
    let bits = [
        P1_BITS,
        PIDS_BITS,
        extended(mode.p3.row),
        extended(mode.p4.row),
    ];
    let code = |frame: &[u8]| {
        let mut rest = &frame[1..];
        std::array::from_fn(|channel| {
            let (taken, later) = rest.split_at(lengths[channel]);
            rest = later;
            code_frames(rates[channel], bits[channel], taken)
        })
    };
    frames
        .chunks(1 + lengths.iter().sum::<usize>())
        .map(code)
        .collect()
}

/// The sheet: each value is the coded bit that its line names, and a bit of PX is shown in the
/// L1 frame and the cell in which the way back looks for it.
#[test]
fn answers_of_drawn_lists() {
    for number in [1, 2, 3, 11] {
        let mode = Mode::of_number(number).unwrap();
        let frames = drawn(number, 5);
        let coded = coded(mode, &frames);
        let mut list = Vec::new();
        commands::draw_cells(number, number, 5, &mut list).unwrap();
        let (ended, output) = sheet(number, 5, &list, &frames);
        ended.unwrap();
        let mut channels = [0; 5];
        for line in output
            .lines()
            .filter(|line| line.starts_with(|c: char| c.is_ascii_digit()))
        {
            let words: Vec<&str> = line.split(' ').collect();
            let n = |place: usize| words[place].parse::<usize>().unwrap();
            // of P3 (2) or P4 (3): a transfer frame and bit of an L1 frame, and the L1 frame and cell that show it
            let in_px = |channel: usize,
                         from: usize,
                         frame: usize,
                         bit: usize,
                         sent: usize,
                         at: [usize; 3]| {
                let row = [mode.p3.row, mode.p4.row][channel - 2].unwrap();
                let coded_bit = row.frame_bits * frame + bit;
                let cell = (64 * at[0] + at[1]) * row.width() + at[2];
                assert_eq!(
                    row.shown()[from % 2][coded_bit],
                    (sent - from, cell),
                    "{line}"
                );
                (channel, coded[from][channel][coded_bit])
            };
            let (channel, bit) = match (words[1], words[4], words[5]) {
                ("PM", "P1", _) => (0, coded[n(0)][0][n(6)]),
                ("PM", _, _) => (1, coded[n(0)][1][200 * n(5) + n(6)]),
                ("P1", ..) => (0, coded[n(0)][0][n(3)]),
                ("PIDS", ..) => (1, coded[n(0)][1][200 * n(2) + n(3)]),
                ("P3", ..) => in_px(2, n(0), n(2), n(3), n(5), [n(6), n(7), n(8)]),
                ("P4", ..) => in_px(3, n(0), n(2), n(3), n(5), [n(6), n(7), n(8)]),
                (_, _, "FILL") => (4, n(0) >= 2),
                ("PX1", ..) => in_px(2, n(6), n(7), n(8), n(0), [n(2), n(3), n(4)]),
                _ => in_px(3, n(6), n(7), n(8), n(0), [n(2), n(3), n(4)]),
            };
            channels[channel] += 1;
            if words.last() == Some(&"LATER") {
                assert!(
                    words[1] != "P1" && words[1] != "PIDS" && n(5) >= 5,
                    "{line}"
                );
            } else if channel < 4 {
                assert_eq!(words.last(), Some(&["0", "1"][usize::from(bit)]), "{line}");
            } else {
                assert!(!bit, "{line}");
            }
        }
        let none = channels.map(|count| count == 0);
        let (p3, p4) = (mode.p3.row.is_none(), mode.p4.row.is_none());
        assert_eq!(none, [false, false, p3, p4, p3]);
    }
}

/// The sheet: refused lines come first; which they are depends on mode and count.
#[test]
fn refused_lines() {
    let list =
        "0 PX1 0 0 71\n1 PM 0 0\n0 PX1 0 0 72\n0 PX2 0 0 0\n0 PM 0 0 0\n0  PM 0 0\n9 PM 0 0\n\n";
    for (mode, refused) in [
        (1, vec![1, 3, 4, 5, 6, 7]),
        (2, vec![3, 4, 5, 6, 7]),
        (3, vec![4, 5, 6, 7]),
        (11, vec![5, 6, 7]),
    ] {
        let (ended, output) = sheet(mode, 2, list.as_bytes(), &drawn(mode, 2));
        ended.unwrap();
        let lines: Vec<&str> = output.lines().collect();
        let expected: Vec<String> = refused.iter().map(|n| format!("REFUSED {n}")).collect();
        assert_eq!(lines[1..=refused.len()], expected);
        assert_eq!(lines.len(), 9);
        assert!(lines[7].starts_with("1 PM 0 0 P1 0 "));
    }
    let (ended, output) = sheet(1, 0, b"0 PM 0 0\n\n", b"");
    ended.unwrap();
    assert_eq!(output, "MP1 0\nREFUSED 1\nEND 0\n");
}

/// The sheet: no answer of an input that is short or long, of a refused L1 frame, of too many.
#[test]
fn no_sheet() {
    let mut frames = drawn(3, 2);
    let list = b"1 PM 0 0\nx\n0 PM 192 360\n\n";
    let size = frames.len();
    assert_eq!(none(3, 2, list, &frames[..size - 1]), NoSheet::Short(size));
    assert_eq!(none(3, 1, list, &frames), NoSheet::Long(size / 2));
    assert_eq!(none(3, 65, list, &frames), NoSheet::Count);
    assert_eq!(none(4, 2, b"no list", b""), NoSheet::Mode);
    frames[size / 2] = 8;
    let refusal = Refusal {
        number: 9,
        place: 0,
    };
    assert_eq!(none(3, 2, list, &frames), NoSheet::Frame(1, refusal));
}

/// The sheet: lines that end in CR LF are the same lines.
#[test]
fn carriage_returns() {
    let frames = drawn(2, 1);
    let (ended, plain) = sheet(2, 1, b"0 PM 1 2\n0 PM 1 2\r3\n\n", &frames);
    ended.unwrap();
    let (ended, output) = sheet(2, 1, b"0 PM 1 2\r\n0 PM 1 2\r3\r\n\r\n", &frames);
    ended.unwrap();
    assert_eq!(output, plain);
    assert!(output.starts_with("MP2 1\nREFUSED 2\n0 PM 1 2 "));
}

/// Document 02, S-9: the finder, and so the sheet, keeps to the older modes.
#[test]
fn no_sheet_with_a_second_path() {
    for mode in [5, 6] {
        assert_eq!(none(mode, 2, b"no list", b""), NoSheet::Mode);
        let drawn = commands::draw_cells(1, mode, 2, &mut Vec::new());
        assert!(matches!(drawn, Err(Stop::NotFound)));
    }
}

/// The sheet: the list ends at its first empty line, which is within the first 4,096 bytes.
#[test]
fn end_of_the_list() {
    let frames = drawn(1, 1);
    for (list, lines) in [("\n", 0), ("0 PM 0 0\n\n", 1)] {
        let (ended, output) = sheet(1, 1, list.as_bytes(), &frames);
        ended.unwrap();
        assert_eq!(output.lines().count(), lines + 2);
    }
    let longest = format!("0 PM {:0>4087} 1\n\n", 7);
    assert_eq!(longest.len(), 4_096);
    let (ended, output) = sheet(1, 1, longest.as_bytes(), &frames);
    ended.unwrap();
    assert!(output.starts_with("MP1 1\n0 PM 7 1 P1 0 "));
    for list in ["", "0 PM 0 0", "0 PM 0 0\n"] {
        assert_eq!(none(1, 1, list.as_bytes(), b""), NoSheet::List);
    }
    let longer = format!("0{longest}");
    assert_eq!(none(1, 1, longer.as_bytes(), &frames), NoSheet::LongList);
}

/// Drawn lists: as long as a list may be, every line of the edges in them, and new with each seed.
#[test]
fn drawn_lists() {
    for mode in [1, 2, 3, 11] {
        let lists = [1, 2].map(|seed| {
            let mut list = Vec::new();
            commands::draw_cells(seed, mode, 5, &mut list).unwrap();
            assert!((4_000..=4_096).contains(&list.len()));
            assert!(list.ends_with(b"\n\n"));
            for line in [&b"0 PM 512 0\n"[..], b"\xFF PM 0 0\n", b"5 PM 0 0\n"] {
                assert!(list.windows(line.len()).any(|part| part == line));
            }
            list
        });
        assert!(lists[0] != lists[1]);
    }
}

/// Workings: a number of a line, by its place among the words.
fn number(words: &[&str], place: usize) -> usize {
    words[place].parse().unwrap()
}

/// Workings: the coded bit that an answer names, by L1 frame, channel from 0, transfer frame and bit;
/// none of the zero fill.
fn named(answer: &[&str]) -> Option<[usize; 4]> {
    let n = |place: usize| number(answer, place);
    let channel = |place: usize| {
        let known = ["P1", "PIDS", "P3", "P4"];
        known.iter().position(|&name| name == answer[place])
    };
    match (answer[1], answer.last()) {
        (_, Some(&"FILL")) => None,
        ("PM", _) => Some([n(0), channel(4)?, n(5), n(6)]),
        ("PX1" | "PX2", _) => Some([n(6), channel(5)?, n(7), n(8)]),
        _ => Some([n(0), channel(1)?, n(2), n(3)]),
    }
}

/// Sections 8.2 and 9.3: bit, generator, frame bits, scrambling bits and sum of coded bit m of a
/// transfer frame, by the scrambling sequence.
fn summed(frame: &[bool], sequence: &[bool], two_fifths: bool, m: usize) -> String {
    let (j, generator) = match two_fifths {
        true => (
            2 * (m / 5) + m % 5 / 3,
            [0o133, 0o171, 0o165, 0o133, 0o171][m % 5],
        ),
        false => (m / 2, [0o133, 0o165][m % 2]),
    };
    let back = |bits: &[bool]| -> Vec<u32> {
        let at = |d: usize| u32::from(bits[(j + frame.len() - d) % frame.len()]);
        (0..7).map(at).collect()
    };
    let (bits, added) = (back(frame), back(sequence));
    let taken = (0..7).filter(|d| generator & (64 >> d) != 0);
    let sum: u32 = taken.map(|d: usize| bits[d] + added[d]).sum();
    let digits = |bits: Vec<u32>| bits.iter().map(|bit| format!(" {bit}")).collect::<String>();
    format!(
        "WORK BIT {j} GENERATOR {generator:o} FRAME{} SCRAMBLER{} SUM {sum}",
        digits(bits),
        digits(added)
    )
}

/// Section 10.2: the place of a working is the cell of its answer; of P3 and P4, whose place is in
/// the internal matrix, the cell that the way back looks at.
fn placed(mode: &Mode, answer: &[&str], coded: [usize; 4], working: &[&str]) {
    let [from, channel, frame, bit] = coded;
    let n = |place: usize| number(working, place);
    let (step, cell) = (n(24), n(36));
    let (line, column) = (32 * n(28) + n(32), 36 * n(30) + n(34));
    let asked = number(answer, if answer[1].starts_with("PX") { 0 } else { 5 });
    let Some(row) = [None, None, mode.p3.row, mode.p4.row][channel] else {
        let at = if answer[1] == "PM" { 2 } else { 6 };
        assert_eq!(
            [line, column],
            [number(answer, at), number(answer, at + 1)],
            "{answer:?}"
        );
        assert_eq!(cell, 720 * line + column);
        assert_eq!(step, [bit, 200 * frame + bit][channel]);
        return;
    };
    let coded_bit = row.frame_bits * frame + bit;
    assert_eq!(step, from % 2 * row.half_bits() + coded_bit, "{answer:?}");
    assert_eq!(cell, row.width() * line + column);
    let (later, shown) = row.shown()[from % 2][coded_bit];
    assert_eq!(asked, from + later, "{answer:?}");
    assert_eq!(
        cell,
        (from + later) % 2 * row.half_bits() + shown,
        "{answer:?}"
    );
}

/// Workings: the lines of a drawn sheet, of which nothing but head and workings is new, and the
/// frames that are meant.
fn worked(mode: u64, without: Without, name: &str) -> (Vec<String>, Vec<u8>) {
    let mut input = Vec::new();
    commands::draw_cells(mode, mode, 5, &mut input).unwrap();
    let list = input.len();
    commands::draw(mode, mode, 5, without, &mut input).unwrap();
    let mut meant = Vec::new();
    commands::fill(mode, 5, without, &mut &input[list..], &mut meant).unwrap();
    let (mut plain, mut worked) = (Vec::new(), Vec::new());
    commands::sheet(mode, 5, without, &mut &input[..], &mut plain).unwrap();
    commands::worked_sheet(mode, 5, without, &mut &input[..], &mut worked).unwrap();
    let worked = String::from_utf8(worked).unwrap();
    let lines: Vec<String> = worked.lines().map(str::to_string).collect();
    assert_eq!(lines[0], format!("MP{mode} 5{name} work"));
    let kept = lines[1..].iter().filter(|line| !line.starts_with("WORK"));
    let kept: String = kept.map(|line| format!("{line}\n")).collect();
    let head = format!("MP{mode} 5{name}\n");
    assert_eq!(head + &kept, String::from_utf8(plain).unwrap());
    (lines, meant)
}

/// Workings: the transfer frame of a coded bit.
fn transfer_frame(mode: &Mode, frames: &[u8], [from, channel, frame, _]: [usize; 4]) -> Vec<bool> {
    let [p1, pids, _, p3, p4] = mode.frame_lengths();
    let lengths = [p1, pids, p3, p4];
    let each = 1 + lengths.iter().sum::<usize>();
    let first = from * each + 1 + lengths[..channel].iter().sum::<usize>();
    let size = lengths[channel] / [1, 16, 8, 8][channel];
    unpack(&frames[first + frame * size..][..size])
}

/// Workings: behind each answer but FILL stands the line of the coded bit that it names, worked out
/// here from the frames that are meant.
#[test]
fn workings() {
    let of = |p3, p4| Without { p3, p4 };
    let sequence = scramble(&[false; P1_BITS]);
    for (mode, without, name) in [
        (1, of(false, false), ""),
        (2, of(false, false), ""),
        (2, of(true, false), " without P3"),
        (3, of(false, false), ""),
        (11, of(false, false), ""),
        (11, of(true, false), " without P3"),
        (11, of(false, true), " without P4"),
        (11, of(true, true), " without P3 P4"),
    ] {
        let (lines, meant) = worked(mode, without, name);
        let mode = Mode::of_number(mode).unwrap();
        for pair in lines[1..].windows(2) {
            let [answer, working] = [0, 1].map(|n| pair[n].split(' ').collect::<Vec<&str>>());
            if ["REFUSED", "WORK", "END"].contains(&answer[0]) {
                continue;
            }
            let coded = named(&answer);
            assert_eq!(coded.is_some(), working[0] == "WORK", "{pair:?}");
            let Some(coded) = coded else {
                continue;
            };
            let bits = transfer_frame(mode, &meant, coded);
            let wanted = summed(&bits, &sequence, coded[1] < 2, coded[3]);
            assert_eq!(working[..23].join(" "), wanted, "{pair:?}");
            let value = ["0", "1"][number(&working, 22) % 2];
            let last = answer[answer.len() - 1];
            assert!(last == value || last == "LATER", "{pair:?}");
            placed(mode, &answer, coded, &working);
        }
    }
}

/// Sections 8.2 and 9.3 by hand: bit 6 of a P1 frame that begins 1011 0100, and the first seven
/// scrambling bits 0, 1, 1, 0, 0, 1, 1. Generator 133, 1011011 in binary, takes two ones of each.
#[test]
fn a_working_by_hand() {
    let mut frames = vec![0; 1 + 18_272 + 160];
    frames[1] = 0b1011_0100;
    let input = [&b"0 P1 0 15\n\n"[..], &frames].concat();
    let mut output = Vec::new();
    commands::worked_sheet(1, 1, Without::default(), &mut &input[..], &mut output).unwrap();
    let output = String::from_utf8(output).unwrap();
    let lines: Vec<&str> = output.lines().collect();
    assert_eq!(lines.len(), 4);
    assert!(lines[1].starts_with("0 P1 0 15 PM 0 ") && lines[1].ends_with(" 0"));
    let working =
        "WORK BIT 6 GENERATOR 133 FRAME 0 1 0 1 1 0 1 SCRAMBLER 1 1 0 0 1 1 0 SUM 4 STEP 15 K ";
    assert!(lines[2].starts_with(working), "{}", lines[2]);
    assert_eq!((lines[0], lines[3]), ("MP1 1 work", "END 1"));
}

/// Workings: where there is no sheet, the same line is printed; an empty one has its head.
#[test]
fn no_sheet_with_workings() {
    let none = Without::default();
    for (mode, count, input, text) in [
        (5, 1, &b"\n"[..], "NO SHEET MODE\n"),
        (1, 65, b"\n", "NO SHEET COUNT\n"),
        (1, 0, b"", "NO SHEET LIST\n"),
        (1, 1, b"\n", "NO SHEET SHORT 18433\n"),
        (11, 0, b"\n", "MP11 0 work\nEND 0\n"),
        (3, 0, b"0 PM 0 0\n\n", "MP3 0 work\nREFUSED 1\nEND 0\n"),
    ] {
        let mut output = Vec::new();
        let ended = commands::worked_sheet(mode, count, none, &mut &input[..], &mut output);
        assert_eq!(String::from_utf8(output).unwrap(), text);
        assert_eq!(ended.is_ok(), text.starts_with("MP"));
    }
}
