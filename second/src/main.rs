//! The arguments of the program; the work is done in the library.

use std::ffi::OsString;
use std::io::{self, BufWriter, Write};
use std::process::ExitCode;

use second::commands::{self, Stop};
use second::modes::Without;
use second::{calls, cells, nearest, places, restoring, run::Refusal, vector, words};

/// The commands with their operands.
const COMMANDS: [(&str, &str); 32] = [
    ("draw", "SEED MODE COUNT [without P3|P4|P3 P4]"),
    ("fill", "MODE COUNT [without P3|P4|P3 P4]"),
    ("send", "MODE COUNT [without P3|P4|P3 P4]"),
    ("sheet", "MODE COUNT [without P3|P4|P3 P4] [work]"),
    ("dump", "MODE COUNT [without P3|P4|P3 P4]"),
    ("judge", ""),
    ("draw-dumps", "SEED MODE DIRECTORY"),
    ("draw-cells", "SEED MODE COUNT"),
    ("read", "MODE COUNT"),
    ("read-on", "MODE COUNT"),
    ("cells", ""),
    ("all-cells", ""),
    ("owners", "MODE"),
    ("all-bits", "MODE FRAME"),
    ("working", "MODE FRAME CHANNEL TFRAME BIT"),
    ("control", "MODE NUMBER"),
    ("damage", "SEED MODE COUNT"),
    ("damage-before", "SEED MODE COUNT"),
    ("compare", "MODE COUNT FILE_A FILE_B"),
    ("vectors", ""),
    ("draw-vectors", "SEED"),
    ("allocate", ""),
    ("corner-shares", ""),
    ("draw-shares", "SEED"),
    ("nearest", "BUDGET"),
    ("draw-copied", "SEED COUNT"),
    ("restore", ""),
    ("draw-unread", "SEED"),
    ("vector", "MODE SYMBOL LOWER UPPER"),
    ("draw-scales", "SEED COUNT"),
    ("add", "FILES"),
    ("draw-calls", "SEED"),
];

/// No section: runs one command; 0 if it did its work, 1 if refused or different, 2 otherwise.
fn main() -> ExitCode {
    let arguments: Vec<OsString> = std::env::args_os().skip(1).collect();
    let name = arguments.first().and_then(|name| name.to_str());
    let Some(&(name, operands)) = COMMANDS.iter().find(|(known, _)| Some(*known) == name) else {
        let known = COMMANDS.map(|(known, _)| known).join("|");
        eprintln!("usage: second {known} ...");
        return ExitCode::from(2);
    };
    let (rest, given, work) = split_work(operands, &arguments[1..]);
    let fitting = split_without(rest, given)
        .and_then(|(operands, given, without)| Some((split(operands, given)?, without)));
    let Some(((numbers, files), without)) = fitting else {
        return misused(name, operands);
    };
    let mut output = BufWriter::new(io::stdout().lock());
    let done = dispatch(name, &numbers, files, (without, work), &mut output);
    let flushed = output.flush().map_err(Stop::Trouble);
    if let Err(Stop::Usage) = done {
        return misused(name, operands);
    }
    ended(done.and(flushed))
}

/// No section: says how a command is used.
fn misused(name: &str, operands: &str) -> ExitCode {
    let usage = format!("usage: second {name} {operands}");
    eprintln!("{}", usage.trim_end());
    ExitCode::from(2)
}

/// House matter: takes the word that asks for workings off the end of the operands, if the usage has
/// it.
fn split_work<'a>(
    operands: &'static str,
    given: &'a [OsString],
) -> (&'static str, &'a [OsString], bool) {
    let Some(rest) = operands.strip_suffix(" [work]") else {
        return (operands, given, false);
    };
    match given.split_last() {
        Some((last, before)) if last == "work" => (rest, before, true),
        _ => (rest, given, false),
    }
}

/// Document 02, S-5: takes the channels without data off the end of the operands, if the usage has
/// them; none if they are no such channels.
fn split_without<'a>(
    operands: &'static str,
    given: &'a [OsString],
) -> Option<(&'static str, &'a [OsString], Without)> {
    let Some((operands, _)) = operands.split_once(" [without") else {
        return Some((operands, given, Without::default()));
    };
    let Some(at) = given.iter().position(|word| word == "without") else {
        return Some((operands, given, Without::default()));
    };
    let channels: Vec<&str> = given[at + 1..]
        .iter()
        .map(|word| word.to_str())
        .collect::<Option<_>>()?;
    let (p3, p4) = match channels[..] {
        ["P3"] => (true, false),
        ["P4"] => (false, true),
        ["P3", "P4"] => (true, true),
        _ => return None,
    };
    Some((operands, &given[..at], Without { p3, p4 }))
}

/// The operands that are no whole numbers; they stand last.
const WORDS: [&str; 6] = ["FILE_A", "FILE_B", "LOWER", "UPPER", "DIRECTORY", FILES];

/// The operand that stands for any number of files.
const FILES: &str = "FILES";

/// No section: the operands as numbers and words; none if they do not fit the usage.
fn split<'a>(operands: &str, given: &'a [OsString]) -> Option<(Vec<u64>, &'a [OsString])> {
    let names: Vec<&str> = operands.split_whitespace().collect();
    if names.len() != given.len() && !names.contains(&FILES) {
        return None;
    }
    let numbers = names.iter().filter(|name| !WORDS.contains(name)).count();
    let (given, files) = given.split_at(numbers);
    let numbers: Option<Vec<u64>> = given.iter().map(decimal).collect();
    Some((numbers?, files))
}

/// No section: an operand of decimal digits; a great one stands as the greatest.
fn decimal(operand: &OsString) -> Option<u64> {
    let digits = operand.to_str()?;
    if digits.is_empty() || !digits.bytes().all(|byte| byte.is_ascii_digit()) {
        return None;
    }
    Some(digits.parse().unwrap_or(u64::MAX))
}

/// No section: calls the command with its operands and the standard streams.
fn dispatch(
    name: &str,
    numbers: &[u64],
    files: &[OsString],
    (without, work): (Without, bool),
    output: &mut impl Write,
) -> Result<(), Stop> {
    let mut input = io::stdin().lock();
    match (name, numbers) {
        ("draw", &[seed, mode, count]) => commands::draw(seed, mode, count, without, output),
        ("fill", &[mode, count]) => commands::fill(mode, count, without, &mut input, output),
        ("send", &[mode, count]) => commands::send(mode, count, without, &mut input, output),
        ("sheet", &[mode, count]) if work => {
            commands::worked_sheet(mode, count, without, &mut input, output)
        }
        ("sheet", &[mode, count]) => commands::sheet(mode, count, without, &mut input, output),
        ("dump", &[mode, count]) => commands::dump(mode, count, without, &mut input, output),
        ("judge", _) => commands::judge(&mut input, output, &mut io::stderr().lock()),
        ("draw-dumps", &[seed, mode]) => commands::draw_dumps(seed, mode, files[0].as_ref()),
        ("draw-cells", &[seed, mode, count]) => commands::draw_cells(seed, mode, count, output),
        ("read", &[mode, count]) => commands::read(mode, count, &mut input, output),
        ("read-on", &[mode, count]) => {
            commands::read_on(mode, count, &mut input, output, &mut io::stderr().lock())
        }
        ("cells", _) => Ok(cells::list(&mut input, output)?),
        ("all-cells", _) => Ok(cells::all(output)?),
        ("owners", &[mode]) => commands::owners(mode, &mut input, output),
        ("all-bits", &[mode, frame]) => commands::all_bits(mode, frame, output),
        ("working", &[mode, frame, channel, tframe, bit]) => {
            commands::working(mode, frame, channel, [tframe, bit], &mut input, output)
        }
        ("control", &[mode, number]) => commands::control_blocks(mode, number, output),
        ("damage", &[seed, mode, count]) => commands::damage(seed, mode, count, &mut input, output),
        ("damage-before", &[seed, mode, count]) => {
            commands::damage_before(seed, mode, count, &mut input, output)
        }
        ("compare", &[mode, count]) => {
            let (a, b) = (std::fs::read(&files[0])?, std::fs::read(&files[1])?);
            commands::compare(mode, count, &a, &b)
        }
        ("vectors", _) => commands::vectors(&mut input, output),
        ("draw-vectors", &[seed]) => commands::draw_vectors(seed, output),
        ("allocate", _) => commands::allocate(&mut input, output),
        ("corner-shares", _) => Ok(places::corner_lines(output)?),
        ("draw-shares", &[seed]) => Ok(places::draw_lines(seed, output)?),
        ("nearest", &[budget]) => commands::nearest(budget, &mut input, output),
        ("draw-copied", &[seed, count]) => Ok(nearest::drawn_lines(seed, count, output)?),
        ("restore", _) => Ok(restoring::lines(&mut input, output)?),
        ("draw-unread", &[seed]) => Ok(restoring::drawn_lines(seed, output)?),
        ("vector", &[mode, symbol]) => {
            let scales =
                [&files[0], &files[1]].map(|word| word.to_str().and_then(vector::scale_of));
            let [Some(lower), Some(upper)] = scales else {
                return Err(Stop::Usage);
            };
            commands::vector(mode, symbol, [lower, upper], &mut input, output)
        }
        ("draw-scales", &[seed, count]) => Ok(vector::drawn_scales(seed, count, output)?),
        ("draw-calls", &[seed]) => calls::lines(seed, output),
        ("add", _) => {
            let read: io::Result<Vec<Vec<u8>>> = files.iter().map(std::fs::read).collect();
            commands::add(&read?, output)
        }
        _ => Err(Stop::Trouble(io::Error::other("no such command"))),
    }
}

/// Document 01, refusals: tells how the command ended.
fn ended(done: Result<(), Stop>) -> ExitCode {
    match done {
        Ok(()) => ExitCode::SUCCESS,
        Err(Stop::Refused { refusal, frame }) => {
            let Refusal { number, place } = refusal;
            eprintln!("{}", commands::refusal_line(number, place, frame));
            eprintln!("{}", words::of_cause(number));
            ExitCode::from(1)
        }
        Err(Stop::NoSheet(why)) => {
            eprintln!("{why}");
            ExitCode::from(1)
        }
        Err(Stop::NotFound) => {
            eprintln!("refused: there are sheets for MP1, MP2, MP3 and MP11 only");
            ExitCode::from(1)
        }
        Err(Stop::TooLong) => {
            eprintln!("{}", commands::too_long_line());
            ExitCode::from(1)
        }
        Err(Stop::GoesOn(frame)) => {
            eprintln!("{}", commands::goes_on_line(frame));
            ExitCode::from(1)
        }
        Err(Stop::Different(difference)) => {
            println!("{difference}");
            ExitCode::from(1)
        }
        Err(Stop::Usage) => ExitCode::from(2),
        Err(Stop::Trouble(error)) => {
            eprintln!("trouble: {error}");
            ExitCode::from(2)
        }
    }
}
