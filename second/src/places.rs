//! Document 02, S-4: eight sources share the sixteen PIDS places of an L1 frame.

use std::io::{self, Write};

use crate::cells::decimal;
use crate::draw::Draw;
use crate::run::Refusal;

/// The sources, and the PIDS places of an L1 frame.
pub const SOURCES: usize = 8;
pub const PLACES: usize = 16;

/// The mark of a place that carries a frame of zeros.
const IDLE: u8 = 255;

/// The greatest input of the program, in bytes.
pub const INPUT_BYTES: usize = 16_384;

/// S-4: how many places each source gets. Every message beyond a first grant is a claim; the claims
/// stand in line by round and then by source, and those at the head of the line are met.
fn grants(shares: [u8; SOURCES], waiting: [u8; SOURCES]) -> [usize; SOURCES] {
    let mut given: [usize; SOURCES] =
        std::array::from_fn(|source| shares[source].min(waiting[source]).into());
    let left = PLACES - given.iter().sum::<usize>();
    let mut claims: Vec<(usize, usize)> = (0..SOURCES)
        .flat_map(|source| {
            let beyond = usize::from(waiting[source]) - given[source];
            (0..beyond).map(move |round| (round, source))
        })
        .collect();
    claims.sort_unstable();
    for (_, source) in claims.into_iter().take(left) {
        given[source] += 1;
    }
    given
}

/// S-4: the whole call; the list is left alone when it is refused.
pub fn share_places(
    shares: [u8; SOURCES],
    waiting: [u8; SOURCES],
    places: &mut [u8],
) -> Result<(), Refusal> {
    if places.len() != PLACES {
        let (number, place) = (3, 0);
        return Err(Refusal { number, place });
    }
    if shares.iter().map(|&share| u32::from(share)).sum::<u32>() > PLACES as u32 {
        let (number, place) = (10, 0);
        return Err(Refusal { number, place });
    }
    let taken = (0u8..)
        .zip(grants(shares, waiting))
        .flat_map(|(source, given)| std::iter::repeat_n(source, given));
    for (place, owner) in places.iter_mut().zip(taken.chain(std::iter::repeat(IDLE))) {
        *place = owner;
    }
    Ok(())
}

/// House matter: the shares and the counts of a line, sixteen numbers with one space between two.
fn numbers(line: &[u8]) -> Option<([u8; SOURCES], [u8; SOURCES])> {
    let read: Option<Vec<u8>> = line
        .split(|&byte| byte == b' ')
        .map(|word| decimal(word).and_then(|number| u8::try_from(number).ok()))
        .collect();
    let read = read?;
    if read.len() != 2 * SOURCES {
        return None;
    }
    let (shares, waiting) = read.split_at(SOURCES);
    Some((shares.try_into().ok()?, waiting.try_into().ok()?))
}

/// House matter: what is printed for one line.
fn report(line: &[u8], line_number: usize) -> String {
    let Some((shares, waiting)) = numbers(line) else {
        return format!("BAD LINE {line_number}");
    };
    let mut places = [0; PLACES];
    match share_places(shares, waiting, &mut places) {
        Ok(()) => places.map(|owner| owner.to_string()).join(" "),
        Err(Refusal { number, place }) => format!("REFUSED {number} {place}"),
    }
}

/// House matter: the whole program, for an input that is not too long.
pub fn list(input: &[u8], output: &mut impl Write) -> io::Result<()> {
    let text = input.strip_suffix(b"\n").unwrap_or(input);
    if input.is_empty() {
        return Ok(());
    }
    for (index, line) in text.split(|&byte| byte == b'\n').enumerate() {
        writeln!(output, "{}", report(line, index + 1))?;
    }
    Ok(())
}

/// The test room: a line of shares and counts.
fn line(shares: [u8; SOURCES], waiting: [u8; SOURCES]) -> String {
    let numbers: Vec<String> = shares
        .iter()
        .chain(&waiting)
        .map(|number| number.to_string())
        .collect();
    numbers.join(" ")
}

/// The test room: one source with this number, the others with another.
fn one(source: usize, number: u8, others: u8) -> [u8; SOURCES] {
    std::array::from_fn(|index| if index == source { number } else { others })
}

/// The test room: the corners of S-4.
pub fn corners() -> Vec<([u8; SOURCES], [u8; SOURCES])> {
    let mut corners = Vec::new();
    for waits in [0, 1, 2, 3, 16, 255] {
        for share in [0, 1, 2, 3, 255] {
            corners.push(([share; SOURCES], [waits; SOURCES]));
        }
    }
    for source in 0..SOURCES {
        for share in [0, 1, 15, 16, 17, 255] {
            for (own, others) in [(255, 0), (0, 255), (255, 255), (3, 1), (16, 0), (17, 1)] {
                corners.push((one(source, share, 0), one(source, own, others)));
            }
        }
        corners.push((one(source, 9, 1), [255; SOURCES]));
        corners.push((one(source, 10, 1), [255; SOURCES]));
        corners.push((one(source, 2, 2), one(source, 0, 255)));
        corners.push((one(source, 3, 2), one(source, 0, 255)));
    }
    corners
}

/// The test room: drawn shares, whose sum is often near sixteen, and drawn counts, often small.
pub fn drawn(draw: &mut Draw) -> ([u8; SOURCES], [u8; SOURCES]) {
    let mut shares = [0; SOURCES];
    for _ in 0..draw.below(19) {
        shares[draw.below(SOURCES as u64) as usize] += 1;
    }
    let most = [1, 3, 6, 20, 256][draw.below(5) as usize];
    let waiting = std::array::from_fn(|_| draw.below(most) as u8);
    (shares, waiting)
}

/// The test room: a line that is no line of sixteen numbers, made from one that is.
fn spoilt(draw: &mut Draw, good: &str) -> String {
    match draw.below(12) {
        0 => String::new(),
        1 => format!("{good} "),
        2 => format!(" {good}"),
        3 => format!("{good} 0"),
        4 => good.replacen(' ', "  ", 1),
        5 => good.replacen(' ', "\t", 1),
        6 => format!("{good}\r"),
        7 => format!("{good}56"),
        8 => good.replacen(' ', " -", 1),
        9 => good
            .split_once(' ')
            .map_or("", |(_, rest)| rest)
            .to_string(),
        10 => good.replacen(' ', " 99999999999999999999", 1),
        _ => good.replacen(' ', " x", 1),
    }
}

/// The test room: lines for the program, of about this many bytes: the corners, then drawn ones,
/// some of them spoilt or with leading zeros, the last perhaps without its newline.
pub fn draw_lines(seed: u64, output: &mut impl Write) -> io::Result<()> {
    let mut draw = Draw::new(seed);
    let mut lines: Vec<String> = Vec::new();
    let mut room = INPUT_BYTES - 64;
    let mut kept = corners();
    while room > 64 {
        let (shares, waiting) = if draw.below(2) == 0 && !kept.is_empty() {
            let index = draw.below(kept.len() as u64) as usize;
            kept.swap_remove(index)
        } else {
            drawn(&mut draw)
        };
        let good = line(shares, waiting);
        let next = match draw.below(10) {
            0 => spoilt(&mut draw, &good),
            1 => format!("000{good}"),
            _ => good,
        };
        room = room.saturating_sub(next.len() + 1);
        lines.push(next);
    }
    write!(output, "{}", lines.join("\n"))?;
    if draw.below(2) == 0 {
        writeln!(output)?;
    }
    Ok(())
}

/// The test room: every corner as a line.
pub fn corner_lines(output: &mut impl Write) -> io::Result<()> {
    for (shares, waiting) in corners() {
        writeln!(output, "{}", line(shares, waiting))?;
    }
    Ok(())
}
