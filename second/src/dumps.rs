//! Document 02, S-13: exciter dumps and the judge of them.

use crate::commands::{self, Run, Stop};
use crate::draw::Draw;
use crate::modes::{Mode, Without};
use crate::run::Side;

/// The letters that a dump begins with.
const MARK: &[u8] = b"HDM";
/// The version of today.
const VERSION: u16 = 1;
/// The bytes before the first L1 frame.
const HEADER_BYTES: usize = 8;

/// Document 02, S-13: what the judge returns; three zeros for an accepted dump.
#[derive(Clone, Copy, Debug, Default, PartialEq, Eq)]
pub struct Verdict {
    pub number: u32,
    pub place: usize,
    pub frame: usize,
}

/// Document 02, S-13: a refusal with this number.
fn refuse<T>(number: u32, place: usize, frame: usize) -> Result<T, Verdict> {
    Err(Verdict {
        number,
        place,
        frame,
    })
}

/// Document 02, S-13: the bytes that a dump of so many L1 frames begins with.
pub fn header(mode: &Mode, count: u16) -> Vec<u8> {
    let [version, count] = [VERSION, count].map(u16::to_be_bytes);
    [MARK, &version, &[mode.number as u8], &count].concat()
}

/// Document 02, S-13: judges a dump.
pub fn judge(dump: &[u8]) -> Verdict {
    try_judge(dump).err().unwrap_or_default()
}

/// Document 02, S-13: the header, then the L1 frames in order, then the end.
fn try_judge(dump: &[u8]) -> Result<(), Verdict> {
    let (number, count) = read_header(dump)?;
    let Ok(mut reader) = Run::start(Side::Reader, number) else {
        return refuse(1, 0, 0);
    };
    let mut rest = &dump[HEADER_BYTES..];
    for frame in 0..count {
        let mut matrices = reader.mode.matrix_lengths().map(|length| vec![0; length]);
        for buffer in &mut matrices {
            let Some((bytes, after)) = rest.split_at_checked(buffer.len()) else {
                return refuse(19, 0, frame);
            };
            buffer.copy_from_slice(bytes);
            rest = after;
        }
        let (answer, _) = reader.read(&matrices);
        if answer.number != 0 {
            return refuse(answer.number, answer.place, frame);
        }
    }
    match rest {
        [] => Ok(()),
        _ => refuse(19, 0, count),
    }
}

/// Document 02, S-13: the mode number and the count of L1 frames of a dump, if its mark and version
/// are right.
fn read_header(dump: &[u8]) -> Result<(u64, usize), Verdict> {
    let Some(header) = dump.get(..HEADER_BYTES).filter(|h| h.starts_with(MARK)) else {
        return refuse(17, 0, 0);
    };
    let word = |at: usize| u16::from_be_bytes([header[at], header[at + 1]]);
    if word(3) != VERSION {
        return refuse(18, 0, 0);
    }
    Ok((u64::from(header[5]), usize::from(word(6))))
}

/// The L1 frames of a drawn dump: in the fourth P1' has come out of the delay.
const DRAWN: u16 = 5;

/// No section: dumps to be judged, made of a drawn one: whole, cut, too long, with wrong headers, and
/// damaged early and late, also before a cut.
pub fn drawn(seed: u64, mode: &Mode) -> Result<Vec<Vec<u8>>, Stop> {
    let whole = drawn_dump(seed, mode)?;
    let mut draw = Draw::new(seed ^ mode.number);
    let end = whole.len();
    let size = (end - HEADER_BYTES) / usize::from(DRAWN);
    let within = |draw: &mut Draw, frame: usize| {
        HEADER_BYTES + frame * size + draw.below(size as u64) as usize
    };
    let (early, late) = (within(&mut draw, 0), within(&mut draw, 4));
    let header_cuts = [0, 3, 7, 8, 9];
    let frame_cuts = [early, 7 + size, 8 + size, 9 + size, late, end - 1];
    let cuts = header_cuts.into_iter().chain(frame_cuts);
    let mut dumps: Vec<Vec<u8>> = cuts.map(|cut| whole[..cut].to_vec()).collect();
    dumps.push(whole.clone());
    for more in [&whole[8..9], &whole[8..8 + size]] {
        dumps.push([&whole, more].concat());
    }
    for (at, bytes) in headers() {
        for rest in [8, 9 + size, end] {
            dumps.push(with(&whole[..rest], at, &bytes));
        }
    }
    for frame in [0, 1, 3, 4] {
        let at = within(&mut draw, frame);
        let damaged = with(&whole, at, &[whole[at] ^ 1 << draw.below(8)]);
        dumps.push(damaged[..late.max(at + 1)].to_vec());
        dumps.push(damaged);
    }
    Ok(dumps)
}

/// No section: a dump of drawn L1 frames.
fn drawn_dump(seed: u64, mode: &Mode) -> Result<Vec<u8>, Stop> {
    let (mut frames, mut dump) = (Vec::new(), Vec::new());
    let (count, all) = (u64::from(DRAWN), Without::default());
    commands::draw(seed, mode.number, count, all, &mut frames)?;
    commands::dump(mode.number, count, all, &mut &frames[..], &mut dump)?;
    Ok(dump)
}

/// No section: what is put into a header, and where: other letters, versions, modes and counts; 256 is
/// version 1 in the other byte order, 1,280 the count.
fn headers() -> Vec<(usize, Vec<u8>)> {
    let mut headers: Vec<(usize, Vec<u8>)> = Vec::new();
    headers.extend([(0, b'h'), (1, b'M'), (2, 0)].map(|(at, letter)| (at, vec![letter])));
    headers.extend([0_u16, 2, 256, 257].map(|version| (3, version.to_be_bytes().to_vec())));
    headers.extend([0, 1, 2, 3, 4, 5, 6, 11, 12, 255].map(|mode| (5, vec![mode])));
    let counts = [0, DRAWN - 1, DRAWN + 1, DRAWN * 256, u16::MAX];
    headers.extend(counts.map(|count| (6, count.to_be_bytes().to_vec())));
    headers
}

/// No section: a dump with other bytes at a place.
fn with(dump: &[u8], at: usize, bytes: &[u8]) -> Vec<u8> {
    let mut dump = dump.to_vec();
    dump[at..at + bytes.len()].copy_from_slice(bytes);
    dump
}
