//! Document 01, the cell finder and the cell list program; document 02, S-3, where a row and a column stand.

use std::io::{self, BufRead, Write};
use std::sync::OnceLock;

use crate::interleaving::{
    pm_matrix, pm_position, ALL_PIDS_CODED_BITS, PIDS_CODED_BITS, PM_COLUMNS, PM_ROWS, U_BITS,
};

/// The channels that meet in the PM matrix.
#[derive(Clone, Copy, Debug, PartialEq, Eq)]
pub enum Channel {
    P1,
    Pids,
}

/// The answer of the cell finder; no channel and zeros when it is refused.
#[derive(Clone, Copy, Debug, PartialEq, Eq)]
pub struct Found {
    pub number: u32,
    pub place: usize,
    pub channel: Option<Channel>,
    pub frame: usize,
    pub bit: usize,
}

/// Whose bit a cell shows: the channel, the frame and the coded bit.
type Owner = (Channel, usize, usize);

/// Section 10.4.1.1: the PM matrix filled with the names of the coded bits.
fn owners() -> &'static [Option<Owner>] {
    static OWNERS: OnceLock<Vec<Option<Owner>>> = OnceLock::new();
    OWNERS.get_or_init(|| {
        let p1: Vec<_> = (0..U_BITS).map(|i| Some((Channel::P1, 0, i))).collect();
        let pids: Vec<_> = (0..ALL_PIDS_CODED_BITS)
            .map(|i| Some((Channel::Pids, i / PIDS_CODED_BITS, i % PIDS_CODED_BITS)))
            .collect();
        pm_matrix(&p1, &pids)
    })
}

/// Document 01, cell finder: channel, frame and coded bit of a PM row and column.
pub fn find(row: usize, column: usize) -> Found {
    let refused = |place| Found {
        number: 3,
        place,
        channel: None,
        frame: 0,
        bit: 0,
    };
    if row >= PM_ROWS {
        return refused(0);
    }
    if column >= PM_COLUMNS {
        return refused(1);
    }
    let owner = owners()[row * PM_COLUMNS + column];
    Found {
        number: 0,
        place: 0,
        channel: owner.map(|(channel, _, _)| channel),
        frame: owner.map_or(0, |(_, frame, _)| frame),
        bit: owner.map_or(0, |(_, _, bit)| bit),
    }
}

/// Document 02, S-3: block, row in the block, partition and column in the partition; zeros when
/// it is refused.
#[derive(Clone, Copy, Debug, Default, PartialEq, Eq)]
pub struct Placed {
    pub number: u32,
    pub place: usize,
    pub block: usize,
    pub row: usize,
    pub partition: usize,
    pub column: usize,
}

/// Document 02, S-3: where a PM row and column stand, refused as by the cell finder.
pub fn place_of(row: usize, column: usize) -> Placed {
    let found = find(row, column);
    if found.number != 0 {
        return Placed {
            number: found.number,
            place: found.place,
            ..Placed::default()
        };
    }
    let [block, row, partition, column] = pm_position(row, column);
    Placed {
        number: 0,
        place: 0,
        block,
        row,
        partition,
        column,
    }
}

/// Document 01, cell list: a number of decimal digits; a great one stands as the greatest.
pub(crate) fn decimal(digits: &[u8]) -> Option<usize> {
    if digits.is_empty() || !digits.iter().all(u8::is_ascii_digit) {
        return None;
    }
    let value = digits.iter().fold(0usize, |value, digit| {
        value
            .saturating_mul(10)
            .saturating_add(usize::from(digit - b'0'))
    });
    Some(value)
}

/// Document 01, cell list: row and column of a line, two numbers with one space between.
fn row_and_column(line: &[u8]) -> Option<(usize, usize)> {
    let space = line.iter().position(|&byte| byte == b' ')?;
    Some((decimal(&line[..space])?, decimal(&line[space + 1..])?))
}

/// Document 01, cell list: what is printed for one line.
fn report(line: &[u8], line_number: u64) -> String {
    let refused = format!("REFUSED {line_number}");
    let Some((row, column)) = row_and_column(line) else {
        return refused;
    };
    let found = find(row, column);
    let channel = match found.channel {
        Some(Channel::P1) => "P1",
        Some(Channel::Pids) => "PIDS",
        None => return refused,
    };
    format!("{row} {column} {channel} {} {}", found.frame, found.bit)
}

/// Document 01, cell list: the whole program.
pub fn list(input: &mut impl BufRead, output: &mut impl Write) -> io::Result<()> {
    writeln!(output, "ROW COL CHANNEL FRAME BIT")?;
    let mut line = Vec::new();
    let mut line_number = 0;
    while input.read_until(b'\n', &mut line)? > 0 {
        line_number += 1;
        if line.last() == Some(&b'\n') {
            line.pop();
        }
        writeln!(output, "{}", report(&line, line_number))?;
        line.clear();
    }
    Ok(())
}

/// Document 01, cell list: every row and column, as its input.
pub fn all(output: &mut impl Write) -> io::Result<()> {
    for row in 0..PM_ROWS {
        for column in 0..PM_COLUMNS {
            writeln!(output, "{row} {column}")?;
        }
    }
    Ok(())
}
