//! Section 10: interleaving.

use std::sync::OnceLock;

/// Rows of an interleaver block (section 10.2.1).
const BLOCK_ROWS: usize = 32;

/// Tables 10-12, 10-13, 10-17 and 10-19: the parameters of a matrix that interleaver I fills.
pub struct Partitions {
    /// J, partitions.
    partitions: usize,
    /// B, interleaver blocks of a partition.
    blocks: usize,
    /// C, columns of a partition.
    columns: usize,
    /// M, the partition factor.
    factor: usize,
    /// v, the partition assignment vector.
    order: &'static [usize],
}

/// Tables 10-12 and 10-13: the PM matrix of every service mode.
static PM: Partitions = Partitions {
    partitions: 20,
    blocks: 16,
    columns: 36,
    factor: 1,
    order: &[
        10, 2, 18, 6, 14, 8, 16, 0, 12, 4, 11, 3, 19, 7, 15, 9, 17, 1, 13, 5,
    ],
};

/// Table 10-17: the PX2 matrix of a P1' frame in service mode MP5. Its row has the first 4 twice.
pub static PX2_MP5: Partitions = Partitions {
    partitions: 4,
    blocks: 2,
    columns: 36,
    factor: 2,
    order: &[0, 1, 2, 3],
};

/// Table 10-19: the PX2 matrix of a P1' frame in service mode MP6.
pub static PX2_MP6: Partitions = Partitions {
    partitions: 8,
    blocks: 2,
    columns: 36,
    factor: 1,
    order: &[0, 1, 3, 2, 4, 5, 7, 6],
};

impl Partitions {
    /// Section 10.2.2: the columns of the matrix.
    const fn width(&self) -> usize {
        self.partitions * self.columns
    }

    /// Section 10.2.2: the cells of the matrix.
    pub const fn bits(&self) -> usize {
        self.blocks * BLOCK_ROWS * self.width()
    }

    /// Section 10.2.2: the cell number, row by row, of a place in a partition's block.
    fn cell(&self, partition: usize, block: usize, k: usize) -> usize {
        let row = (k * 11) % BLOCK_ROWS;
        let column = (k * 11 + k / (32 * 9)) % self.columns;
        (block * BLOCK_ROWS + row) * self.width() + partition * self.columns + column
    }

    /// Section 10.2.3: interleaver I, the cell of coded bit i.
    pub fn interleaver_one(&self, i: usize) -> usize {
        let (j, b, m) = (self.partitions, self.blocks, self.factor);
        let partition = self.order[((i + 2 * (m / 4)) / m) % j];
        let block = match m {
            1 => (i / j + partition * 7) % b,
            _ => (i + i / (j * b)) % b,
        };
        self.cell(partition, block, i / (j * b))
    }

    /// Section 10.2.3: the matrix of the coded bits of one transfer frame, which fill it.
    pub fn matrix(&self, coded: &[bool]) -> Vec<bool> {
        let mut matrix = vec![false; self.bits()];
        for (i, &bit) in coded.iter().enumerate() {
            matrix[self.interleaver_one(i)] = bit;
        }
        matrix
    }

    /// Section 10.2.3, way back: the coded bits that fill a matrix.
    pub fn coded_bits(&self, matrix: &[bool]) -> Vec<bool> {
        (0..self.bits())
            .map(|i| matrix[self.interleaver_one(i)])
            .collect()
    }
}

/// Table 10-12: coded bits of the vector U (a P1 frame, or P1 and P2 frames), also the index
/// offset of Table 10-13.
pub const U_BITS: usize = 365_440;
/// Table 10-13: coded bits of a PIDS frame.
pub const PIDS_CODED_BITS: usize = 200;
/// Table 10-13: coded bits of the sixteen PIDS frames.
pub const ALL_PIDS_CODED_BITS: usize = 3_200;
/// Section 10.2.2: rows of the PM matrix.
pub const PM_ROWS: usize = PM.blocks * BLOCK_ROWS;
/// Section 10.2.2: columns of the PM matrix.
pub const PM_COLUMNS: usize = PM.width();

/// Section 10.2.3: interleaver I, the PM cell of bit i of U.
pub fn interleaver_one(i: usize) -> usize {
    PM.interleaver_one(i)
}

/// Section 10.2.4: interleaver II, the PM cell of bit i of the sixteen coded PIDS frames.
pub fn interleaver_two(i: usize) -> usize {
    let (j, b) = (PM.partitions, PM.blocks);
    let partition = PM.order[i % j];
    let block = i / PIDS_CODED_BITS;
    let k = (i / j) % (PIDS_CODED_BITS / j) + U_BITS / (j * b);
    PM.cell(partition, block, k)
}

/// Document 02, S-3: the block that holds a row of PM and the row in it, the partition that holds
/// a column and the column in it.
pub fn pm_position(row: usize, column: usize) -> [usize; 4] {
    let (block, partition) = (row / BLOCK_ROWS, column / PM.columns);
    [
        block,
        row - block * BLOCK_ROWS,
        partition,
        column - partition * PM.columns,
    ]
}

/// Section 10.4.1: the PM cells of all bits of U and then of all PIDS bits, worked out once.
pub fn pm_cells() -> &'static [usize] {
    static CELLS: OnceLock<Vec<usize>> = OnceLock::new();
    CELLS.get_or_init(|| {
        let u = (0..U_BITS).map(interleaver_one);
        u.chain((0..ALL_PIDS_CODED_BITS).map(interleaver_two))
            .collect()
    })
}

/// Section 10.4.1: the PM matrix of U and the sixteen coded PIDS frames.
pub fn pm_matrix<T: Copy + Default>(u: &[T], pids: &[T]) -> Vec<T> {
    let mut matrix = vec![T::default(); PM.bits()];
    for (&cell, &entry) in pm_cells().iter().zip(u.iter().chain(pids)) {
        matrix[cell] = entry;
    }
    matrix
}

/// Section 10.4.1, way back: U and the sixteen coded PIDS frames.
pub fn pm_coded_bits<T: Copy>(matrix: &[T]) -> (Vec<T>, Vec<T>) {
    let mut u: Vec<T> = pm_cells().iter().map(|&cell| matrix[cell]).collect();
    let pids = u.split_off(U_BITS);
    (u, pids)
}

/// Where a coded bit of an L1 frame is shown: how many L1 frames later, and in which cell.
pub type Shown = (usize, usize);

/// One row of Tables 10-15, 10-16 and 10-18, with what following interleaver IV tells about it.
pub struct PxRow {
    /// J, partitions.
    partitions: usize,
    /// B, interleaver blocks of a partition.
    blocks: usize,
    /// C, columns of a partition.
    columns: usize,
    /// M, the partition factor.
    factor: usize,
    /// v, the partition assignment vector.
    order: &'static [usize],
    /// b, the coded bits of a transfer frame.
    pub frame_bits: usize,
    /// N, the bits of the internal matrix.
    pub bits: usize,
    written: OnceLock<Vec<usize>>,
    fill: OnceLock<Vec<bool>>,
    shown: OnceLock<[Vec<Shown>; 2]>,
}

/// Table 10-15, service mode MP2.
pub static PX_MP2: PxRow = PxRow::new(2, 4, &[0, 1], 4_608, 73_728);

/// Tables 10-15, 10-16 and 10-18: service modes MP3, MP11 and MP5.
pub static PX_MP3_MP11: PxRow = PxRow::new(4, 2, &[0, 1, 2, 3], 9_216, 147_456);

impl PxRow {
    /// Tables 10-15, 10-16 and 10-18: B = 32 and C = 36 are common to all rows.
    const fn new(
        partitions: usize,
        factor: usize,
        order: &'static [usize],
        frame_bits: usize,
        bits: usize,
    ) -> PxRow {
        PxRow {
            partitions,
            blocks: 32,
            columns: 36,
            factor,
            order,
            frame_bits,
            bits,
            written: OnceLock::new(),
            fill: OnceLock::new(),
            shown: OnceLock::new(),
        }
    }

    /// Section 10.4.2: the bits of the eight output matrices of an L1 frame.
    pub fn half_bits(&self) -> usize {
        self.bits / 2
    }

    /// Section 10.2.2.2: the columns of the internal and of the output matrix.
    pub fn width(&self) -> usize {
        self.partitions * self.columns
    }

    /// Sections 10.2.6.2 to 10.2.6.4: block, row and column of entry pt of a partition.
    pub fn place(&self, partition: usize, pt: usize) -> (usize, usize, usize) {
        let block_bits = 32 * self.columns;
        let block_adjust = 32 * self.columns - 1;
        let block = (pt + partition * 7 - block_adjust * (pt / block_bits)) % self.blocks;
        let row = ((11 * pt) % block_bits) / self.columns;
        let column = (pt * 11) % self.columns;
        (block, row, column)
    }

    /// Section 10.2.6.1: the partition that step i goes to.
    pub fn partition(&self, i: usize) -> usize {
        let index = (i + 2 * (self.factor / 4)) / self.factor;
        self.order[index % self.partitions]
    }

    /// Section 10.2.6.1: the internal cells written by the N steps, counting in each partition.
    fn written(&self) -> &[usize] {
        self.written.get_or_init(|| {
            let mut pt = vec![0; self.partitions];
            let step = |i| {
                let partition = self.partition(i);
                let (block, row, column) = self.place(partition, pt[partition]);
                pt[partition] += 1;
                (block * BLOCK_ROWS + row) * self.width() + partition * self.columns + column
            };
            (0..self.bits).map(step).collect()
        })
    }

    /// Section 10.2.2.2, equation set IV: half of the N steps, each a write and then a read.
    pub fn process<T: Copy>(&self, half: usize, input: &[T], memory: &mut [T]) -> Vec<T> {
        let written = self.written();
        let first = half * self.half_bits();
        let mut output = Vec::with_capacity(input.len());
        for (i, &entry) in (first..first + self.half_bits()).zip(input) {
            memory[written[i]] = entry;
            let read_row = i / self.width();
            let read_column = i % self.width();
            output.push(memory[read_row * self.width() + read_column]);
        }
        output
    }

    /// Section 10.4.2 and document 01, PX: the cells of the first N steps that show the fill.
    pub fn fill(&self) -> &[bool] {
        self.fill.get_or_init(|| {
            let mut memory = vec![false; self.bits];
            let marks = vec![true; self.half_bits()];
            let mut seen = self.process(0, &marks, &mut memory);
            seen.extend(self.process(1, &marks, &mut memory));
            seen.iter().map(|mark| !mark).collect()
        })
    }

    /// Section 10.4.2: follows tags through four L1 frames, for those that start in either half.
    pub fn shown(&self) -> &[Vec<Shown>; 2] {
        self.shown.get_or_init(|| {
            let mut memory = vec![None; self.bits];
            let mut shown = [
                vec![(0, 0); self.half_bits()],
                vec![(0, 0); self.half_bits()],
            ];
            for now in 0..4 {
                let tags: Vec<_> = (0..self.half_bits()).map(|bit| Some((now, bit))).collect();
                let cells = self.process(now % 2, &tags, &mut memory);
                for (cell, tag) in cells.into_iter().enumerate() {
                    match tag {
                        Some((sent, bit)) if sent < 2 => shown[sent][bit] = (now - sent, cell),
                        _ => (),
                    }
                }
            }
            shown
        })
    }

    /// Section 10.4.2, way back: the coded bits of the first of three consecutive L1 frames.
    pub fn first_of_three<T: Copy>(&self, half: usize, matrices: [&[T]; 3]) -> Vec<T> {
        self.shown()[half]
            .iter()
            .map(|&(later, cell)| matrices[later][cell])
            .collect()
    }
}
