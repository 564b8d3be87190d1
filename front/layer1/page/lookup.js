// What the page looks up: the tables that the programs printed, the bits of a dump, the workings of a file.
// No drawing and no document here, so that node runs it too.
"use strict";
var Lookup = (function () {
    const DIGITS = "ABCDEFGHIJKLMNOPQRSTUVWXYZabcdefghijklmnopqrstuvwxyz0123456789+/";
    const FRAMES = 4294967296;
    const HEADER = 8;

    // The numbers of a packed table, one for each four characters.
    function unpacked(text) {
        const values = new Uint8Array(128);
        for (let n = 0; n < 64; n++) {
            values[DIGITS.charCodeAt(n)] = n;
        }
        const cells = new Uint32Array(text.length / 4);
        for (let n = 0, at = 0; n < cells.length; n++, at += 4) {
            for (let digit = at; digit < at + 4; digit++) {
                cells[n] = cells[n] << 6 | values[text.charCodeAt(digit)];
            }
        }
        return cells;
    }

    // The modes with their matrices, from what the page was made with.
    function opened(pack) {
        const tables = pack.tables.map(table => ({ kinds: table.kinds, cells: unpacked(table.cells) }));
        const modes = pack.modes.map(mode => {
            const matrices = Object.keys(mode.matrices).map(name => {
                const given = mode.matrices[name];
                return { name: name, columns: given.columns, rows: pack.rows, paired: given.paired, tables: given.tables.map(at => tables[at]) };
            });
            return { number: mode.number, name: mode.name, frames: mode.frames, matrices: matrices };
        });
        return { modes: modes, pack: pack };
    }

    // A matrix of a mode by name; nothing where the mode has none.
    function matrixOf(mode, name) {
        return mode.matrices.filter(matrix => matrix.name === name)[0] || null;
    }

    // The table of a matrix in an L1 frame: the two of PX1 and PX2 are those of even and of odd L1 frames.
    function tableOf(matrix, frame) {
        return matrix.tables[frame % matrix.tables.length];
    }

    // The number of a cell in its table, and nothing where there is no such cell; in PX1 and PX2 with a block pair.
    function cellAt(pack, matrix, pair, row, column) {
        const rows = matrix.paired ? pack.pairRows : matrix.rows;
        const whole = [pair, row, column].every(n => Number.isInteger(n) && n >= 0);
        if (!whole || row >= rows || column >= matrix.columns || pair >= matrix.rows / rows) {
            return null;
        }
        return (pair * rows + row) * matrix.columns + column;
    }

    // Row and column of a cell, its block pair in PX1 and PX2, and its place in block and partition.
    function placeOf(pack, matrix, cell) {
        const across = Math.floor(cell / matrix.columns);
        const column = cell % matrix.columns;
        const pair = matrix.paired ? Math.floor(across / pack.pairRows) : 0;
        return {
            across: across,
            pair: pair,
            row: matrix.paired ? across % pack.pairRows : across,
            column: column,
            block: Math.floor(across / pack.blockRows),
            blockRow: across % pack.blockRows,
            partition: Math.floor(column / pack.partition),
            partitionColumn: column % pack.partition,
        };
    }

    // Whose coded bit a cell shows in an L1 frame: FILL where its bit would be older than the run.
    function ownerOf(pack, matrix, frame, cell) {
        const table = tableOf(matrix, frame);
        const entry = table.cells[cell];
        const kind = table.kinds[entry >>> pack.bitWidth];
        const owner = { fill: kind[2] > frame, channel: kind[0], tframe: kind[1], age: kind[2], from: frame - kind[2] };
        owner.bit = entry & (1 << pack.bitWidth) - 1;
        return owner;
    }

    // The greatest number of L1 frames that a bit waits for its cell in a matrix.
    function oldest(matrix) {
        return Math.max.apply(null, matrix.tables[0].kinds.map(kind => kind[2]));
    }

    // The greatest coded bit of each kind in a table.
    function lastBits(pack, table) {
        const last = table.kinds.map(() => 0);
        table.cells.forEach(entry => {
            last[entry >>> pack.bitWidth] = Math.max(last[entry >>> pack.bitWidth], entry & (1 << pack.bitWidth) - 1);
        });
        return last;
    }

    // The table turned round, made when it is first needed: for each kind, the cell of each of its coded bits, and -1 where none shows it.
    function turned(pack, table) {
        if (!table.turned) {
            table.turned = lastBits(pack, table).map(last => new Int32Array(last + 1).fill(-1));
            table.cells.forEach((entry, cell) => {
                table.turned[entry >>> pack.bitWidth][entry & (1 << pack.bitWidth) - 1] = cell;
            });
        }
        return table.turned;
    }

    // Where a coded bit of a transfer frame goes that was handed over in an L1 frame: matrix, L1 frame and cell; nothing where no cell shows it.
    function cellOf(pack, mode, frame, channel, tframe, bit) {
        for (const matrix of mode.matrices) {
            for (let age = 0; age <= oldest(matrix); age++) {
                const table = tableOf(matrix, frame + age);
                const kind = table.kinds.findIndex(known => known[0] === channel && known[1] === tframe && known[2] === age);
                const cell = kind < 0 ? -1 : turned(pack, table)[kind][bit];
                if (cell >= 0) {
                    return { matrix: matrix, frame: frame + age, cell: cell };
                }
            }
        }
        return null;
    }

    // The channels that have cells in a mode, each with its matrix, its last transfer frame and its last coded bit.
    function channelsOf(pack, mode) {
        const found = [];
        for (const matrix of mode.matrices) {
            const last = lastBits(pack, matrix.tables[0]);
            matrix.tables[0].kinds.forEach((kind, at) => {
                let channel = found.filter(known => known.name === kind[0])[0];
                if (!channel) {
                    channel = { name: kind[0], matrix: matrix.name, lastFrame: 0, lastBit: 0 };
                    found.push(channel);
                }
                channel.lastFrame = Math.max(channel.lastFrame, kind[1]);
                channel.lastBit = Math.max(channel.lastBit, last[at]);
            });
        }
        return found;
    }

    // A number of decimal digits below a bound; nothing for other text.
    function numberIn(text, bound) {
        return /^[0-9]{1,10}$/.test(text) && Number(text) < bound ? Number(text) : null;
    }

    // Mode and count of a dump by its first eight bytes and its length, or the words of its refusal.
    function dumpOf(pack, head, size) {
        const words = pack.words;
        if (head.length < HEADER || head[0] !== 72 || head[1] !== 68 || head[2] !== 77) {
            return { refused: words[17] };
        }
        if (head[3] !== 0 || head[4] !== 1) {
            return { refused: words[18] };
        }
        const parts = pack.dumps[head[5]];
        if (!parts) {
            return { refused: words[1] };
        }
        const length = parts.reduce((sum, part) => sum + part, 0);
        const count = head[6] * 256 + head[7];
        if (size !== HEADER + count * length) {
            return { refused: "L1 frame " + Math.min(count, Math.floor((size - HEADER) / length)) + ": " + words[19] };
        }
        return { mode: head[5], count: count, length: length, start: HEADER };
    }

    // The bit in a cell, out of the bytes of its L1 frame in a dump.
    function bitIn(pack, mode, matrix, bytes, cell) {
        const parts = pack.dumps[mode.number];
        const first = parts.slice(0, pack.parts.indexOf(matrix.name)).reduce((sum, part) => sum + part, 0);
        return bytes[first + (cell >>> 3)] >> 7 - cell % 8 & 1;
    }

    // How many L1 frames of a mode a file of frames has, by its length; nothing where these are not whole.
    function framesOf(mode, size) {
        const length = 1 + mode.frames.reduce((sum, part) => sum + part, 0);
        return size > 0 && size % length === 0 ? { count: size / length, length: length } : null;
    }

    // Where the bytes of a transfer frame stand in a file of frames: number, P1, PIDS, P2, P3, P4 for each L1 frame.
    function bytesOf(mode, channel, lastFrame, frame, tframe) {
        const at = ["P1", "PIDS", "P2", "P3", "P4"].indexOf(channel);
        const length = mode.frames[at] / (lastFrame + 1);
        const before = mode.frames.slice(0, at).reduce((sum, part) => sum + part, 1);
        const all = mode.frames.reduce((sum, part) => sum + part, 1);
        return { first: frame * all + before + tframe * length, length: length };
    }

    const ANSWERS = [
        [/^(\d+) PM \d+ \d+ (P1|PIDS) (\d+) (\d+) ([01])$/, 1],
        [/^\d+ PX[12] \d+ \d+ \d+ (P[34]) (\d+) (\d+) (\d+) ([01])$/, 0],
        [/^(\d+) (P1|PIDS) (\d+) (\d+) PM \d+ \d+ \d+ ([01]|LATER)$/, 1],
        [/^(\d+) (P[34]) (\d+) (\d+) PX[12] \d+ \d+ \d+ \d+ ([01]|LATER)$/, 1],
    ];
    const SEVEN = " ([01]) ([01]) ([01]) ([01]) ([01]) ([01]) ([01])";
    const WORK = new RegExp("^WORK BIT (\\d+) GENERATOR (\\d+) FRAME" + SEVEN + " SCRAMBLER" + SEVEN
        + " SUM (\\d+) STEP (\\d+) K (\\d+) BLOCK (\\d+) PARTITION (\\d+) ROW (\\d+) COLUMN (\\d+) CELL (\\d+)$");

    // The name under which the working of a coded bit is kept.
    function nameOf(frame, channel, tframe, bit) {
        return frame + " " + channel + " " + tframe + " " + bit;
    }

    // The coded bit and the value that an answer line names; nothing for another line.
    function answered(line) {
        for (const form of ANSWERS) {
            const found = form[0].exec(line);
            if (found) {
                const words = form[1] ? [found[1], found[2], found[3], found[4]] : [found[2], found[1], found[3], found[4]];
                return { name: nameOf.apply(null, words), value: found[5] };
            }
        }
        return null;
    }

    // A working by its fields; nothing for another line.
    function worked(line) {
        const found = WORK.exec(line);
        return found && {
            number: found[1], generator: found[2], bits: found.slice(3, 10), scrambler: found.slice(10, 17), sum: found[17],
            step: found[18], k: found[19], block: found[20], partition: found[21], row: found[22], column: found[23], cell: found[24], line: line,
        };
    }

    // The workings in a text that `layer1 work --lines` or `sheet` wrote, by coded bit, and the mode where its head says it; nothing where there are none.
    function workingsOf(text) {
        const lines = text.split("\n").map(line => line.replace(/\r$/, ""));
        const head = /^MP(\d+) /.exec(lines[0]);
        const found = { mode: head ? Number(head[1]) : null, count: 0, by: Object.create(null) };
        for (let n = 1; n < lines.length; n++) {
            const working = worked(lines[n]);
            const answer = working && answered(lines[n - 1]);
            if (answer) {
                working.value = answer.value;
                found.by[answer.name] = working;
                found.count++;
            }
        }
        return found.count ? found : null;
    }

    return {
        FRAMES: FRAMES, opened: opened, matrixOf: matrixOf, tableOf: tableOf, cellAt: cellAt, placeOf: placeOf, ownerOf: ownerOf, cellOf: cellOf,
        channelsOf: channelsOf, numberIn: numberIn, dumpOf: dumpOf, bitIn: bitIn, framesOf: framesOf, bytesOf: bytesOf, nameOf: nameOf, workingsOf: workingsOf,
    };
})();
