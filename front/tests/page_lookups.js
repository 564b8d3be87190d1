// page_lookups.js PAGE owners MODE, PAGE values DUMP, PAGE workings FILE: what the bench page looks up, by its script and its tables as they stand in the file.
"use strict";
const fs = require("fs");
const vm = require("vm");
const [name, command, operand] = process.argv.slice(2);
const html = fs.readFileSync(name, "utf8");

// The text of a script of the page.
function part(id) {
    const from = html.indexOf(">", html.indexOf(` id="${id}"`)) + 1;
    return html.slice(from, html.indexOf("</script>", from));
}

vm.runInThisContext(part("lookup"));
const pack = JSON.parse(part("tables"));
const book = Lookup.opened(pack);

// A question's answer as the program owners prints it; nothing where there is none.
function answer(mode, words) {
    const frame = Lookup.numberIn(words[0], Lookup.FRAMES);
    const numbers = words.slice(2).map(word => Lookup.numberIn(word, Lookup.FRAMES));
    if (frame === null || numbers.includes(null)) {
        return null;
    }
    const matrix = Lookup.matrixOf(mode, words[1]);
    if (matrix) {
        const place = matrix.paired ? numbers : [0, ...numbers];
        const cell = place.length === 3 ? Lookup.cellAt(pack, matrix, ...place) : null;
        return cell === null ? null : [...words, ...owner(matrix, frame, cell)].join(" ");
    }
    const found = numbers.length === 2 ? Lookup.cellOf(pack, mode, frame, words[1], ...numbers) : null;
    return found && [...words, found.matrix.name, found.frame, ...cellWords(found.matrix, found.cell)].join(" ");
}

// The owner of a cell in words.
function owner(matrix, frame, cell) {
    const found = Lookup.ownerOf(pack, matrix, frame, cell);
    return found.fill ? ["FILL"] : [found.channel, ...(matrix.paired ? [found.from] : []), found.tframe, found.bit];
}

// A cell in words; row and column put together again from block and partition, which must come to the same.
function cellWords(matrix, cell) {
    const place = Lookup.placeOf(pack, matrix, cell);
    const across = pack.blockRows * place.block + place.blockRow;
    const column = pack.partition * place.partition + place.partitionColumn;
    return matrix.paired ? [place.pair, across - pack.pairRows * place.pair, column] : [across, column];
}

// What is printed for the lines of standard input, one for each.
function answered(mode) {
    const lines = fs.readFileSync(0, "latin1").split("\n").slice(0, -1);
    return lines.map((line, n) => answer(mode, line.split(" ")) || `REFUSED ${n + 1}`);
}

// The values of the cells asked for, out of a dump; or why it is refused.
function values(bytes) {
    const dump = Lookup.dumpOf(pack, bytes.subarray(0, 8), bytes.length);
    if (dump.refused) {
        return [dump.refused];
    }
    const mode = book.modes.find(known => known.number === dump.mode);
    return fs.readFileSync(0, "latin1").split("\n").slice(0, -1).map(line => {
        const words = line.split(" ");
        const matrix = Lookup.matrixOf(mode, words[1]);
        const place = words.slice(2).map(Number);
        const cell = Lookup.cellAt(pack, matrix, ...(matrix.paired ? place : [0, ...place]));
        const first = dump.start + Number(words[0]) * dump.length;
        return Lookup.bitIn(pack, mode, matrix, bytes.subarray(first, first + dump.length), cell);
    });
}

// The workings of a text: the coded bit, its value, and the line.
function workings(text) {
    const found = Lookup.workingsOf(text);
    return found === null ? ["none"] : [`mode ${found.mode}`, ...Object.keys(found.by).map(key => `${key} ${found.by[key].value} ${found.by[key].line}`)];
}

const run = {
    owners: () => answered(book.modes.find(mode => String(mode.number) === operand)),
    values: () => values(fs.readFileSync(operand)),
    workings: () => workings(fs.readFileSync(operand, "latin1")),
};
fs.writeFileSync(1, run[command]().map(line => line + "\n").join(""));
