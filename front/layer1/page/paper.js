// A block of a partition for paper.

// Lays out a block of a partition for paper, on two leaves of eighteen columns; or says that there is no such block.
function layOut() {
    const blocks = state.matrix.rows / pack.blockRows;
    const partitions = state.matrix.columns / pack.partition;
    const block = Lookup.numberIn(at("print-block").value.trim(), blocks);
    const partition = Lookup.numberIn(at("print-partition").value.trim(), partitions);
    at("paper").textContent = "";
    if (block === null || partition === null) {
        refuse(matrixInWords() + "blocks 0 to " + (blocks - 1) + " and partitions 0 to " + (partitions - 1) + ".");
        at("paper").appendChild(made("p", "", at("said").textContent));
        return false;
    }
    [0, 1].forEach(half => at("paper").appendChild(leaf(block, partition, partition * pack.partition + half * pack.partition / 2)));
    return true;
}

// A leaf: half of a partition's columns in the rows of a block.
function leaf(block, partition, left) {
    const matrix = state.matrix;
    const right = left + pack.partition / 2;
    const top = block * pack.blockRows;
    const first = Lookup.placeOf(pack, matrix, top * matrix.columns + left);
    const pair = matrix.paired ? ", block pair " + first.pair : "";
    const title = matrix.name + pair + ", block " + block + ", partition " + partition + ": rows " + first.row + " to " + (first.row + pack.blockRows - 1)
        + ", columns " + left + " to " + (right - 1);
    const head = made("tr", "", made("th", "", "row"));
    for (let column = left; column < right; column++) {
        head.appendChild(made("th", "", String(column)));
    }
    const body = made("tbody");
    for (let row = top; row < top + pack.blockRows; row++) {
        body.appendChild(rowOf(row, left, right));
    }
    return made("div", "leaf", [made("h1", "", title), made("p", "", leafWords()), made("table", "", [made("thead", "", head), body])]);
}

// What the entries of a leaf say.
function leafWords() {
    const bytes = frameBytes();
    const value = bytes ? "In bold the bit in L1 frame " + state.frame + " of " + files.list.filter(entry => entry.sort === "dump")[0].name + ". " : "";
    const pm = "A number is the coded bit of P1; TFRAME/BIT, shaded, the transfer frame and the coded bit of PIDS.";
    const px = "L1 frame " + state.frame + ": TFRAME/BIT, the transfer frame and the coded bit; ′ handed over one L1 frame before, ″ two, shaded;"
        + " - the fill of a fresh start.";
    return state.mode.name + ". " + value + (state.matrix.paired ? px : pm) + " Numbers count from 0. Revision " + at("revision").textContent + ".";
}

// A row of a leaf.
function rowOf(row, left, right) {
    const matrix = state.matrix;
    const bytes = frameBytes();
    const line = made("tr", "", made("th", "", String(Lookup.placeOf(pack, matrix, row * matrix.columns).row)));
    for (let column = left; column < right; column++) {
        const cell = row * matrix.columns + column;
        const owner = Lookup.ownerOf(pack, matrix, state.frame, cell);
        const text = owner.fill ? "-" : shortName(owner) + ["", "′", "″"][owner.age];
        const value = bytes ? [made("b", "", String(Lookup.bitIn(pack, state.mode, matrix, bytes, cell)))] : [];
        line.appendChild(made("td", owner.channel === "PIDS" || owner.age && !owner.fill ? "other" : "", value.concat(text)));
    }
    return line;
}
