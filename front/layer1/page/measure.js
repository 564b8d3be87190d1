// How long lookups and drawing take here, by the browser's own timer.

// The middle and the greatest of so many times, in milliseconds.
function timed(count, run) {
    const times = [];
    for (let n = 0; n < count; n++) {
        const begun = performance.now();
        run(n);
        times.push(performance.now() - begun);
    }
    times.sort((a, b) => a - b);
    return times[count >> 1].toFixed(2) + " ms, at most " + times[count - 1].toFixed(2);
}

// Marks a cell and draws it in the middle at a width, or in the whole matrix; reading a pixel back waits until all is drawn.
function drawnAt(width, cell) {
    state.cell = cell;
    state.scale = width;
    state.whole = !width;
    scroll(false, true);
    draw();
    pen.getImageData(0, 0, 1, 1);
}

// Measures the matrix that is shown, and says the times.
function measure() {
    const kept = Object.assign({}, state);
    const cells = state.matrix.rows * state.matrix.columns;
    const drawn = n => n * 7919 % cells;
    const told = ["ready after " + Math.round(state.ready) + " ms"];
    told.push("lookup of a bit " + timed(200, n => {
        const owner = Lookup.ownerOf(pack, state.matrix, state.frame, drawn(n));
        Lookup.cellOf(pack, state.mode, Math.max(0, owner.from), owner.channel, owner.tframe, owner.bit);
    }));
    told.push("lookup of all cells " + timed(20, () => {
        for (let cell = 0; cell < cells; cell++) {
            Lookup.ownerOf(pack, state.matrix, state.frame, cell);
        }
    }));
    told.push("answer " + timed(100, n => {
        state.cell = drawn(n);
        answer();
    }));
    told.push("matrix painted " + timed(50, paint));
    told.push("whole matrix drawn " + timed(100, n => drawnAt(0, drawn(n))));
    [9, DIGITS, NAMES].forEach(width => told.push("cells of " + width + " pixels drawn " + timed(100, n => drawnAt(width, drawn(n)))));
    Object.assign(state, kept);
    answer();
    bound();
    redraw();
    at("measured").textContent = told.join("; ") + "; " + canvas.width + " × " + canvas.height + " pixels";
}
