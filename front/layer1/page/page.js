// The page: mode, matrix and L1 frame, typed questions, and what begins it all.

const pack = JSON.parse(document.getElementById("tables").textContent);
const book = Lookup.opened(pack);

// What is shown: a cell of a matrix in an L1 frame; how large a cell is, and where the matrix begins in the picture.
const state = { mode: book.modes[book.modes.length - 1], matrix: null, frame: 0, cell: 0, scale: 1, x: 0, y: 0, whole: true, ready: 0, timer: 0 };

// An element by its id.
function at(id) {
    return document.getElementById(id);
}

// A new element with a class, and text or elements in it.
function made(tag, name, content) {
    const element = document.createElement(tag);
    if (name) {
        element.className = name;
    }
    [].concat(content === undefined ? [] : content).forEach(part => element.appendChild(typeof part === "object" ? part : document.createTextNode(part)));
    return element;
}

// The channels of the mode.
function channels() {
    state.mode.channels = state.mode.channels || Lookup.channelsOf(pack, state.mode);
    return state.mode.channels;
}

// Says something beside the answer; an empty text takes it away.
function say(text) {
    at("said").className = "said";
    at("said").textContent = text;
    at("answer").classList.remove("stale");
}

// Says what cannot be answered; the answer that stands there is paled, since it is not that of the question.
function refuse(text) {
    say(text);
    at("said").classList.add("warn");
    at("answer").classList.add("stale");
}

// Marks a cell, and shows it.
function mark(cell, near, middle) {
    state.cell = cell;
    say("");
    answer();
    scroll(near, middle);
    toAddress();
}

// Changes mode, matrix or L1 frame; the marked cell stays where the matrix has it.
function show(mode, matrix, frame) {
    const place = state.matrix ? Lookup.placeOf(pack, state.matrix, state.cell) : { across: 0, column: 0 };
    const other = !state.matrix || state.matrix.name !== matrix.name || state.matrix.columns !== matrix.columns;
    const read = frame !== state.frame || mode !== state.mode;
    state.mode = mode;
    state.matrix = matrix;
    state.frame = frame;
    state.cell = place.across * matrix.columns + Math.min(place.column, matrix.columns - 1);
    if (read) {
        readFrame();
    }
    say("");
    choices();
    paint();
    answer();
    if (other) {
        whole();
    }
    redraw();
    toAddress();
}

// The mode's matrices, channels and the parity of the L1 frame in the fields.
function choices() {
    document.querySelectorAll("#modes input").forEach(input => {
        input.checked = input.value === String(state.mode.number);
    });
    document.querySelectorAll("#matrices input").forEach(input => {
        input.disabled = !Lookup.matrixOf(state.mode, input.value);
        input.checked = input.value === state.matrix.name;
    });
    at("paired").hidden = !state.matrix.paired;
    at("parity").textContent = state.frame % 2 ? "(odd)" : "(even)";
    if (document.activeElement !== at("frame")) {
        at("frame").value = state.frame;
    }
    const names = channels().map(channel => channel.name);
    if (names.join() !== Array.prototype.map.call(at("channel").options, option => option.value).join()) {
        at("channel").textContent = "";
        names.forEach(name => at("channel").appendChild(new Option(name, name)));
    }
    legend();
}

// What the colours say.
function legend() {
    const channel = channels().filter(known => known.matrix === state.matrix.name)[0].name;
    const ages = [["c0", channel + " of this L1 frame"], ["c2", "of one before"], ["c3", "of two before"], ["fill", "fill"]];
    const shown = state.matrix.paired ? ages.filter((entry, n) => n === 3 ? state.frame < 2 : n <= state.frame) : [["c0", "P1"], ["c1", "PIDS"]];
    at("legend").textContent = "";
    shown.forEach(entry => {
        const patch = made("i");
        const second = colours[entry[0] + "s"] || colours[entry[0]];
        patch.style.background = "linear-gradient(90deg, " + colours[entry[0]] + " 50%, " + second + " 50%)";
        at("legend").appendChild(made("span", "", [patch, entry[1]]));
    });
    at("legend").appendChild(made("span", "", "shades: blocks of 32 × 36 cells"));
}

// A row of choices of which one holds.
function options(box, name, words, chosen) {
    words.forEach(word => {
        const input = made("input");
        input.type = "radio";
        input.name = name;
        input.value = word[0];
        box.appendChild(made("label", "one", [input, made("span", "", word[1])]));
        input.addEventListener("change", () => chosen(word[0]));
    });
}

// Shows an L1 frame by number.
function toFrame(text) {
    const frame = Lookup.numberIn(String(text).trim(), Lookup.FRAMES);
    if (frame === null) {
        refuse("An L1 frame is a number from 0 to " + (Lookup.FRAMES - 1) + ".");
        return;
    }
    show(state.mode, state.matrix, frame);
}

// The beginning of a sentence on what a matrix has.
function matrixInWords() {
    return state.matrix.name + " of " + state.mode.name + " has ";
}

// Answers a typed cell.
function askCell() {
    const numbers = [state.matrix.paired ? "pair" : null, "row", "column"].map(id => id ? Lookup.numberIn(at(id).value.trim(), Lookup.FRAMES) : 0);
    const cell = Lookup.cellAt(pack, state.matrix, numbers[0], numbers[1], numbers[2]);
    if (cell === null) {
        const rows = state.matrix.paired ? pack.pairRows : state.matrix.rows;
        const pairs = state.matrix.paired ? "block pairs 0 to " + (state.matrix.rows / rows - 1) + ", " : "";
        refuse(matrixInWords() + pairs + "rows 0 to " + (rows - 1) + " and columns 0 to " + (state.matrix.columns - 1) + ".");
        return;
    }
    mark(cell, true, false);
}

// Answers a typed coded bit: its matrix and L1 frame are shown, and its cell is marked.
function askBit() {
    const channel = channels().filter(known => known.name === at("channel").value)[0];
    const tframe = Lookup.numberIn(at("tframe").value.trim(), channel.lastFrame + 1);
    const bit = Lookup.numberIn(at("coded").value.trim(), channel.lastBit + 1);
    const from = at("since").hidden ? state.frame : Lookup.numberIn(at("from").value.trim(), Lookup.FRAMES);
    const found = [tframe, bit, from].indexOf(null) >= 0 ? null : Lookup.cellOf(pack, state.mode, from, channel.name, tframe, bit);
    if (!found) {
        const tframes = channel.lastFrame ? "s 0 to " + channel.lastFrame : " 0";
        refuse(channel.name + " of " + state.mode.name + " has transfer frame" + tframes + " and coded bits 0 to " + channel.lastBit + ".");
        return;
    }
    show(state.mode, found.matrix, found.frame);
    mark(found.cell, true, true);
    if (found.frame !== from) {
        say("Handed over in L1 frame " + from + ", it is sent in L1 frame " + found.frame + ", which is shown.");
    }
}

// Listens to forms and buttons.
function watchForms() {
    const submitted = (id, run) => at(id).addEventListener("submit", event => {
        event.preventDefault();
        run();
    });
    const clicked = (id, run) => at(id).addEventListener("click", run);
    submitted("cell", askCell);
    submitted("bit", askBit);
    submitted("choice", () => toFrame(at("frame").value));
    submitted("print", () => layOut() && window.print());
    at("frame").addEventListener("change", () => toFrame(at("frame").value));
    at("channel").addEventListener("change", askFrom);
    clicked("before", () => toFrame(Math.max(0, state.frame - 1)));
    clicked("after", () => toFrame(state.frame + 1));
    clicked("nearer", () => zoomMiddle(1.6));
    clicked("farther", () => zoomMiddle(1 / 1.6));
    clicked("whole", whole);
    clicked("here", () => scroll(true, true));
    clicked("measure", measure);
    at("files").addEventListener("change", () => {
        takeFiles(at("files").files);
        at("files").value = "";
    });
    window.addEventListener("beforeprint", layOut);
    window.addEventListener("resize", resized);
    const dark = window.matchMedia("(prefers-color-scheme: dark)");
    const turned = () => {
        takeColours();
        show(state.mode, state.matrix, state.frame);
    };
    dark.addEventListener ? dark.addEventListener("change", turned) : dark.addListener(turned);
}

// Shows the cell that the page's address names behind #, if it names one: MODE/FRAME/MATRIX/ROW/COLUMN, in PX1 and PX2 MODE/FRAME/MATRIX/PAIR/ROW/COLUMN.
function fromAddress() {
    const words = location.hash.slice(1).split("/");
    const mode = book.modes.filter(known => String(known.number) === words[0])[0];
    const matrix = mode ? Lookup.matrixOf(mode, words[2]) : null;
    const numbers = words.slice(3).concat(words[1]).map(word => Lookup.numberIn(word || "", Lookup.FRAMES));
    if (matrix && numbers.length === (matrix.paired ? 4 : 3) && numbers.indexOf(null) < 0) {
        const frame = numbers.pop();
        const cell = Lookup.cellAt(pack, matrix, matrix.paired ? numbers.shift() : 0, numbers[0], numbers[1]);
        if (cell !== null) {
            show(mode, matrix, frame);
            mark(cell, true, true);
        }
    }
}

// Writes the marked cell behind the page's address, so that it is shown again when the page is; late, since browsers refuse to do so often.
function toAddress() {
    clearTimeout(state.timer);
    state.timer = setTimeout(() => {
        const place = Lookup.placeOf(pack, state.matrix, state.cell);
        const words = [state.mode.number, state.frame, state.matrix.name].concat(state.matrix.paired ? place.pair : [], place.row, place.column);
        try {
            history.replaceState(null, "", "#" + words.join("/"));
        } catch (refused) {
            state.timer = 0;
        }
    }, 500);
}

// Begins with the whole PM of the last mode, or with the cell of the address.
function begin() {
    const names = [];
    book.modes.forEach(mode => mode.matrices.forEach(matrix => names.indexOf(matrix.name) < 0 && names.push(matrix.name)));
    options(at("modes"), "mode", book.modes.map(mode => [String(mode.number), mode.name]), word => {
        const mode = book.modes.filter(known => String(known.number) === word)[0];
        show(mode, Lookup.matrixOf(mode, state.matrix.name) || mode.matrices[0], state.frame);
    });
    options(at("matrices"), "matrix", names.map(name => [name, name]), word => show(state.mode, Lookup.matrixOf(state.mode, word), state.frame));
    takeColours();
    watchForms();
    watchPointers();
    watchKeys();
    show(state.mode, state.mode.matrices[0], 0);
    resized();
    whole();
    fromAddress();
    window.addEventListener("hashchange", fromAddress);
    state.ready = performance.now();
}

begin();
