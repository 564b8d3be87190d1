// The picture of a matrix: what is drawn, and how it is zoomed and moved.

const canvas = document.getElementById("picture");
const pen = canvas.getContext("2d");

// The matrix with a pixel for each cell, painted when mode, matrix or L1 frame changes.
const sheet = document.createElement("canvas");

// The room of the rulers, in the page's pixels.
const LEFT = 56;
const TOP = 34;

// The width of a cell in the page's pixels: that a tap zooms in to, the greatest, and from which on digits and coded bits are drawn.
const NEAR = 34;
const NEAREST = 72;
const DIGITS = 26;
const NAMES = 50;

const COLOURS = "text quiet empty ruler mark rule thin digit c0 c0s c1 c1s c2 c2s c3 c3s fill".split(" ");
let colours = {};
let pending = false;

// The colours of the light or the dark page.
function takeColours() {
    const style = getComputedStyle(document.documentElement);
    colours = {};
    COLOURS.forEach(name => {
        colours[name] = style.getPropertyValue("--" + name).trim();
    });
}

// The colour of a kind of cell: P1 and PIDS in PM, the age in PX1 and PX2, fill where a bit of that age would be older than the run.
function colourOf(kind) {
    if (kind[2] > state.frame) {
        return "fill";
    }
    return state.matrix.paired ? ["c0", "c2", "c3"][kind[2]] : kind[0] === "P1" ? "c0" : "c1";
}

// Red, green and blue of a colour #rrggbb as a pixel.
function pixelOf(colour) {
    const value = parseInt(colour.slice(1), 16);
    return (255 << 24 | (value & 255) << 16 | (value >> 8 & 255) << 8 | value >> 16) >>> 0;
}

// Paints the matrix anew, a pixel for each cell; blocks of a partition are told apart by shade.
function paint() {
    const matrix = state.matrix;
    const table = Lookup.tableOf(matrix, state.frame);
    const plain = table.kinds.map(kind => pixelOf(colours[colourOf(kind)]));
    const shaded = table.kinds.map(kind => pixelOf(colours[colourOf(kind) + "s"] || colours[colourOf(kind)]));
    sheet.width = matrix.columns;
    sheet.height = matrix.rows;
    const image = sheet.getContext("2d").createImageData(matrix.columns, matrix.rows);
    const pixels = new Uint32Array(image.data.buffer);
    for (let row = 0, cell = 0; row < matrix.rows; row++) {
        const odd = Math.floor(row / pack.blockRows) % 2;
        for (let column = 0; column < matrix.columns; column++, cell++) {
            const kind = table.cells[cell] >>> pack.bitWidth;
            pixels[cell] = (Math.floor(column / pack.partition) + odd) % 2 ? shaded[kind] : plain[kind];
        }
    }
    sheet.getContext("2d").putImageData(image, 0, 0);
}

// The size of the picture in the page's pixels.
function size() {
    return { wide: canvas.clientWidth, high: canvas.clientHeight };
}

// The scale at which the whole matrix is seen.
function fitting() {
    const room = size();
    return Math.max(.2, Math.min((room.wide - LEFT - 8) / state.matrix.columns, (room.high - TOP - 8) / state.matrix.rows));
}

// Keeps the scale between the whole matrix and single cells, and the matrix in sight.
function bound() {
    const room = size();
    state.scale = state.whole ? fitting() : Math.min(NEAREST, Math.max(fitting(), state.scale));
    const along = (place, length, cells) => {
        const spare = length - cells * state.scale;
        return spare >= 0 ? spare / 2 : Math.max(spare, Math.min(0, place));
    };
    state.x = along(state.x, room.wide - LEFT - 8, state.matrix.columns);
    state.y = along(state.y, room.high - TOP - 8, state.matrix.rows);
}

// Draws at the next turn of the screen.
function redraw() {
    if (!pending) {
        pending = true;
        requestAnimationFrame(() => {
            pending = false;
            draw();
        });
    }
}

// Fits the canvas to its place.
function resized() {
    const room = size();
    const dots = window.devicePixelRatio || 1;
    canvas.width = Math.round(room.wide * dots);
    canvas.height = Math.round(room.high * dots);
    bound();
    redraw();
}

// Draws what is in sight.
function draw() {
    const room = size();
    const dots = canvas.width / Math.max(1, room.wide);
    pen.setTransform(dots, 0, 0, dots, 0, 0);
    pen.fillStyle = colours.empty;
    pen.fillRect(0, 0, room.wide, room.high);
    pen.save();
    pen.beginPath();
    pen.rect(LEFT, TOP, room.wide - LEFT, room.high - TOP);
    pen.clip();
    pen.translate(LEFT + state.x, TOP + state.y);
    pen.imageSmoothingEnabled = state.scale < 1;
    pen.drawImage(sheet, 0, 0, state.matrix.columns * state.scale, state.matrix.rows * state.scale);
    drawCells(inSight(room));
    drawRules();
    drawMark();
    pen.restore();
    drawRulers(room);
}

// The rows and columns in sight.
function inSight(room) {
    const scale = state.scale;
    return {
        left: Math.max(0, Math.floor(-state.x / scale)), right: Math.min(state.matrix.columns, Math.ceil((room.wide - LEFT - state.x) / scale)),
        top: Math.max(0, Math.floor(-state.y / scale)), bottom: Math.min(state.matrix.rows, Math.ceil((room.high - TOP - state.y) / scale)),
    };
}

// Lines between cells, and in each cell what there is room for: the value, and the coded bit.
function drawCells(sight) {
    const scale = state.scale;
    if (scale < 9) {
        return;
    }
    lines(colours.thin, 1, sight.left, sight.right, sight.top, sight.bottom, 1, 1);
    const values = frameBytes();
    pen.fillStyle = colours.digit;
    pen.textAlign = "center";
    pen.textBaseline = "middle";
    const named = scale >= NAMES;
    if (values && scale < DIGITS) {
        drawOnes(values, sight);
    } else if (values) {
        setFont("600 " + (named ? scale * .4 : Math.min(22, scale * .7)) + "px sans-serif");
        drawTexts(sight, named ? -.14 : .04, cell => Lookup.bitIn(pack, state.mode, state.matrix, values, cell));
    }
    if (named) {
        setFont(scale * .235 + "px sans-serif");
        drawTexts(sight, values ? .3 : 0, cell => shortName(Lookup.ownerOf(pack, state.matrix, state.frame, cell)));
    }
}

// A text in each cell in sight, so far below its middle, by parts of a cell.
function drawTexts(sight, below, textOf) {
    const scale = state.scale;
    for (let row = sight.top; row < sight.bottom; row++) {
        for (let column = sight.left; column < sight.right; column++) {
            pen.fillText(textOf(row * state.matrix.columns + column), (column + .5) * scale, (row + .5 + below) * scale);
        }
    }
}

// A square in each cell that is 1, where there is no room for a digit.
function drawOnes(values, sight) {
    const scale = state.scale;
    const side = Math.round(scale * .4);
    for (let row = sight.top; row < sight.bottom; row++) {
        for (let column = sight.left; column < sight.right; column++) {
            if (Lookup.bitIn(pack, state.mode, state.matrix, values, row * state.matrix.columns + column)) {
                pen.fillRect(Math.round((column + .5) * scale - side / 2), Math.round((row + .5) * scale - side / 2), side, side);
            }
        }
    }
}

// Sets the font only where it changes, since that costs more than a digit.
function setFont(font) {
    if (pen.fontAsked !== font) {
        pen.fontAsked = font;
        pen.font = font;
    }
}

// An owner in the room of a cell: P1 has one transfer frame, the others TFRAME/BIT.
function shortName(owner) {
    return owner.fill ? "fill" : owner.channel === "P1" ? String(owner.bit) : owner.tframe + "/" + owner.bit;
}

// Upright and level lines, one for each so many columns and rows.
function lines(colour, width, left, right, top, bottom, columns, rows) {
    const scale = state.scale;
    pen.strokeStyle = colour;
    pen.lineWidth = width;
    pen.beginPath();
    for (let column = Math.ceil(left / columns) * columns; columns && column <= right; column += columns) {
        pen.moveTo(column * scale, top * scale);
        pen.lineTo(column * scale, bottom * scale);
    }
    for (let row = Math.ceil(top / rows) * rows; rows && row <= bottom; row += rows) {
        pen.moveTo(left * scale, row * scale);
        pen.lineTo(right * scale, row * scale);
    }
    pen.stroke();
}

// Partitions and blocks; in PX1 and PX2 block pairs are ruled more strongly.
function drawRules() {
    const matrix = state.matrix;
    const strong = state.scale >= 9 ? 2 : 1;
    lines(colours.rule, strong, 0, matrix.columns, 0, matrix.rows, pack.partition, pack.blockRows);
    if (matrix.paired) {
        lines(colours.rule, strong + 1.5, 0, matrix.columns, 0, matrix.rows, 0, pack.pairRows);
    }
}

// The marked cell, with lines through its row and column and a ring where it is small.
function drawMark() {
    const scale = state.scale;
    const place = Lookup.placeOf(pack, state.matrix, state.cell);
    const x = place.column * scale;
    const y = place.across * scale;
    pen.strokeStyle = colours.mark;
    pen.lineWidth = 1;
    pen.globalAlpha = .55;
    pen.beginPath();
    pen.moveTo(0, y + scale / 2);
    pen.lineTo(state.matrix.columns * scale, y + scale / 2);
    pen.moveTo(x + scale / 2, 0);
    pen.lineTo(x + scale / 2, state.matrix.rows * scale);
    if (scale < 9) {
        pen.stroke();
    }
    pen.globalAlpha = 1;
    pen.lineWidth = 3;
    pen.beginPath();
    if (scale < 9) {
        pen.arc(x + scale / 2, y + scale / 2, 10, 0, 7);
    } else {
        pen.rect(x, y, scale, scale);
    }
    pen.stroke();
}

// The numbers of partitions and blocks along the edges, and of columns and rows where there is room.
function drawRulers(room) {
    const scale = state.scale;
    const sight = inSight(room);
    const mark = Lookup.placeOf(pack, state.matrix, state.cell);
    pen.fillStyle = colours.ruler;
    pen.fillRect(0, 0, room.wide, TOP);
    pen.fillRect(0, 0, LEFT, room.high);
    pen.textAlign = "center";
    pen.textBaseline = "middle";
    const single = scale >= DIGITS;
    const across = single ? 1 : pack.partition;
    for (let n = Math.floor(sight.left / across); n * across < sight.right; n++) {
        const first = Math.max(sight.left, n * across);
        const last = Math.min(sight.right, (n + 1) * across);
        label(String(n), LEFT + state.x + (first + last) * scale / 2, TOP / 2, (single ? mark.column : mark.partition) === n, single);
    }
    const down = single ? 1 : state.matrix.paired ? pack.pairRows : pack.blockRows;
    for (let n = Math.floor(sight.top / down); n * down < sight.bottom; n++) {
        const first = Math.max(sight.top, n * down);
        const last = Math.min(sight.bottom, (n + 1) * down);
        const shown = single && state.matrix.paired ? n % pack.pairRows : n;
        const marked = single ? mark.across === n : (state.matrix.paired ? mark.pair : mark.block) === n;
        label(String(shown), LEFT / 2, TOP + state.y + (first + last) * scale / 2, marked, single);
    }
    pen.fillStyle = colours.ruler;
    pen.fillRect(0, 0, LEFT, TOP);
    pen.fillStyle = colours.quiet;
    setFont("12.5px sans-serif");
    pen.fillText(single ? "col →" : "part →", LEFT / 2, 10);
    pen.fillText(single ? "row ↓" : state.matrix.paired ? "pair ↓" : "block ↓", LEFT / 2, 25);
}

// A number on a ruler, strong where the marked cell stands.
function label(text, x, y, marked, single) {
    setFont((marked ? "700 " : "") + (single && text.length > 2 ? 14 : 16) + "px sans-serif");
    pen.fillStyle = marked ? colours.mark : colours.text;
    pen.fillText(text, x, y);
}

// Zooms by a factor about a point of the picture.
function zoom(factor, x, y) {
    const before = state.scale;
    state.scale = Math.min(NEAREST, Math.max(fitting(), before * factor));
    state.whole = state.scale === fitting();
    const real = state.scale / before;
    state.x = x - LEFT - (x - LEFT - state.x) * real;
    state.y = y - TOP - (y - TOP - state.y) * real;
    bound();
    redraw();
}

// Zooms about the marked cell where that is in sight, else about the middle.
function zoomMiddle(factor) {
    const room = size();
    const place = Lookup.placeOf(pack, state.matrix, state.cell);
    const x = LEFT + state.x + (place.column + .5) * state.scale;
    const y = TOP + state.y + (place.across + .5) * state.scale;
    const seen = x > LEFT && y > TOP && x < room.wide && y < room.high;
    zoom(factor, seen ? x : (room.wide + LEFT) / 2, seen ? y : (room.high + TOP) / 2);
}

// Shows the whole matrix, and keeps it so when the window changes.
function whole() {
    state.whole = true;
    bound();
    redraw();
}

// Moves the picture until the marked cell is in its middle, or, where that is enough, in sight.
function scroll(near, middle) {
    const room = size();
    const wide = room.wide - LEFT - 8;
    const high = room.high - TOP - 8;
    const place = Lookup.placeOf(pack, state.matrix, state.cell);
    if (near && state.scale < NEAR) {
        state.scale = NEAR;
        state.whole = false;
        middle = true;
    }
    const x = (place.column + .5) * state.scale;
    const y = (place.across + .5) * state.scale;
    const edge = Math.min(state.scale * 1.5, wide / 4, high / 4);
    if (middle || x + state.x < edge || x + state.x > wide - edge) {
        state.x = wide / 2 - x;
    }
    if (middle || y + state.y < edge || y + state.y > high - edge) {
        state.y = high / 2 - y;
    }
    bound();
    redraw();
}
