// Touch, mouse, pen and keys in the picture: one finger drags, two zoom, a tap marks.

// A finger that has gone no farther than this, in the page's pixels, has tapped.
const STILL = 12;

// Where each finger, mouse or pen that is down has begun and is now; whether one of them has moved, or there were two.
const held = new Map();
let dragged = false;

// The place of a pointer in the picture.
function placed(event) {
    const box = canvas.getBoundingClientRect();
    return { x: event.clientX - box.left, y: event.clientY - box.top };
}

// The middle of the first two pointers, and how far they are apart; of one pointer its place.
function grip() {
    const points = Array.from(held.values()).slice(0, 2).map(pointer => pointer.now);
    const last = points[points.length - 1];
    const wide = Math.hypot(points[0].x - last.x, points[0].y - last.y);
    return { x: (points[0].x + last.x) / 2, y: (points[0].y + last.y) / 2, wide: wide };
}

// Moves the picture with what holds it.
function dragTo(event) {
    const pointer = held.get(event.pointerId);
    if (!pointer) {
        return;
    }
    const before = grip();
    pointer.now = placed(event);
    const after = grip();
    dragged = dragged || Math.hypot(pointer.now.x - pointer.begun.x, pointer.now.y - pointer.begun.y) > STILL;
    if (dragged) {
        state.x += after.x - before.x;
        state.y += after.y - before.y;
        zoom(before.wide > 0 ? after.wide / before.wide : 1, after.x, after.y);
    }
}

// Listens to pointers and the wheel.
function watchPointers() {
    canvas.addEventListener("pointerdown", event => {
        if (event.button <= 0) {
            canvas.setPointerCapture(event.pointerId);
            dragged = held.size > 0;
            held.set(event.pointerId, { begun: placed(event), now: placed(event) });
        }
    });
    canvas.addEventListener("pointermove", dragTo);
    canvas.addEventListener("pointercancel", event => held.delete(event.pointerId));
    canvas.addEventListener("pointerup", event => {
        if (held.delete(event.pointerId) && !dragged) {
            tapped(placed(event));
        }
    });
    canvas.addEventListener("wheel", event => {
        event.preventDefault();
        const point = placed(event);
        zoom(Math.exp(-event.deltaY * (event.deltaMode ? .05 : .0018)), point.x, point.y);
    }, { passive: false });
}

// Marks the cell at a point of the picture.
function tapped(point) {
    const column = Math.floor((point.x - LEFT - state.x) / state.scale);
    const row = Math.floor((point.y - TOP - state.y) / state.scale);
    if (point.x >= LEFT && point.y >= TOP && column >= 0 && row >= 0 && column < state.matrix.columns && row < state.matrix.rows) {
        mark(row * state.matrix.columns + column, state.scale < 14, false);
    }
}

// Keys in the picture.
function watchKeys() {
    canvas.addEventListener("keydown", event => {
        const step = { ArrowLeft: [0, -1], ArrowRight: [0, 1], ArrowUp: [-1, 0], ArrowDown: [1, 0] }[event.key];
        if (event.ctrlKey || event.altKey || event.metaKey) {
            return;
        }
        if (step) {
            move(step[0] * (event.shiftKey ? pack.blockRows : 1), step[1] * (event.shiftKey ? pack.partition : 1));
        } else if (event.key === "+" || event.key === "=") {
            zoomMiddle(1.5);
        } else if (event.key === "-") {
            zoomMiddle(1 / 1.5);
        } else if (event.key === "0" || event.key === "Home") {
            whole();
        } else if (event.key === "Enter") {
            scroll(true, true);
        } else {
            return;
        }
        event.preventDefault();
    });
}

// Moves the marked cell, as far as the matrix goes.
function move(rows, columns) {
    const place = Lookup.placeOf(pack, state.matrix, state.cell);
    const within = (n, end) => Math.min(end - 1, Math.max(0, n));
    const row = within(place.across + rows, state.matrix.rows);
    mark(row * state.matrix.columns + within(place.column + columns, state.matrix.columns), false, false);
}
