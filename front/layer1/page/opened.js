// Files that are opened: a dump, frames, workings. They are only read, and stay on the device.

// The file of each sort, and the bytes of the L1 frame that is shown out of the dump.
const files = { dump: null, frames: null, workings: null, bytes: null, bytesOf: -1, list: [] };

// The bytes of the L1 frame out of the dump, once they are read; nothing without a dump of this mode and L1 frame.
function frameBytes() {
    return files.dump && files.dump.mode === state.mode.number && files.bytesOf === state.frame ? files.bytes : null;
}

// Reads bytes of a file, and hands them on; nothing where that fails.
function readBytes(file, first, length, then) {
    const reader = new FileReader();
    reader.onload = () => then(new Uint8Array(reader.result));
    reader.onerror = () => then(null);
    reader.readAsArrayBuffer(file.slice(first, first + length));
}

// Reads the L1 frame out of the dump, where it has it.
function readFrame() {
    const dump = files.dump;
    const frame = state.frame;
    files.bytes = null;
    files.bytesOf = -1;
    if (dump && frame < dump.count) {
        readBytes(dump.file, dump.start + frame * dump.length, dump.length, bytes => {
            if (files.dump === dump && state.frame === frame && bytes && bytes.length === dump.length) {
                files.bytes = bytes;
                files.bytesOf = frame;
                answer();
                redraw();
            }
        });
    }
}

// Takes files that were picked, each by what it is.
function takeFiles(picked) {
    Array.prototype.forEach.call(picked, file => readBytes(file, 0, 8, head => takeFile(file, head)));
}

// Takes a file: a dump by its mark, frames by length, workings by their lines.
function takeFile(file, head) {
    if (head === null) {
        listed(file, "it cannot be read", true);
        return;
    }
    const dump = Lookup.dumpOf(pack, head, file.size);
    if (!dump.refused || head[0] === 72 && head[1] === 68 && head[2] === 77) {
        takeDump(file, dump);
        return;
    }
    const by = {};
    book.modes.forEach(mode => {
        by[mode.number] = head[0] <= 7 ? Lookup.framesOf(mode, file.size) : null;
    });
    const fitting = book.modes.filter(mode => by[mode.number]);
    if (fitting.length) {
        files.frames = { file: file, name: file.name, by: by };
        const what = fitting.map(mode => by[mode.number].count + " L1 frames of " + mode.name).join(" or ");
        listed(file, "frames: " + what + ". For the values open what layer1 send makes of it.", false, "frames");
        answer();
        return;
    }
    takeText(file, dump.refused);
}

// Takes a dump, and goes over to its mode.
function takeDump(file, dump) {
    const mode = book.modes.filter(known => known.number === dump.mode)[0];
    if (dump.refused || !mode) {
        listed(file, dump.refused || "a dump of MP" + dump.mode + ", whose cells are not in this page", true);
        return;
    }
    files.dump = { file: file, mode: dump.mode, count: dump.count, length: dump.length, start: dump.start };
    files.bytesOf = -1;
    listed(file, "dump: " + dump.count + " L1 frame" + (dump.count === 1 ? "" : "s") + " of " + mode.name, false, "dump");
    show(mode, Lookup.matrixOf(mode, state.matrix.name) || mode.matrices[0], state.frame);
    readFrame();
}

// Takes workings; anything else is refused.
function takeText(file, otherwise) {
    if (file.size > 1 << 24) {
        listed(file, otherwise, true);
        return;
    }
    const reader = new FileReader();
    reader.onload = () => {
        const found = Lookup.workingsOf(reader.result);
        if (found) {
            files.workings = found;
            listed(file, "workings of " + found.count + " coded bit" + (found.count === 1 ? "" : "s"), false, "workings");
            answer();
        } else {
            listed(file, "neither a dump, nor frames of a mode, nor workings", true);
        }
    };
    reader.onerror = () => listed(file, "it cannot be read", true);
    reader.readAsText(file);
}

// Notes a file with what it is; one of the same sort takes the place of the last, and a refused one goes with the next.
function listed(file, words, refused, sort) {
    files.list = files.list.filter(entry => !entry.refused && (refused || entry.sort !== sort));
    files.list.push({ name: file.name, words: words, refused: refused, sort: sort });
    showFiles();
}

// The list of files.
function showFiles() {
    at("opened").textContent = "";
    files.list.forEach(entry => {
        const item = made("li", "", made("span", entry.refused ? "refused" : "", entry.name + ": " + entry.words));
        if (!entry.refused) {
            const button = made("button", "", "Close");
            button.type = "button";
            button.setAttribute("aria-label", "close " + entry.name);
            button.addEventListener("click", () => closeFile(entry));
            item.appendChild(button);
        }
        at("opened").appendChild(item);
    });
}

// Forgets a file.
function closeFile(entry) {
    files[entry.sort] = null;
    files.list = files.list.filter(other => other !== entry);
    showFiles();
    readFrame();
    answer();
    redraw();
}
