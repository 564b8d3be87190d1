// Answers: whose bit the marked cell shows, where it stands, its value and its working.

// The marked cell as it is asked for.
function cellInWords(place) {
    const pair = state.matrix.paired ? " block pair " + place.pair + "," : "";
    return state.matrix.name + pair + " row " + place.row + ", column " + place.column;
}

// The L1 frame in which a bit was handed over, seen from the one that sends it.
function handed(owner) {
    return "of L1 frame " + owner.from + ", " + ["this one", "one before this", "two before this"][owner.age];
}

// Says whose bit the marked cell shows, where it stands, its value and its working.
function answer() {
    const place = Lookup.placeOf(pack, state.matrix, state.cell);
    const owner = Lookup.ownerOf(pack, state.matrix, state.frame, state.cell);
    const box = at("answer");
    box.textContent = "";
    box.appendChild(made("p", "asked", cellInWords(place)));
    box.appendChild(made("div", "told", [made("div", "", ownerInWords(owner)), valueBox(owner)]));
    box.appendChild(position(place));
    explain(owner);
    fillIn(place, owner);
    canvas.setAttribute("aria-label", "Picture of " + state.matrix.name + ", " + state.matrix.rows + " rows by " + state.matrix.columns + " columns. Marked: "
        + cellInWords(place) + ": " + (owner.fill ? "fill" : owner.channel + " transfer frame " + owner.tframe + " coded bit " + owner.bit));
}

// Whose bit it is, in the lines of the answer.
function ownerInWords(owner) {
    if (owner.fill) {
        const age = owner.age === 1 ? "one L1 frame" : "two L1 frames";
        const words = "The zero fill of a fresh start: a bit here is " + age + " old, and this is L1 frame " + state.frame + ".";
        return [made("p", "owner", "Fill"), made("p", "more", words)];
    }
    const bit = made("p", "owner", [owner.channel + " ", made("small", "", "coded bit "), String(owner.bit)]);
    const from = made("p", "more", "transfer frame " + owner.tframe);
    return state.matrix.paired ? [bit, from, made("p", "more", handed(owner))] : [bit, from];
}

// The value in the cell out of the dump, or else out of the working; or nothing.
function valueBox(owner) {
    const bytes = frameBytes();
    const working = workingOf(owner);
    const framed = (value, words) => made("div", "value", [made("b", "", value), made("span", "", words)]);
    if (bytes) {
        return framed(String(Lookup.bitIn(pack, state.mode, state.matrix, bytes, state.cell)), "in dump");
    }
    if (working && working.value !== "LATER") {
        return framed(working.value, "working");
    }
    const absent = files.dump && files.dump.mode === state.mode.number && state.frame >= files.dump.count;
    return absent ? framed("", "not in the dump") : made("div");
}

// The working of a coded bit, where a file has it.
function workingOf(owner) {
    const known = files.workings;
    if (owner.fill || !known || known.mode !== null && known.mode !== state.mode.number) {
        return null;
    }
    return known.by[Lookup.nameOf(owner.from, owner.channel, owner.tframe, owner.bit)] || null;
}

// Block, row, partition and column; in PX1 and PX2 of the L1 block too.
function position(place) {
    const list = made("dl", "place");
    [["Block", place.block], ["Row", place.blockRow], ["Partition", place.partition], ["Column", place.partitionColumn]].forEach(pair => {
        list.appendChild(made("dt", "", pair[0]));
        list.appendChild(made("dd", "", String(pair[1])));
    });
    return list;
}

// Puts the marked cell and its bit into the fields, but not into one that is being written in.
function fillIn(place, owner) {
    const values = { pair: place.pair, row: place.row, column: place.column, "print-block": place.block, "print-partition": place.partition };
    if (!owner.fill) {
        Object.assign(values, { channel: owner.channel, tframe: owner.tframe, coded: owner.bit, from: owner.from });
    }
    Object.keys(values).filter(id => document.activeElement !== at(id)).forEach(id => {
        at(id).value = values[id];
    });
    askFrom();
}

// P3 and P4 are sent up to two L1 frames later than they are handed over, so for them that L1 frame is asked for.
function askFrom() {
    const channel = channels().filter(known => known.name === at("channel").value)[0];
    at("since").hidden = !channel || !Lookup.matrixOf(state.mode, channel.matrix).paired;
}

// Shows the working of a coded bit, and where the transfer frame stands in a file of frames.
function explain(owner) {
    const box = at("working");
    box.textContent = "";
    const found = workingOf(owner);
    const inFrames = owner.fill ? null : framesPlace(owner);
    if (found) {
        showWorking(box, found);
    }
    if (inFrames) {
        showBytes(box, owner, inFrames, found);
    }
    box.hidden = !found && !inFrames;
}

// A working, field by field, with the line as it was printed.
function showWorking(box, found) {
    box.appendChild(made("h2", "", "Working"));
    const number = Number(found.number);
    const head = made("tr", "", [made("th", "", "bit")].concat(found.bits.map((bit, n) => made("td", "", n ? "j−" + n : "j"))));
    const row = (name, bits) => made("tr", "", [made("th", "", name)].concat(bits.map(bit => made("td", "", bit))));
    box.appendChild(made("table", "", [head, row("frame", found.bits), row("scrambler", found.scrambler)]));
    const list = made("dl");
    const term = (name, text) => {
        list.appendChild(made("dt", "", name));
        list.appendChild(made("dd", "", text));
    };
    term("j", String(number));
    term("Generator", found.generator + " (octal)");
    term("Sum", found.sum + (found.value === "LATER" ? ", sent after this run" : ", coded bit " + found.value));
    term("Step", "i = " + found.step + ", k = " + found.k);
    term("Written to", "block " + found.block + ", partition " + found.partition + ", row " + found.row + ", column " + found.column + ", cell " + found.cell);
    box.appendChild(list);
    const bytes = frameBytes();
    if (bytes && found.value !== "LATER" && String(Lookup.bitIn(pack, state.mode, state.matrix, bytes, state.cell)) !== found.value) {
        box.appendChild(made("p", "warn", "The dump holds another value than the working."));
    }
    box.appendChild(made("code", "", found.line));
}

// Where the bytes of the transfer frame stand in the opened file of frames.
function framesPlace(owner) {
    const frames = files.frames;
    if (!frames || !frames.by[state.mode.number] || owner.from >= frames.by[state.mode.number].count) {
        return null;
    }
    const channel = channels().filter(known => known.name === owner.channel)[0];
    return Lookup.bytesOf(state.mode, owner.channel, channel.lastFrame, owner.from, owner.tframe);
}

// The transfer frame in the file of frames: where its bytes stand, the first of them, and the information bit of the working.
function showBytes(box, owner, place, found) {
    const bytes = "bytes " + place.first + " to " + (place.first + place.length - 1) + " of " + files.frames.name;
    const text = made("p", "", owner.channel + " transfer frame " + owner.tframe + " of L1 frame " + owner.from + ": " + bytes);
    box.appendChild(made("h2", "", "Frames"));
    box.appendChild(text);
    const length = Math.min(place.length, found ? Math.floor(Number(found.number) / 8) + 1 : 10);
    const cell = state.cell;
    readBytes(files.frames.file, place.first, length, bytes => {
        if (!bytes || state.cell !== cell || !text.parentNode) {
            return;
        }
        const hex = Array.prototype.map.call(bytes.slice(0, 10), byte => (byte + 256).toString(16).slice(1).toUpperCase()).join(" ");
        text.textContent += ", beginning " + hex;
        if (found && bytes.length === length) {
            const bit = bytes[length - 1] >> 7 - Number(found.number) % 8 & 1;
            const same = String(bit) === found.bits[0];
            const end = same ? "." : ", and not as in the working.";
            box.appendChild(made("p", same ? "" : "warn", "Information bit " + found.number + " is " + bit + " in the frames" + end));
        }
    });
}
