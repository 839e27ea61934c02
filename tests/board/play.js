// Plays a table of calls against the proved library as WebAssembly, as play.c does on the boards:
//
//     node play.js KLUMDRAY.WASM CALLS.TABLE
//
// table.h says what a table is. Ends well only if nothing differs, the table was played to its end, and
// every function was called.
"use strict";

const fs = require("fs");
const path = require("path");

const GUARD = 16;
const GUARD_OCTET = 0xa5;
const PLACES = 13;
const NULL = 0, KEPT = 1, FILLED = 2, SENT = 3;

// The calls and their arguments, by tests/emulated/calls.h.
function functionsOf(text) {
    const functions = [];
    for (const part of text.split(/^CALL\(/m).slice(1)) {
        const [, answer, name] = /^(uint32_t|uint64_t), (klumdray_\w+),/.exec(part);
        const kinds = [...part.matchAll(/\b(NUMBER|SIGNED|OCTETS|ROOM)\(/g)].map((found) => found[1]);
        functions.push({ answer, name, kinds, calls: 0 });
    }
    return functions;
}

class Table {
    constructor(octets) {
        this.octets = octets;
        this.at = 8;
        if (octets.toString("latin1", 0, 8) !== "KDCALLS1") throw new Error("this is no table");
        this.count = this.number();
        this.most = Array.from({ length: PLACES }, () => this.number());
    }

    octet() {
        if (this.at >= this.octets.length) throw new Error("the table ends early");
        return this.octets[this.at++];
    }

    number() {
        this.at += 4;
        return this.octets.readUInt32LE(this.at - 4);
    }

    signed() {
        this.at += 8;
        return this.octets.readBigInt64LE(this.at - 8);
    }

    answer() {
        this.at += 8;
        return this.octets.readBigUInt64LE(this.at - 8);
    }

    take(length) {
        if (this.at + length > this.octets.length) throw new Error("the table ends early");
        this.at += length;
        return this.octets.subarray(this.at - length, this.at);
    }
}

// The library's memory with a part for each place, and beside it what each part has to hold.
class Memory {
    constructor(library, most) {
        let size = library.__heap_base.value;
        this.places = most.map((capacity) => {
            const place = { start: size, capacity, at: 0, length: 0, expected: null };
            size += capacity + 2 * GUARD + 4;
            return place;
        });
        const missing = size - library.memory.buffer.byteLength;
        if (missing > 0) library.memory.grow(Math.ceil(missing / 65536));
        this.octets = Buffer.from(library.memory.buffer);
    }

    // Slices begin at every place of a word in turn, as a caller's may.
    lend(place, length, calls) {
        if (length > place.capacity) throw new Error("a slice is longer than the table's head says");
        place.at = place.start + GUARD + (calls % 4);
        place.length = length;
        this.octets.fill(GUARD_OCTET, place.at - GUARD, place.at + length + GUARD);
        return this.octets.subarray(place.at, place.at + length);
    }

    // A slice with its guards.
    around(place) {
        return this.octets.subarray(place.at - GUARD, place.at + place.length + GUARD);
    }
}

class Player {
    constructor(library, functions, table) {
        Object.assign(this, { library, functions, table, done: 0, differences: 0 });
        this.memory = new Memory(library, table.most);
    }

    // A slice as pointer and length, and its place if there are octets to compare.
    slice(place) {
        const how = this.table.octet();
        if (how === NULL) return { place: null, length: 0, values: [0, 0n] };
        if (how === FILLED) {
            const length = this.table.number();
            this.memory.lend(place, length, this.done).fill(this.table.octet());
        } else if (how === SENT) {
            const octets = this.table.take(this.table.number());
            octets.copy(this.memory.lend(place, octets.length, this.done));
        } else if (how !== KEPT) {
            throw new Error(`a slice told by ${how}`);
        }
        if (how !== KEPT) place.expected = Buffer.from(this.memory.around(place));
        return { place, length: place.length, values: [place.at, BigInt(place.length)] };
    }

    // What a room has to hold after the call.
    room(slice) {
        const start = this.table.number();
        const octets = this.table.take(this.table.number());
        if (start + octets.length > slice.length) throw new Error("more than the room is told");
        if (slice.place) octets.copy(slice.place.expected, GUARD + start);
    }

    play() {
        const called = this.functions[this.table.octet()];
        if (!called) throw new Error("no such function");
        const slices = [];
        const values = called.kinds.map((kind, place) => {
            if (kind === "NUMBER") return [this.table.number()];
            if (kind === "SIGNED") return [this.table.signed()];
            slices[place] = this.slice(this.memory.places[place]);
            return slices[place].values;
        });
        const expected = this.table.answer();
        called.kinds.forEach((kind, place) => kind === "ROOM" && this.room(slices[place]));
        const given = this.library[called.name](...values.flat());
        // As a caller widens it: what is given as 32 bits may come as a negative number.
        const answer = BigInt.asUintN(called.answer === "uint64_t" ? 64 : 32, BigInt(given));
        this.compare(called, values, slices, answer, expected);
        called.calls++;
        this.done++;
    }

    compare(called, values, slices, answer, expected) {
        const wrong = slices.filter(({ place }) =>
            place && !this.memory.around(place).equals(place.expected));
        if (answer === expected && wrong.length === 0) return;
        if (this.differences++ === 0) this.tell(called, values, slices, answer, expected);
        for (const { place } of wrong) place.expected.copy(this.memory.around(place));
    }

    tell(called, values, slices, answer, expected) {
        console.log(`call ${this.done}, ${called.name}: ${values.map(String).join("; ")}`);
        console.log(`  answer ${answer.toString(16)}, expected ${expected.toString(16)}`);
        slices.forEach(({ place }, argument) => {
            if (!place) return;
            const found = this.memory.around(place);
            const at = found.findIndex((octet, index) => octet !== place.expected[index]);
            if (at < 0) return;
            console.log(`  argument ${argument} of ${place.length} octets, octet ${at - GUARD}: ` +
                `${found[at].toString(16)}, expected ${place.expected[at].toString(16)}`);
        });
    }
}

function main(libraryFile, tableFile) {
    const calls = fs.readFileSync(path.join(__dirname, "../emulated/calls.h"), "latin1");
    const functions = functionsOf(calls);
    const compiled = new WebAssembly.Module(fs.readFileSync(libraryFile));
    const library = new WebAssembly.Instance(compiled, {}).exports;
    const table = new Table(fs.readFileSync(tableFile));
    const player = new Player(library, functions, table);
    let isWhole = true;
    try {
        while (player.done < table.count) player.play();
        isWhole = table.at === table.octets.length;
    } catch (error) {
        console.log(`behind call ${player.done} of ${table.count}: ${error.message}`);
        isWhole = false;
    }
    const called = functions.filter((each) => each.calls > 0).length;
    console.log(`${player.done} calls over ${called} functions, ${player.differences} differences`);
    return isWhole && player.differences === 0 && called === functions.length;
}

process.exit(main(process.argv[2], process.argv[3]) ? 0 : 1);
