// libnulbiko in a browser, or wherever WebAssembly runs: the call of include/nulbiko.h that prints a whole page.
//
//     const nulbiko = await Nulbiko.load(await fetch("nulbiko.wasm").then((answer) => answer.arrayBuffer()));
//     nulbiko.page(macros, text, 78)

const DONE = 0, LIMIT = 1, FULL = 4;
const MOST = 1 << 26; // the most bytes that a page makes

// Sizes and places in the structs, where a pointer has four bytes.
const REPORT = { size: 48, written: 4, at: 8, moves: 16, limit: 24, dropped: 32, line: 40 };
const LIMITS = { size: 48, stored: 8, depth: 16, cells: 24, expansions: 32, moves: 40 };
const OPTIONS = { size: 56, macros: 4, macros_length: 8, first: 16, width: 24, table: 28, form: 32, bold: 36, long_page: 37,
    mdoc: 38, tables: 39, formats: 40, row: 44, set_page: 48 };
const STRUCTS = REPORT.size + LIMITS.size + OPTIONS.size;
// The table that the page takes, and UTF-8 with backspaces.
const CHOSEN = 6, UTF8 = 1;

export const LIMITS_OF_STRANGERS = { stored: 262144, depth: 64, cells: 65536, expansions: 10000, moves: 100000000 };

// A page was not printed whole: `limit`, `at` and `line` say which limit, after how many bytes of what the formatter reads after
// the macros, and at which line of the page; `bytes` is what was whole before.
export class Stopped extends Error {
    constructor(outcome, limit, { at, line, moves, bytes }) {
        super(`document: ${limit ? `${limit} limit passed at byte ${at}${line ? `, line ${line}` : ""}` : outcome}`);
        Object.assign(this, { outcome, limit, at, line, moves, bytes });
    }
}

export class Nulbiko {
    static async load(bytes) {
        return new Nulbiko((await WebAssembly.instantiate(bytes, {})).instance.exports);
    }

    constructor(exports) {
        this.exports = exports;
        this.begin = this.end = 0;
    }

    // Memory of the page's own, which the library never takes: it is kept for the next call.
    room(size) {
        if (this.end - this.begin < size) {
            const pages = Math.ceil(size / 65536);
            this.begin = this.exports.memory.grow(pages) * 65536;
            this.end = this.begin + pages * 65536;
        }
        return this.begin;
    }

    name(call, number) {
        const bytes = new Uint8Array(this.exports.memory.buffer, this.exports[call](number));
        return new TextDecoder().decode(bytes.slice(0, bytes.indexOf(0)));
    }

    get version() {
        return this.name("nulbiko_version");
    }

    // Prints a manual page of this width, to UTF-8; both texts are bytes, `macros` those of tmac.an.
    page(macros, text, width = 78, limits = LIMITS_OF_STRANGERS) {
        for (let capacity = Math.min(2 * text.length + 8192, MOST); ; capacity = Math.min(2 * capacity, MOST)) {
            const [outcome, limit, made] = this.print(macros, text, width, limits, capacity);
            if (outcome === FULL && capacity < MOST) continue;
            if (outcome === DONE) return made;
            throw new Stopped(this.name("nulbiko_outcome_name", outcome),
                outcome === LIMIT ? this.name("nulbiko_limit_name", limit) : null, made);
        }
    }

    // The same with room for so many bytes: the outcome, the limit, and what is reported beside.
    print(macros, text, width, limits, capacity) {
        const place = this.room(STRUCTS + macros.length + text.length + capacity);
        const bounds = place + REPORT.size, options = bounds + LIMITS.size;
        const before = place + STRUCTS, input = before + macros.length, output = input + text.length;
        let view = new DataView(this.exports.memory.buffer);
        new Uint8Array(view.buffer).set(macros, before);
        new Uint8Array(view.buffer).set(text, input);
        view.setUint32(place, REPORT.size, true);
        view.setUint32(bounds, LIMITS.size, true);
        for (const [name, bound] of Object.entries(limits)) view.setBigUint64(bounds + LIMITS[name], BigInt(bound), true);
        view.setUint32(options, OPTIONS.size, true);
        const set = { macros: before, macros_length: macros.length, width, table: CHOSEN, form: UTF8, formats: 1 << 18,
            row: 1 << 14, set_page: 1 << 24 };
        for (const [name, number] of Object.entries(set)) view.setUint32(options + OPTIONS[name], number, true);
        view.setBigInt64(options + OPTIONS.first, 1n, true);
        for (const name of ["bold", "long_page", "mdoc", "tables"]) view.setUint8(options + OPTIONS[name], name !== "bold");
        const outcome = this.exports.nulbiko_document(bounds, options, input, text.length, output, capacity, place);
        view = new DataView(this.exports.memory.buffer);
        const reported = (field) => Number(view.getBigUint64(place + REPORT[field], true));
        const bytes = new Uint8Array(view.buffer).slice(output, output + view.getUint32(place + REPORT.written, true));
        return [outcome, view.getUint32(place + REPORT.limit, true),
            { bytes, at: reported("at"), line: reported("line"), moves: reported("moves"), dropped: reported("dropped") }];
    }
}
