// In the worker: the text of `picture` as rows of numbers, a place for each bit.

const LINE_END = 10;
const HEAD = 8;             // columns before the first bit
const LEVEL_BYTES = 3;      // of a level's sign in UTF-8
const DOMINANT_END = 0x81;  // the last byte of the sign of a dominant level

// Calls a function with the beginning and the end of each line.
function each_line(bytes, tell) {
    let from = 0;
    while (from < bytes.length) {
        let to = bytes.indexOf(LINE_END, from);
        if (to < 0) to = bytes.length;
        tell(from, to);
        from = to + 1;
    }
}

// Puts the levels of a line behind those of the blocks before: 1 recessive, 0 dominant.
function put_levels(bytes, from, to, levels, bit) {
    for (let at = from + HEAD; at + LEVEL_BYTES <= to; at += LEVEL_BYTES) {
        levels[bit] = bytes[at + LEVEL_BYTES - 1] === DOMINANT_END ? 0 : 1;
        bit += 1;
    }
}

// How many bits and nodes a picture has.
function extent(bytes) {
    let bits = 0;
    let nodes = 0;
    let blocks = 0;
    each_line(bytes, (from, to) => {
        const is_bus = bytes[from] === 0x62 && bytes[from + 1] === 0x75;
        if (is_bus) {
            blocks += 1;
            bits += (to - from - HEAD) / LEVEL_BYTES;
        } else if (bytes[from] === 0x6e && blocks === 1) nodes += 1;
    });
    return { bits, nodes };
}

// The rows of a picture: the levels of the bus, and of each node what it drives and the letters.
function read_picture(bytes) {
    const { bits, nodes } = extent(bytes);
    const bus = new Uint8Array(bits);
    const rows = Array.from({ length: nodes }, () => ({ driven: new Uint8Array(bits), letter: new Uint8Array(bits) }));
    let bit = 0;
    let node = -1;
    let next = 0;
    each_line(bytes, (from, to) => {
        const first = bytes[from];
        if (first === 0x62 && bytes[from + 1] === 0x75) {
            bit = next;
            next += (to - from - HEAD) / LEVEL_BYTES;
            node = -1;
            put_levels(bytes, from, to, bus, bit);
        } else if (first === 0x6e) {
            node += 1;
            put_levels(bytes, from, to, rows[node].driven, bit);
        } else if (first === 0x20 && node >= 0) rows[node].letter.set(bytes.subarray(from + HEAD, to), bit);
    });
    return { bits, bus, nodes: rows };
}
