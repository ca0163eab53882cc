// In the worker: the text of `wave` as rows of numbers, a place for each bit. A counter and a phase stand for what they
// were before the bit, so a row has one place more than there are bits.

const TIME_OF_BIT = 10;
const SIGNALS = { s: "seen", x: "struck", t: "tec", r: "rec", p: "phase", a: "active", f: "off" };
const HAPPENINGS = { m: "stored", o: "overrun" };

// How many bits a wave has: its last time, in bits.
function bits_of(text) {
    const last = text.lastIndexOf("#");
    return last < 0 ? 0 : Math.round(Number.parseInt(text.slice(last + 1), 10) / TIME_OF_BIT);
}

// How many nodes a wave has.
function nodes_of(text) {
    const heads = text.slice(0, text.indexOf("$enddefinitions")).match(/\$scope module node\d+/g);
    return heads ? heads.length : 0;
}

// The rows of a node, empty.
function empty_rows(bits) {
    const rows = { stored: [], overrun: [], since: {} };
    for (const name of Object.values(SIGNALS)) {
        rows[name] = new Uint8Array(bits + 1);
        rows.since[name] = { bit: 0, value: 0 };
    }
    return rows;
}

// Enters that a signal has this value from this bit on.
function enter(rows, name, bit, value) {
    const since = rows.since[name];
    rows[name].fill(since.value, since.bit, bit);
    since.bit = bit;
    since.value = value;
}

// Enters one change: of a row, or a message that was stored or lost with the bit before.
function enter_change(nodes, bit, signal, node, value) {
    if (signal in SIGNALS) enter(nodes[node], SIGNALS[signal], bit, value);
    else if (signal in HAPPENINGS && bit > 0) nodes[node][HAPPENINGS[signal]].push(bit - 1);
}

// Reads the line of a change, such as `1d0` or `r12 t0`.
function read_change(line, bit, nodes) {
    if (line[0] === "0" || line[0] === "1") {
        if (line.length > 2) enter_change(nodes, bit, line[1], Number(line.slice(2)), Number(line[0]));
    } else if (line[0] === "r") {
        const space = line.indexOf(" ");
        enter_change(nodes, bit, line[space + 1], Number(line.slice(space + 2)), Number(line.slice(1, space)));
    }
}

// The rows of a wave.
function read_wave(bytes) {
    const text = new TextDecoder().decode(bytes);
    const bits = bits_of(text);
    const nodes = Array.from({ length: nodes_of(text) }, () => empty_rows(bits));
    let bit = 0;
    let at = text.indexOf("#0");
    while (at >= 0 && at < text.length) {
        let end = text.indexOf("\n", at);
        if (end < 0) end = text.length;
        if (text[at] === "#") bit = Math.round(Number(text.slice(at + 1, end)) / TIME_OF_BIT);
        else read_change(text.slice(at, end), bit, nodes);
        at = end + 1;
    }
    for (const rows of nodes) {
        for (const name of Object.values(SIGNALS)) enter(rows, name, bits + 1, 0);
        delete rows.since;
    }
    return { bits, nodes };
}
