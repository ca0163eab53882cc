// The texts of the program, read into what the page asks of them. Their form is that of the pages REPORT, TRACE and
// FRAMES.

// The steps of each node that a report tells, in order: what each answered.
function answers_of(report) {
    const nodes = [];
    for (const line of lines_of(report)) {
        const words = /^(node|step) (\d+) (.*)$/.exec(line);
        if (!words) continue;
        if (words[1] === "node") nodes.push([]);
        else nodes[nodes.length - 1].push(words[3]);
    }
    return nodes;
}

// The lines of a trace, each with its bit, its node and, where it is one, its step.
function read_trace(text) {
    return lines_of(text).map((line) => {
        const words = /^bit (\d+) node (\d+)(?: step (\d+))?: (.*)$/.exec(line);
        if (!words) return { line, bit: 0, node: 0, step: 0, says: line };
        return { line, bit: Number(words[1]), node: Number(words[2]), step: Number(words[3] || 0), says: words[4] };
    });
}

// The fields of a frame's line: name, first and last bit, stuff bits.
function fields_of(text) {
    const fields = [];
    const form = /([A-Za-z][A-Za-z0-9 ]*?) (\d+)(?:-(\d+))?(?: \(stuff ([\d, ]+)\))?(?:, |; |$)/g;
    for (const words of text.matchAll(form)) {
        fields.push({
            name: words[1],
            first: Number(words[2]),
            last: Number(words[3] || words[2]),
            stuff: words[4] ? words[4].split(", ").map(Number) : [],
        });
    }
    return fields;
}

// The frames that nodes start, in order: who, which, its fields, and how it ended.
function read_frames(text) {
    return lines_of(text).map((line) => {
        const words = /^frame (\d+) node (\d+) (\S+): ([^;]*)(?:; (.*))?$/.exec(line);
        if (!words) return { line, number: 0, node: 0, name: line, fields: [], first: 0, last: 0, end: "" };
        const fields = fields_of(words[4]);
        const [first, last] = [fields[0], fields[fields.length - 1]];
        return {
            line,
            number: Number(words[1]),
            node: Number(words[2]),
            name: words[3],
            fields,
            first: first ? first.first : 0,
            last: last ? last.last : 0,
            end: words[5] || "",
        };
    });
}

// The number of the first bit of a field as the data sheet counts it, downwards; 0 where it counts upwards from 1.
function highest_bit(name, field) {
    if (name === "ID" || name === "base ID") return 28;
    if (name === "ID extension") return 17;
    if (name === "DLC") return 3;
    if (name === "CRC sequence") return 14;
    return field === "data" ? 7 : 0;
}

// The name of a bit within its field, such as `ID.18`, `data 1.7` or `EOF.3`.
function bit_name(field, bit) {
    if (field.stuff.includes(bit)) return `stuff bit of ${field.name}`;
    const place = bit - field.first - field.stuff.filter((it) => it < bit).length;
    if (field.name === "data") return `data ${Math.floor(place / 8) + 1}.${7 - (place % 8)}`;
    const short = field.name.replace(/ sequence| extension|base /, "");
    const highest = highest_bit(field.name, field.name);
    if (highest > 0) return `${short}.${highest - place}`;
    return field.name === "EOF" || field.name === "intermission" ? `${field.name}.${place + 1}` : field.name;
}

// The frame that is on the bus in a bit, with the field and the bit's name; or none. Of several the last to begin.
function place_in_frames(frames, bit) {
    for (let at = first_from(frames, bit + 1, (it) => it.first) - 1; at >= 0 && at > first_of(frames, bit); at -= 1) {
        const frame = frames[at];
        const field = frame.fields.find((it) => it.first <= bit && bit <= it.last);
        if (field) return { frame, field, name: bit_name(field, bit) };
    }
    return null;
}

// How far back a frame is looked for: eight nodes may begin one in each try.
function first_of(frames, bit) {
    return first_from(frames, bit + 1, (it) => it.first) - 10;
}

// What a letter of a picture says.
const LETTERS = {
    S: ["sof", "SOF"], s: ["stuff", "stuff bit"], I: ["id", "identifier"], R: ["rtr", "RTR or SRR"],
    X: ["control", "IDE"], 1: ["control", "r1"], 0: ["control", "r0"], L: ["control", "DLC"], D: ["data", "data field"],
    C: ["crc", "CRC sequence"], A: ["ack", "ACK slot"], E: ["eof", "EOF"], d: ["delimiter", "delimiter"],
    F: ["active", "active error flag"], P: ["passive", "passive error flag"], O: ["overload", "overload flag"],
    i: ["gap", "intermission"], p: ["suspend", "suspend transmission"], "-": ["idle", "bus idle"],
    w: ["waiting", "waiting for the bus"], ".": ["reset", "in reset"], x: ["struck", "struck"],
};

// The colours of a drawing by kind.
const COLOURS = {
    sof: "#8c959f", stuff: "#fff176", id: "#9ecbff", rtr: "#6cb6ff", control: "#c8b6ff", data: "#a6e3a1",
    crc: "#ffcf8f", ack: "#7fdbca", eof: "#d0d7de", active: "#ff8a80", passive: "#ffb3c7", overload: "#d6a2e8",
    delimiter: "#e6d5c3", gap: "#dfe4ea", suspend: "#dbe4c9", idle: "#f0f0f0", waiting: "#e8f0fb", reset: "#afb8c1",
    struck: "#ffffff",
};
const PHASES = [
    "in reset", "waiting for the bus", "bus idle", "in a frame", "in an error flag", "in an overload flag",
    "in the delimiter of a flag", "in intermission", "in suspend transmission",
];
