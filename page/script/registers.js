// The registers of each node at the cursor. They are read by a run of a plan that is made for it: the steps that were
// done up to the bit, the bits up to it, and then a read of each register.

// Of each register its address, its name and the names of its bits, from bit 7 on. IR stands last: a read clears it.
const REGISTERS = [
    [0, "MOD", ". . . SM AFM STM LOM RM"], [2, "SR", "BS ES TS RS TCS TBS DOS RBS"],
    [4, "IER", "BEIE ALIE EPIE WUIE DOIE EIE TIE RIE"], [11, "ALC", ""], [12, "ECC", ""], [13, "EWLR", ""],
    [14, "RXERR", ""], [15, "TXERR", ""], [29, "RMC", ""], [3, "IR", "BEI ALI EPI WUI DOI EI TI RI"],
];
const WINDOW = Array.from({ length: 13 }, (_, at) => 16 + at);
const ECC_ERRORS = ["bit error", "form error", "stuff error", "other error"];
const ECC_SEGMENTS = {
    3: "SOF", 2: "ID.28 to ID.21", 6: "ID.20 to ID.18", 4: "SRTR", 5: "IDE", 7: "ID.17 to ID.13", 15: "ID.12 to ID.5",
    14: "ID.4 to ID.0", 12: "RTR", 13: "reserved bit 1", 9: "reserved bit 0", 11: "DLC", 10: "data field",
    8: "CRC sequence", 24: "CRC delimiter", 25: "ACK slot", 27: "ACK delimiter", 26: "EOF", 18: "intermission",
    17: "active error flag", 22: "passive error flag", 19: "dominant bits tolerated", 23: "error delimiter",
    28: "overload flag",
};
const ALL_READS = [...REGISTERS.slice(0, -1).map(([address]) => address), ...WINDOW, 3];
let registers_asked = 0;

// The version that a plan names.
function version_of(text) {
    const words = /^\s*"?version"?\s*=\s*(\d)/m.exec(text);
    return words ? Number(words[1]) : 1;
}

// The turns that do the same steps with the same bits before them, up to a bit, and then so many reads of each node.
function turns_up_to(trace, nodes, bit, reads) {
    const turns = [];
    let so_far = 0;
    const steps = trace.filter((it) => it.step > 0 && it.bit <= bit);
    for (let at = 0; at < steps.length;) {
        const here = steps[at].bit;
        const counts = new Array(nodes).fill(0);
        while (at < steps.length && steps[at].bit === here) {
            counts[steps[at].node] += 1;
            at += 1;
        }
        if (here > so_far) turns.push(`bus ${here - so_far}`);
        so_far = here;
        counts.forEach((count, node) => { if (count > 0) turns.push(`node ${node} ${count}`); });
    }
    turns.push(`bus ${bit + 1 - so_far}`);
    for (let node = 0; node < nodes; node += 1) turns.push(`node ${node} ${reads}`);
    return turns;
}

// A list of texts as a plan has it.
function written_list(texts) {
    return `[${texts.map((text) => `"${text}"`).join(", ")}]`;
}

// The plan that reads these registers after a bit, and how many steps each node does before.
function reading_plan(run, bit, addresses) {
    const nodes = run.nodes.length;
    const scripts = lists_of(run.text).filter((list) => list.name === "steps").map((list) => list.items);
    const done = Array.from({ length: nodes }, (_, node) =>
        run.trace.filter((it) => it.step > 0 && it.node === node && it.bit <= bit).length);
    const faults = faults_of(run.text);
    const parts = [
        `version = ${version_of(run.text)}`, `bits = ${bit + 1}`,
        `turns = ${written_list(turns_up_to(run.trace, nodes, bit, addresses.length))}`,
        `faults = ${written_list(faults ? faults.items.map((item) => item.says) : [])}`,
    ];
    for (let node = 0; node < nodes; node += 1) {
        const steps = (scripts[node] || []).slice(0, done[node]).map((item) => item.says);
        parts.push("[[node]]", `steps = ${written_list([...steps, ...addresses.map((it) => `read ${it}`)])}`);
    }
    return { plan: `${parts.join("\n")}\n`, done };
}

// What these registers of each node read after a bit: by address, as answers of a report. It is asked of some workers.
async function registers_after(run, bit, addresses = ALL_READS, workers = runner) {
    if (bit < 0) return null;
    const { plan, done } = reading_plan(run, bit, addresses);
    const answer = await workers.call(["run"], plan);
    if (answer.status !== 0) return null;
    return answers_of(answer.printed).map((answers, node) => {
        const read = new Map();
        addresses.forEach((address, at) => read.set(address, answers[done[node] + at]));
        return read;
    });
}

// What a register's value says, in words or as its bits.
function value_words(name, value, bits) {
    const number = Number.parseInt(value, 16);
    if (name === "ECC") {
        if (number === 0) return "nothing captured";
        const segment = ECC_SEGMENTS[number & 31] || `segment ${number & 31}`;
        return `${ECC_ERRORS[number >> 6]}, ${number & 32 ? "receiving" : "transmitting"}, ${segment}`;
    }
    if (!bits) return String(number);
    const names = bits.split(" ");
    return names.filter((bit, at) => bit !== "." && number & (128 >> at)).join(" ") || "no bit";
}

// The row of a register: name, value, words; bold where it was otherwise before the bit.
function register_row([address, name, bits], now, before) {
    const value = now.get(address);
    const is_read = /^[0-9a-f]{2}$/.test(value || "");
    const is_changed = before && before.get(address) !== value;
    const words = is_read ? value_words(name, value, bits) : value || "not read";
    return made("tr", { class: is_changed ? "changed" : "" },
        made("th", { scope: "row" }, `${is_changed ? "± " : ""}${name}`), made("td", {}, is_read ? value : "-"),
        made("td", {}, words));
}

// The table of a node.
function register_table(node, now, before) {
    const window_now = WINDOW.map((address) => now.get(address) || "--").join(" ");
    const line = Number.parseInt(now.get(3), 16) > 0 ? "active" : "at rest";
    return made("table", { class: "registers" },
        made("caption", {}, `node ${node}: interrupt line ${line}`),
        ...REGISTERS.map((register) => register_row(register, now, before)),
        made("tr", {}, made("th", { scope: "row" }, "16-28"), made("td", { colspan: "2" }, window_now)));
}

// Reads and shows the registers at the cursor.
async function show_registers() {
    registers_asked += 1;
    const asked = registers_asked;
    const run = state.run;
    const { bit } = state.cursor;
    if (!run || run.texts.trace === undefined) return;
    const [now, before] = await Promise.all([registers_after(run, bit), registers_after(run, bit - 1)]);
    if (asked !== registers_asked || shown_tab !== "registers") return;
    if (!now) {
        const why = "The registers can't be read here: the plan has no room for the steps that read them.";
        filled(element("panel"), made("p", { class: "empty" }, why));
        return;
    }
    filled(element("panel"), made("p", {}, `After bit ${bit}, before the steps that follow it:`),
        ...now.map((read, node) => register_table(node, read, before ? before[node] : null)));
}

// Has the table follow the cursor.
function begin_registers() {
    const ask = after_rest(80, () => { if (shown_tab === "registers") show_registers(); });
    for (const name of ["cursor", "trace"]) when(name, ask);
}
