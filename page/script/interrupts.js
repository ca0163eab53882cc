// The interrupt line of each node, where it is seen near by. It is asked for by runs that read IR after a bit, and only
// after bits in which something happened: between these it stays as it is.

const IR = 3;
const LINE_INK = "#6f2da8";

// Whether a counter or the state of a node is another one after a bit than before.
function is_turn_of_state(node, bit) {
    return [node.tec, node.rec, node.active, node.off].some((row) => row[bit] !== row[bit + 1]);
}

// The bits in which something happened to some node, in order; they are found once for a run.
function happening_bits(run) {
    if (run.happening_bits) return run.happening_bits;
    const found = new Set(run.trace.map(({ bit }) => Math.min(bit, run.bits - 1)));
    for (let bit = 0; bit < run.bits; bit += 1) {
        if (run.nodes.some((node) => is_turn_of_state(node, bit))) found.add(bit);
    }
    run.happening_bits = [...found].sort((one, other) => one - other);
    return run.happening_bits;
}

// Of these bits those that are seen, and the last one before them.
function happening_seen(run, seen) {
    const bits = happening_bits(run);
    return bits.slice(Math.max(0, first_from(bits, seen.first + 1) - 1), first_from(bits, seen.last + 1));
}

// Whether the line is drawn: each bit has a box, and a run takes little.
function has_lines(run) {
    return run !== null && run.texts.trace !== undefined && run.bits <= MOST_LIVE_BITS &&
        state.view.scale >= BOXES_FROM;
}

// Asks for the lines that are seen and not known yet.
async function ask_for_lines() {
    const run = state.run;
    if (!state.is_good || !has_lines(run)) return;
    run.lines ||= new Map();
    const asked = happening_seen(run, bits_seen()).filter((bit) => !run.lines.has(bit));
    for (const bit of asked) run.lines.set(bit, null);
    await Promise.all(asked.map(async (bit) => {
        const read = await registers_after(run, bit, [IR], sweeper);
        if (read) run.lines.set(bit, read.map((registers) => Number.parseInt(registers.get(IR), 16) > 0));
        else run.lines.delete(bit);
    }));
    if (asked.length > 0 && run === state.run) tell("lines");
}

// Whether the line of a node is active after a bit; nothing where that isn't known.
function line_after(run, node, bit) {
    if (!run.lines) return undefined;
    const bits = happening_bits(run);
    const known = run.lines.get(bits[first_from(bits, bit + 1) - 1]);
    return known ? known[node] : undefined;
}

// What is told of the line of a node.
function line_words(run, node, bit) {
    const is_active = line_after(run, node, bit);
    if (is_active === undefined) return "";
    return `interrupt line ${is_active ? "active" : "at rest"}`;
}

// Draws the line of a node: a bar where it is active.
function draw_line(pen, run, number, seen, top) {
    if (!has_lines(run) || !run.lines) return;
    const bits = happening_seen(run, seen);
    pen.fillStyle = LINE_INK;
    bits.forEach((bit, at) => {
        const known = run.lines.get(bit);
        if (!known || !known[number]) return;
        const to = at + 1 < bits.length ? bits[at + 1] : seen.last + 1;
        pen.fillRect(x_of(bit), top, x_of(to) - x_of(bit) + 0.5, LINE_HIGH - 1);
    });
    draw_name(pen, "INT ▬", top + LINE_HIGH / 2, LINE_INK);
}

// Has the lines follow run and view.
function begin_lines() {
    const ask = after_rest(120, ask_for_lines);
    for (const name of ["settled", "view"]) when(name, ask);
}
