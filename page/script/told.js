// The line below the picture: what the bit under the pointer is, or else the one at the cursor.

// A counter before and after a bit.
function counter_words(name, counts, bit) {
    const [before, after] = [counts[bit], counts[bit + 1]];
    return before === after ? `${name} ${after}` : `${name} ${before} -> ${after}`;
}

// A level as a word.
function level_word(level) {
    return level ? "recessive" : "dominant";
}

// What is told of a node in a bit.
function node_words(run, number, bit) {
    const node = run.nodes[number];
    const letter = String.fromCharCode(node.letter[bit]);
    const kind = LETTERS[letter] ? LETTERS[letter][1] : "";
    const words = [
        `node ${number}: ${kind} (${letter})`,
        `drives ${level_word(node.driven[bit])}`,
        `sees ${level_word(node.seen[bit])}`,
        counter_words("TEC", node.tec, bit),
        counter_words("REC", node.rec, bit),
        line_words(run, number, bit),
        PHASES[node.phase[bit]] || "",
    ];
    const is_in_the_plan = state.is_good && is_struck_in(state.text, number, bit);
    if (node.struck[bit]) words.push(is_in_the_plan ? "struck: a click takes the strike away" : "struck");
    return words.filter((word) => word !== "").join(", ");
}

// What is told of a bit: its number, its place in a frame, and a node.
function bit_words(run, place) {
    const found = place_in_frames(run.frames, place.bit);
    const { name, frame } = found || {};
    const where = found ? `${name} of frame ${frame.number}, ${frame.name} of node ${frame.node}` : "no frame";
    const parts = [`bit ${place.bit}`, `bus ${level_word(run.bus[place.bit])}`, where];
    if (place.node >= 0) parts.push(node_words(run, place.node, place.bit));
    parts.push(...happened_in(run, place));
    const swept = place.node >= 0 ? sweep_words(place.node, place.bit) : "";
    if (swept) parts.push(`a strike here: ${swept}`);
    return parts.join(" · ");
}

// The trace's lines of a node in a bit, but for its steps.
function happened_in(run, place) {
    const from = first_from(run.trace, place.bit, (it) => it.bit);
    const found = [];
    for (let at = from; at < run.trace.length && run.trace[at].bit === place.bit; at += 1) {
        if (run.trace[at].node === place.node && run.trace[at].step === 0) found.push(run.trace[at].says);
    }
    return found;
}

// Shows the line.
function show_told() {
    const run = shown_run();
    const box = element("told");
    if (!run || run.bits === 0) {
        box.textContent = run ? "no bit was run" : "";
        return;
    }
    const parts = [bit_words(run, state.pointer || state.cursor)];
    if (state.mark !== null) {
        const between = Math.abs(state.mark - state.cursor.bit);
        parts.push(`from bit ${Math.min(state.mark, state.cursor.bit)} to ${Math.max(state.mark, state.cursor.bit)}: ` +
            `${between} bits on`);
    }
    if (state.shows_before) parts.unshift("THE RUN BEFORE");
    box.setAttribute("aria-live", state.pointer ? "off" : "polite");
    box.textContent = parts.join(" · ");
}

// The legend: colours with their letters, and signs with their words.
function show_legend() {
    const boxes = Object.entries(LETTERS).filter(([letter]) => letter !== "x").map(([letter, [kind, name]]) => {
        const box = made("span", { class: "swatch" }, letter);
        box.style.background = COLOURS[kind];
        return made("span", { class: "of-legend" }, box, ` ${name}`);
    });
    const signs = [
        ["✗", "struck"], ["▲", "message stored"], ["△", "message lost"], ["▬", "interrupt line active"],
        ["┄ violet", "the run before, and what changed"],
    ].map(([sign, name]) => made("span", { class: "of-legend" }, made("b", {}, sign), ` ${name}`));
    filled(element("legend"), ...boxes, ...signs);
}

// So many of something, in words.
function counted(count, name) {
    return `${count} ${name}${count === 1 ? "" : "s"}`;
}

// The statistics of a run, in a line.
function show_statistics() {
    const run = shown_run();
    if (!run) return;
    const broken = run.frames.filter((frame) => frame.end.startsWith("broken off")).length;
    const lost = run.frames.filter((frame) => frame.end.startsWith("arbitration lost")).length;
    const whole = run.frames.filter((frame) => frame.end === "").length;
    const taken = run.nodes.length > 0 ? bits_in_frames(run) : 0;
    const stored = run.nodes.reduce((sum, node) => sum + node.stored.length, 0);
    const gone = run.nodes.reduce((sum, node) => sum + node.overrun.length, 0);
    const load = run.bits > 0 ? Math.round((taken * 100) / run.bits) : 0;
    element("statistics").textContent = `${counted(run.bits, "bit")}, ${load} % in frames; ` +
        `${counted(whole, "frame")} sent, ${broken} broken off, ${lost} lost arbitration; ` +
        `${counted(stored, "message")} stored, ${gone} lost; flags begin in ${counted(run.flags.length, "bit")}`;
}

// How many bits are taken by frames.
function bits_in_frames(run) {
    let to = -1;
    let sum = 0;
    for (const frame of run.frames) {
        if (frame.last <= to) continue;
        sum += frame.last - Math.max(frame.first - 1, to);
        to = frame.last;
    }
    return sum;
}

// Has the line follow pointer, cursor and run.
function begin_told() {
    const ask = once_a_picture(show_told);
    for (const name of ["run", "cursor", "pointer", "frames", "trace", "view", "sweep", "lines"]) when(name, ask);
    for (const name of ["run", "frames"]) when(name, show_statistics);
    show_legend();
}
