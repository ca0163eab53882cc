// What a strike in each bit of each node would do: a strip under each node, filled in slices from what is seen
// outwards.

const SLICE_TOOK = 60;      // milliseconds that a slice may take, by which its length goes
const SWEEP_COLOURS = ["", "#cdebd3", "#ffe08a", "#e5534b"];
let sweeper = null;
let swept = null;
let wants_sweep = false;

// The outcome of a row: 1 nothing, 2 counters alone, 3 another one.
function outcome_of(words, counters) {
    if (!words.startsWith("same")) return 3;
    return words.endsWith(counters) ? 1 : 2;
}

// The counters at the end of a run, as a row of a sweep has them.
function counters_of(report) {
    return lines_of(report).map((line) => /^node (\d+) (tec \d+ rec \d+)/.exec(line)).filter(Boolean)
        .map((words) => `node ${words[1]} ${words[2]}`).join("; ");
}

// A sweep of a run, of which nothing is known yet.
function new_sweep(run) {
    return {
        run, counters: counters_of(run.texts.report), length: 8, at_work: 0,
        outcomes: run.nodes.map(() => new Uint8Array(run.bits)), words: new Map(), counts: new Map(),
        asked: run.nodes.map(() => new Uint8Array(run.bits)),
    };
}

// The next slice to do: of the node and bit that isn't asked for and is nearest to what is seen.
function next_slice(sweep) {
    const seen = bits_seen();
    const middle = within(Math.round((seen.first + seen.last) / 2), 0, sweep.run.bits - 1);
    let best = null;
    sweep.asked.forEach((asked, node) => {
        const behind = asked.indexOf(0, middle);
        const before = middle > 0 ? asked.lastIndexOf(0, middle - 1) : -1;
        for (const bit of [behind, before]) {
            if (bit >= 0 && (!best || Math.abs(bit - middle) < Math.abs(best.bit - middle))) best = { node, bit };
        }
    });
    if (!best) return null;
    const asked = sweep.asked[best.node];
    const from = best.bit >= middle ? best.bit : Math.max(0, best.bit - sweep.length + 1);
    let first = asked.indexOf(0, from);
    let last = first;
    while (last + 1 < sweep.run.bits && last + 1 - first < sweep.length && !asked[last + 1]) last += 1;
    asked.fill(1, first, last + 1);
    return { node: best.node, first, last };
}

// Enters the rows of a slice.
function enter_rows(sweep, printed) {
    for (const line of lines_of(printed)) {
        const words = /^(\d+) (\d+) (.*)$/.exec(line);
        const [node, bit, says] = [Number(words[1]), Number(words[2]), words[3]];
        sweep.outcomes[node][bit] = outcome_of(says, sweep.counters);
        sweep.words.set(node * sweep.run.bits + bit, says);
        const kind = says.replace(/^(same|other): (.*? at node \d+ bit \d+|no error); /, "$1: ");
        const known = sweep.counts.get(kind) || { count: 0, node, bit };
        known.count += 1;
        sweep.counts.set(kind, known);
    }
}

// Does slices one after another, until all are done or the plan changes.
async function go_on(sweep) {
    sweep.at_work += 1;
    while (sweep === swept && wants_sweep) {
        const slice = next_slice(sweep);
        if (!slice) break;
        const words = ["sweep", "--rows", "--only", String(slice.node), "--from", String(slice.first), "--to",
            String(slice.last)];
        const answer = await sweeper.call(words, sweep.run.text);
        if (sweep !== swept || answer.is_stopped) break;
        if (answer.status !== 0) {
            sweep.refusal = answer.told || answer.fault;
            break;
        }
        enter_rows(sweep, answer.printed);
        const factor = within(SLICE_TOOK / Math.max(1, answer.took), 0.5, 2);
        sweep.length = Math.round(within(sweep.length * factor, 1, 256));
        tell("sweep");
    }
    sweep.at_work -= 1;
    tell("sweep");
}

// Begins the sweep of the run that is shown, in as many workers as there are.
function begin_sweep() {
    if (!wants_sweep || !state.run || !state.is_good || state.run.texts.report === undefined) return;
    if (swept && swept.run === state.run && swept.at_work > 0) return;
    if (!swept || swept.run !== state.run) swept = new_sweep(state.run);
    for (let at = 0; at < sweeper.count; at += 1) go_on(swept);
}

// Stops the sweep: the plan has changed.
function end_sweep() {
    if (sweeper.is_busy()) sweeper.stop();
    swept = null;
    tell("sweep");
}

// What a strike does, where it is known.
function sweep_words(node, bit) {
    return swept && swept.run === state.run ? swept.words.get(node * swept.run.bits + bit) || "" : "";
}

// Draws the strip of a node: colours, and beside them a dot for counters and strokes for another outcome.
function draw_sweep(pen, node, seen, top) {
    if (!swept || swept.run !== shown_run()) return;
    const { scale } = state.view;
    let drawn_to = -1;
    for (let bit = seen.first; bit <= seen.last; bit += 1) {
        const outcome = swept.outcomes[node][bit];
        const x = x_of(bit);
        if (outcome === 0 || (outcome < 3 && x + scale < drawn_to)) continue;
        pen.fillStyle = SWEEP_COLOURS[outcome];
        pen.fillRect(x, top, Math.max(scale, 1), SWEEP_HIGH);
        drawn_to = x + Math.max(scale, 1);
        if (scale < 4 || outcome === 1) continue;
        pen.fillStyle = INK;
        if (outcome === 2) pen.fillRect(x + scale / 2 - 1, top + SWEEP_HIGH / 2 - 1, 2, 2);
        else for (let y = top + 1; y < top + SWEEP_HIGH; y += 3) pen.fillRect(x + 1, y, Math.max(1, scale - 2), 1);
    }
    draw_name(pen, "sweep", top + SWEEP_HIGH / 2);
}

// Shows the outcomes that were found, with how often each was; a click leads to the first one.
function show_outcomes() {
    const button = made("button", {
        type: "button", id: "sweep", "aria-pressed": String(wants_sweep), onclick: turn_sweep,
    }, wants_sweep ? "Stop the sweep" : "Sweep: what would each strike do?");
    if (!swept) {
        filled(element("outcomes"), button);
        return;
    }
    const total = swept.run.bits * swept.run.nodes.length;
    const rows = [...swept.counts].sort((one, other) => other[1].count - one[1].count).slice(0, 200)
        .map(([kind, known]) => made("button", {
            type: "button", class: "line", onclick: () => go_to(known.bit, known.node),
        }, `${String(known.count).padStart(5)}  ${kind}`));
    const note = swept.refusal || `${swept.words.size} of ${total} strikes tried, ${swept.counts.size} outcomes`;
    const list = made("div", { class: "list" }, ...rows);
    filled(element("outcomes"), button, made("span", { class: "note" }, ` ${note}`), list);
}

// Begins the sweep, or stops it.
function turn_sweep() {
    wants_sweep = !wants_sweep;
    if (wants_sweep) begin_sweep();
    else if (sweeper.is_busy()) sweeper.stop();
    show_outcomes();
    element("sweep").focus();
}

// Has the sweep follow the run.
function begin_sweeps() {
    when("plan", end_sweep);
    when("settled", begin_sweep);
    when("sweep", once_a_picture(show_outcomes));
    show_outcomes();
}
