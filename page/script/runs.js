// The run of the plan in the editor: which calls it takes, and what is kept of it.

const MOST_LIVE_BITS = 20000;     // a run of more bits isn't made at each key
const TEXTS = [
    ["report", ["run"]], ["trace", ["trace"]], ["frames", ["frames"]], ["candump", ["candump", "--errors"]],
];
let runner = null;
let stop_timer = 0;

// A letter's code where a flag or an overload begins.
const FLAG_CODES = ["F", "P", "O"].map((letter) => letter.charCodeAt(0));

// The bits in which a flag of some node begins, in order.
function flags_of(nodes, bits) {
    const found = new Set();
    for (const { letter } of nodes) {
        for (let bit = 0; bit < bits; bit += 1) {
            if (FLAG_CODES.includes(letter[bit]) && letter[bit] !== letter[bit - 1]) found.add(bit);
        }
    }
    return [...found].sort((one, other) => one - other);
}

// What is kept of a run of which picture and wave have come.
function run_of(text, picture, wave) {
    const none = { driven: new Uint8Array(0), letter: new Uint8Array(0) };
    const nodes = wave.rows.nodes.map((rows, node) => ({ ...(picture.rows.nodes[node] || none), ...rows }));
    return {
        text, bits: picture.rows.bits, bus: picture.rows.bus, nodes, flags: flags_of(nodes, picture.rows.bits),
        texts: {}, frames: [], trace: [], answers: [],
    };
}

// Enters a text of a run that has come.
function enter_text(run, name, printed) {
    run.texts[name] = printed;
    if (name === "frames") run.frames = read_frames(printed);
    if (name === "trace") run.trace = read_trace(printed);
    if (name === "report") run.answers = answers_of(printed);
}

// Says that the plan can't be shown, and why; the last good run stays, greyed.
function show_failure(answer) {
    state.is_good = false;
    state.mistake = answer.is_stopped ? "stopped: the plan was taking long" : answer.told || answer.fault;
    tell("mistake");
}

// Shows the button that stops a run, once it takes long.
function begin_waiting() {
    clearTimeout(stop_timer);
    stop_timer = setTimeout(() => { element("stop").hidden = false; }, 400);
}

// Takes the button away.
function end_waiting() {
    clearTimeout(stop_timer);
    element("stop").hidden = true;
}

// Fetches the texts of a run that is shown already.
async function fetch_texts(run, generation) {
    await Promise.all(TEXTS.map(async ([name, words]) => {
        const answer = await runner.call(words, run.text);
        if (generation !== state.generation || answer.status !== 0) return;
        enter_text(run, name, answer.printed);
        tell(name);
    }));
    const check = await runner.call(["check"], run.text);
    if (generation !== state.generation) return;
    run.texts.check = check.printed || "";
    tell("check");
    tell("settled");
}

// The first answer that isn't good, with what `check` says of the plan where it is none.
async function why_not(text, answers) {
    const bad = answers.find((answer) => answer.status !== 0);
    if (!bad) return null;
    if (bad.status === 1) {
        const check = await runner.call(["check"], text);
        if (check.status === 1) return check;
    }
    return bad.status === 5 ? { fault: "memory was refused: the plan is too large for this browser" } : bad;
}

// Runs the plan in the editor, and shows what it comes to.
async function run_plan() {
    const text = state.text;
    state.generation += 1;
    const generation = state.generation;
    performance.mark("asked");
    element("run").hidden = true;
    runner.drop_waiting();
    tell("plan");
    begin_waiting();
    const [picture, wave] = await Promise.all(
        [runner.call(["picture"], text, "picture"), runner.call(["wave"], text, "wave")]);
    if (generation !== state.generation) return;
    const bad = await why_not(text, [picture, wave]);
    if (generation !== state.generation) return;
    end_waiting();
    if (bad) {
        show_failure(bad);
        return;
    }
    if (state.is_new_plan) state.before = null;
    else if (state.run && state.run.text !== text) state.before = state.run;
    state.is_new_plan = false;
    state.run = run_of(text, picture, wave);
    state.is_good = true;
    state.mistake = "";
    move_cursor(state.cursor.node, state.cursor.bit);
    tell("mistake");
    tell("run");
    await fetch_texts(state.run, generation);
}

// Runs what was typed; a plan whose run was long waits for its button.
function run_typed() {
    const is_long = state.run !== null && state.run.bits > MOST_LIVE_BITS;
    element("run").hidden = !is_long;
    if (!is_long) run_plan();
}

// Stops what takes long; the next edit runs again.
function stop_run() {
    runner.stop();
    end_waiting();
}
